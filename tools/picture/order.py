"""The order of a history: its pairs, which of its events are dead, and where each event stands in a picture."""

MOST_BENDS = 4000


class Order:
    """`pairs` are those that batches added, oldest first; `events` and `dead` are numbers of events.

    `where` has for each event in a pair its place, across and down, in units of one event; `bends` has for each pair
    the places that its line goes through between its ends. `loose` are the events in no pair. `made`, `bound` and
    `died` have the places in the history at which an event, a pair and a dead event came to be so.
    """

    def __init__(self, history):
        self.pairs, self.after, self.events, self.dead = [], {}, [], set()
        self.made, self.bound, self.died = {}, {}, {}
        for line in history:
            self.take(line)
        bound = {event for pair in self.pairs for event in pair}
        self.loose = [event for event in self.events if event not in bound]
        self.where, self.bends = {}, {}
        if bound:
            Layers(self, sorted(bound))

    def take(self, line):
        """One entry of the history: place, client, number, command = reply."""
        place = int(line.split()[0])
        command, reply = (part.split() for part in line.split(" ", 3)[3].split(" = "))
        if reply[0] == "created":
            self.events.append(int(reply[1]))
            self.made[int(reply[1])] = place
        elif reply == ["count", "0"]:
            self.dead.add(int(command[1]))
            self.died[int(command[1])] = place
        elif reply[0] == "assigned":
            for sign in "!?":
                for pair, outcome in zip(command[1:], reply[1:]):
                    if sign in pair and outcome == "kept":
                        self.add(*(int(event) for event in pair.split(sign)), place)

    def add(self, first, second, place):
        if not self.reaches(first, second):
            self.pairs.append((first, second))
            self.bound[first, second] = place
            self.after.setdefault(first, []).append(second)

    def reaches(self, first, second):
        seen, todo = set(), [first]
        while todo:
            for event in self.after.get(todo.pop(), []):
                if event == second:
                    return True
                if event not in seen:
                    seen.add(event)
                    todo.append(event)
        return False


class Layers:
    """Events by layers: each stands below all that are before it. Lines past a layer have a bend of their own there."""

    def __init__(self, order, events):
        self.order = order
        depth = self.depths(events)
        self.rows = [[] for _ in range(max(depth.values()) + 1)]
        for event in events:
            self.rows[depth[event]].append(event)
        self.up, self.down = {}, {}
        span = sum(depth[b] - depth[a] - 1 for a, b in order.pairs)
        for a, b in order.pairs:
            steps = [a, b]
            if span <= MOST_BENDS:
                steps = [a] + [(a, b, row) for row in range(depth[a] + 1, depth[b])] + [b]
            for bend in steps[1:-1]:
                self.rows[bend[2]].append(bend)
            for upper, lower in zip(steps, steps[1:]):
                self.down.setdefault(upper, []).append(lower)
                self.up.setdefault(lower, []).append(upper)
        self.sort()
        across = self.spread()
        order.where = {event: (across[event], depth[event]) for event in events}
        for a, b in order.pairs:
            rows = range(depth[a] + 1, depth[b]) if span <= MOST_BENDS else ()
            order.bends[a, b] = [(across[a, b, row], row) for row in rows]

    def depths(self, events):
        above = {event: 0 for event in events}
        for _, second in self.order.pairs:
            above[second] += 1
        depth, todo = {event: 0 for event in events}, [event for event in events if not above[event]]
        for event in todo:
            for second in self.order.after.get(event, []):
                depth[second] = max(depth[second], depth[event] + 1)
                above[second] -= 1
                if not above[second]:
                    todo.append(second)
        return depth

    def sort(self):
        """Each row by the mean place of its neighbours, down and up some times, so that few lines cross."""
        for turn in range(8):
            near = self.up if turn % 2 == 0 else self.down
            rows = self.rows if turn % 2 == 0 else self.rows[::-1]
            for beside, row in zip(rows, rows[1:]):
                place = {item: at for at, item in enumerate(beside)}
                mean = {}
                for at, item in enumerate(row):
                    places = [place[other] for other in near.get(item, []) if other in place]
                    mean[item] = sum(places) / len(places) if places else at
                row.sort(key=lambda item: mean[item])

    def spread(self):
        """Places across: near the neighbours, at least one unit apart, a bend half of that."""
        across = {}
        for row in self.rows:
            self.pack(row, {item: at - (len(row) - 1) / 2 for at, item in enumerate(row)}, across)
        for turn in range(6):
            for row in self.rows if turn % 2 == 0 else self.rows[::-1]:
                wish = {}
                for item in row:
                    near = self.up.get(item, []) + self.down.get(item, [])
                    wish[item] = sum(across[other] for other in near) / len(near)
                self.pack(row, wish, across)
        least = min(across.values())
        return {item: place - least for item, place in across.items()}

    def pack(self, row, wish, across):
        room = [0.5 if isinstance(item, tuple) else 1.0 for item in row]
        right, left = [], []
        for at, item in enumerate(row):
            apart = (room[at] + room[at - 1]) / 2
            right.append(wish[item] if at == 0 else max(wish[item], right[-1] + apart))
        for at in range(len(row) - 1, -1, -1):
            apart = (room[at] + room[at + 1]) / 2 if left else 0
            left.append(wish[row[at]] if not left else min(wish[row[at]], left[-1] - apart))
        for item, a, b in zip(row, right, left[::-1]):
            across[item] = (a + b) / 2
