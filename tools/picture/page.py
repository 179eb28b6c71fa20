"""Lays out a run and its order, and writes them as one SVG, 850 units wide.

First stands the order of events, large; then the run, a row for each line; then the history. In a row stand, from left
to right, the line, the columns of clients and servers with the packets as arrows, and what the line led to and why. So
no arrow comes near those words. All text is of one width a letter: what fits where is known before it is drawn.
"""
import re
from xml.sax.saxutils import escape

from .rows import rows

WIDE, EDGE = 850, 14
TEXT, SMALL, LARGE = 12, 11, 16
LETTER = 0.603
LINE, LEAST = 15, 26
GUTTER, LINE_LETTERS = 158, 15
UNIT, TALL, ROUND = 92, 56, 19
AGAIN = 25
PAPER, INK, SOFT, FAINT, STRIPE = "#fbfaf7", "#1d2125", "#565b61", "#d3d0c8", "#f1efe9"
RED, BLUSH, PALE, LANE = "#b3261e", "#fbe7e4", "#ececea", "#b9b5ab"
COLOURS = {
    "request": "#2348a8",
    "append": "#0a7a50",
    "ack": "#62676d",
    "reply": "#a84a06",
    "view": "#8050c8",
    "ask": "#0b7285",
    "answer": "#b4236a",
    "refer": "#8a6508",
    "joined": "#2b1160",
}
STROKES = {"view": 2.4, "joined": 2.4}
FACTS = {"told": INK, "grown": SOFT, "view": "#6f3fbf", "stop": RED, "refused": RED}
PLURAL = {"reply": "replies"}
WORDS = {"c": "client", "s": "server", "m": "manager"}


def wrap(text, width, indent=""):
    """The text in lines of at most so many letters, cut at spaces, or within a word where it is longer."""
    lines = [""]
    for word in text.split(" "):
        while True:
            space = " " if lines[-1].strip() else ""
            if len(lines[-1] + space + word) <= width:
                lines[-1] += space + word
                break
            if lines[-1].strip():
                lines.append(indent)
            else:
                room = width - len(lines[-1])
                lines[-1] += word[:room]
                word = word[room:]
                lines.append(indent)
    return lines


def wrap_fact(text, width):
    """A line of a transcript, where a number stays with its word."""
    whole = re.sub(r"\b(view|log|done|held|pairs|waiting|at|by) (?=\S)", "\\1\0", text)
    return [line.replace("\0", " ") for line in wrap(whole, width, "  ")]


def num(value):
    text = "%.1f" % value
    return text[:-2] if text.endswith(".0") else text


class Arrow:
    """Packets of one kind that go the same way between the same rows, drawn as one."""

    def __init__(self, packet, begin, end, how):
        self.packet, self.begin, self.end, self.how = packet, begin, end, how
        self.packets = [packet]


class Page:
    def __init__(self, name, run, order, reasons, all_steps):
        self.name, self.run, self.order, self.all_steps = name, run, order, all_steps
        self.stripes, self.under, self.arrows, self.over = [], [], [], []
        self.rows = rows(run, reasons, all_steps)
        self.row_of = {index: row for row in self.rows for index in row.indices}
        self.columns()
        self.packets = self.pick()

    # Where things stand

    def columns(self):
        """The columns of nodes, and how many letters a reason has beside them."""
        run = self.run
        self.nodes = ["c%d" % c for c in range(1, run.clients + 1)] + ["s%d" % s for s in range(1, run.servers + 1)]
        seen = [packet for packet in run.packets.values() if packet.sent in self.row_of]
        if any("m" in (packet.sender, packet.receiver) and self.ends(packet) for packet in seen):
            self.nodes.append("m")
        self.letters = 40 if len(self.nodes) <= 4 else 34 if len(self.nodes) <= 6 else 31
        self.words_x = WIDE - EDGE - self.letters * TEXT * LETTER
        first, last = GUTTER + 24, self.words_x - 40
        gaps = max(len(self.nodes) - 1, 1)
        self.gap = (last - first) / gaps
        self.x = {node: first + at * self.gap for at, node in enumerate(self.nodes)}

    def ends(self, packet):
        """Where its arrows end: rows and how, `taken`, `lost` or `waits`."""
        if packet.sent not in self.row_of:
            return []
        found = [(self.row_of[taken], "taken") for taken in packet.taken if taken in self.row_of]
        if packet.lost is not None:
            found.append((self.row_of[packet.lost], "lost"))
        elif not packet.taken and (self.all_steps or not self.run.steps[packet.sent].of_round):
            found.append((self.row_of[packet.sent], "waits"))
        return found

    def numbered(self, packet):
        """Whether a line of the script names it, or could."""
        ends = [end for end in packet.taken + [packet.lost] if end is not None]
        return self.all_steps or not ends or any(not self.run.steps[end].of_round for end in ends)

    def pick(self):
        """The arrows: of those that nobody has to tell apart, one for all."""
        found = {}
        for packet in self.run.packets.values():
            for end, how in self.ends(packet):
                begin = self.row_of[packet.sent]
                key = id(begin), id(end), how, packet.sender, packet.receiver, packet.kind
                if self.numbered(packet) or key not in found:
                    found[key + ((packet.number,) if self.numbered(packet) else ())] = Arrow(packet, begin, end, how)
                else:
                    found[key].packets.append(packet)
        return list(found.values())

    def label(self, arrows):
        """What stands beside arrows, which are several where nobody has to tell them apart: as much as has room."""
        packets = [packet for arrow in arrows for packet in arrow.packets]
        kind = packets[0].kind
        if len(packets) > 1:
            return "%d %s" % (len(packets), PLURAL.get(kind, kind + "s"))
        number = "%d " % packets[0].number if self.numbered(packets[0]) else ""
        full = number + packets[0].what
        return full if len(full) * SMALL * LETTER < self.gap - 10 else number + kind

    def labels(self, row):
        """The labels of the arrows that begin in a row, by node and side, each with its arrows."""
        found = {}
        for arrow in self.packets:
            if arrow.begin is row:
                packet = arrow.packet
                side = 1 if self.x[packet.receiver] > self.x[packet.sender] else -1
                same = packet.number if self.numbered(packet) else packet.kind
                found.setdefault((packet.sender, side), {}).setdefault(same, []).append(arrow)
        return {place: [(self.tag(arrows), arrows) for arrows in tags.values()] for place, tags in found.items()}

    def tag(self, arrows):
        """The label of arrows; one packet that was taken several times has several arrows and one label."""
        first = arrows[0].packet
        return self.label([arrows[0]] if all(arrow.packet is first for arrow in arrows) else arrows)

    def measure(self, top):
        for row in self.rows:
            row.line = wrap(row.text, LINE_LETTERS, "  ")
            row.words = []
            for text, kind in row.facts:
                row.words += [(line, FACTS[kind], kind != "grown") for line in wrap_fact(text, self.letters)]
            row.words += [(line, SOFT, False) for line in (wrap(row.reason, self.letters) if row.reason else [])]
            row.labels = self.labels(row)
            row.inner = any(arrow.begin is row and arrow.end is row and arrow.how == "taken" for arrow in self.packets)
            deep = max(len(row.line), len(row.words), 1)
            tags = max([len(texts) for texts in row.labels.values()] + [1])
            least = 36 + (LINE - 2) * (tags - 1) if row.labels else LEAST
            row.top, row.height = top, max(LEAST + LINE * (deep - 1), least, 50 if row.inner else 0)
            top += row.height
            row.again = False
        self.name_again()
        return self.rows[-1].top + self.rows[-1].height if self.rows else top

    def name_again(self):
        """The columns' names once more after some rows, where no arrow goes by."""
        since, open_to = 0, 0
        for at, row in enumerate(self.rows):
            if since >= AGAIN and open_to < at and len(self.rows) - at > 6:
                self.shift(row)
                since = 0
            since += 1
            ends = [self.rows.index(arrow.end) for arrow in self.packets if arrow.begin is row]
            open_to = max([open_to] + ends)

    def shift(self, row):
        """Room above a row for the columns' names once more."""
        row.again = True
        for other in self.rows[self.rows.index(row) :]:
            other.top += 44

    # What is drawn

    def text(self, x, y, text, colour=INK, size=TEXT, anchor="start", bold=False):
        begin = len(text) - len(text.lstrip())
        x += begin * size * LETTER if anchor == "start" else 0
        end = ' text-anchor="%s"' % anchor if anchor != "start" else ""
        weight = ' font-weight="bold"' if bold else ""
        place = num(x), num(y), colour, size, end, weight, escape(text.strip())
        self.over.append('<text x="%s" y="%s" fill="%s" font-size="%s"%s%s>%s</text>' % place)

    def heading(self, y, text, note):
        self.text(EDGE, y, text, INK, 14, bold=True)
        self.text(EDGE + len(text) * 14 * LETTER + 18, y, note, SOFT, SMALL)

    def draw_legend(self, y):
        """What the lines mean: a short piece of each kind that is there."""
        used = {arrow.packet.kind for arrow in self.packets}
        x = EDGE
        for kind in [kind for kind in COLOURS if kind in used]:
            if x + 40 + len(kind) * SMALL * LETTER > WIDE - EDGE:
                x, y = EDGE, y + 18
            self.arrow((x, y - 4), (x + 26, y - 4), kind, "")
            self.text(x + 31, y, kind, COLOURS[kind], SMALL, bold=True)
            x += 31 + len(kind) * SMALL * LETTER + 16
        notes = ("bar", "acts in the line"), ("lost", "lost"), ("waits", "under way to the end: nobody took it")
        for how, note in notes:
            if how == "bar" or any(arrow.how == how for arrow in self.packets):
                if x + 40 + len(note) * SMALL * LETTER > WIDE - EDGE:
                    x, y = EDGE, y + 18
                self.mark(x, y, how)
                x += 14 if how == "bar" else 31
                self.text(x, y, note, SOFT, SMALL)
                x += len(note) * SMALL * LETTER + 16
        return y

    def mark(self, x, y, how):
        if how == "bar":
            self.under.append('<rect x="%s" y="%s" width="7" height="14" rx="3" fill="%s"/>' % (num(x + 2), num(y - 11), SOFT))
        elif how == "lost":
            self.arrows.append('<path d="M%s %sh16" stroke="%s" stroke-dasharray="5 4"/>' % (num(x), num(y - 4), SOFT))
            self.cross(x + 21, y - 4)
        else:
            self.arrows.append('<path d="M%s %sh18" stroke="%s"/>' % (num(x), num(y - 4), SOFT))
            self.ring(x + 21, y - 4, SOFT)

    def cross(self, x, y):
        self.arrows.append('<path d="M%s %sl8 8m0 -8l-8 8" stroke="%s" stroke-width="2"/>' % (num(x - 4), num(y - 4), RED))

    def ring(self, x, y, colour):
        self.arrows.append('<circle cx="%s" cy="%s" r="3" stroke="%s"/>' % (num(x), num(y), colour))

    def arrow(self, begin, end, kind, told, dashed=False):
        title = "<title>%s</title>" % told if told else ""
        look = ' stroke-dasharray="5 4"' if dashed else ' marker-end="url(#%s)"' % kind
        if kind in STROKES:
            look += ' stroke-width="%s"' % STROKES[kind]
        place = num(begin[0]), num(begin[1]), num(end[0]), num(end[1]), COLOURS[kind], look, title
        shape = '<path d="M%s %sL%s %s" stroke="%s"%s' % place[:6]
        self.arrows.append("%s>%s</path>" % (shape, title) if title else shape + "/>")

    def draw_names(self, y):
        for node in self.nodes:
            self.text(self.x[node], y, WORDS[node[0]], SOFT, 10, "middle")
            self.text(self.x[node], y + 14, node, INK, TEXT, "middle", True)

    def draw_row(self, row, stripe, first):
        shade = BLUSH if row.refused else STRIPE if stripe else None
        if row.again:
            self.draw_names(row.top - 24)
        if shade:
            place = num(row.top), WIDE - 12, num(row.height), shade
            self.stripes.append('<rect x="6" y="%s" width="%s" height="%s" fill="%s"/>' % place)
        y = row.top + 17
        if first:
            self.text(40, y, str(row.number), SOFT, SMALL, "end")
        for at, text in enumerate(row.line):
            self.text(48, y + LINE * at, text, SOFT if row.of_round else INK)
        for at, (text, colour, bold) in enumerate(row.words):
            self.text(self.words_x, y + LINE * at, text, colour, TEXT, bold=bold)
        for index in row.indices:
            self.draw_act(row, self.run.steps[index])
        for (node, side), labels in row.labels.items():
            for at, (text, (arrow, *_)) in enumerate(labels):
                x, low = self.x[node] + 8 * side, row.top + 23 + (LINE - 2) * at
                self.text(x, low, text, COLOURS[arrow.packet.kind], SMALL, "start" if side > 0 else "end")
                if arrow.how == "waits":
                    self.draw_waiting(arrow, x + (len(text) * SMALL * LETTER + 4) * side, low - 4, side)

    def draw_act(self, row, step):
        """The mark of a node that does something in the row; the end of one that stops."""
        if step.actor not in self.x or step.refused:
            return
        x = self.x[step.actor]
        if step.words[0] == "stop":
            y = row.top + row.height / 2
            self.arrows.append('<path d="M%s %sh18" stroke="%s" stroke-width="3"/>' % (num(x - 9), num(y), RED))
            self.cross(x, y)
            return
        place = num(x - 3.5), num(row.top + 4), num(row.height - 8), SOFT
        self.under.append('<rect x="%s" y="%s" width="7" height="%s" rx="3" fill="%s"/>' % place)

    def begin(self, arrow, way):
        """How low an arrow leaves its sender: several of one row one under another, and what a round repeats at its top."""
        step, row = self.run.steps[arrow.packet.sent], arrow.begin
        if step.words[0] in ("tick", "retry") and row.of_round and not self.all_steps:
            return row.top + 8
        beside = [other for _, arrows in row.labels[arrow.packet.sender, way] for other in arrows if other.how != "waits"]
        numbers = list(dict.fromkeys(other.packet.number for other in beside))
        after = len(numbers) - 1 - numbers.index(arrow.packet.number) if arrow.packet.number in numbers else 0
        return row.top + row.height - 5 - min(3 * after, 9)

    def draw_packet(self, arrow):
        packet, row = arrow.packet, arrow.end
        way = 1 if self.x[packet.receiver] > self.x[packet.sender] else -1
        begin = self.x[packet.sender] + 4 * way, self.begin(arrow, way)
        end = self.x[packet.receiver] - 5 * way, row.top + (row.height - 10 if row is arrow.begin else 7)
        told = "; ".join("packet %d from %s to %s: %s" % (p.number, p.sender, p.receiver, p.what) for p in arrow.packets)
        if arrow.how == "taken":
            self.arrow(begin, end, packet.kind, told)
        elif arrow.how == "lost":
            end = begin[0] + (end[0] - begin[0]) * 0.6, row.top + row.height / 2
            self.arrow(begin, end, packet.kind, told + ", lost", True)
            self.cross(*end)

    def draw_waiting(self, arrow, x, y, side):
        """A packet that nobody took: a short line with a circle, behind its label."""
        packet = arrow.packet
        place = num(x), num(y), 9 * side, COLOURS[packet.kind]
        told = "packet %d from %s to %s: %s, not taken" % (packet.number, packet.sender, packet.receiver, packet.what)
        self.arrows.append('<path d="M%s %sh%s" stroke="%s"><title>%s</title></path>' % (*place, told))
        self.ring(x + 12 * side, y, COLOURS[packet.kind])

    def draw_lanes(self, top, bottom):
        for node in self.nodes:
            begin, end = top, bottom
            server = int(node[1:]) if node[0] == "s" else 0
            if server in self.run.joined_at:
                begin = self.row_of[self.run.joined_at[server]].top
            if server in self.run.stopped:
                row = self.row_of[self.run.stopped[server]]
                end = row.top + row.height / 2
            self.under.append('<path d="M%s %sV%s" stroke="%s"/>' % (num(self.x[node]), num(begin), num(end), LANE))

    def draw_run(self, top):
        self.heading(top, "The run", "a line of the script each%s" % (
            "; of a round, what mattered" if not self.all_steps and any(row.of_round for row in self.rows) else ""))
        top = self.draw_legend(top + 22) + 28
        self.text(48, top + 14, "line", SOFT, TEXT, bold=True)
        self.text(self.words_x, top + 14, "what it led to, and why", SOFT, TEXT, bold=True)
        self.draw_names(top)
        bottom = self.measure(top + 24)
        self.draw_lanes(top + 20, bottom + 4)
        stripe, last = False, None
        for row in self.rows:
            stripe = stripe != (row.number != last)
            self.draw_row(row, stripe, row.number != last)
            last = row.number
        for arrow in self.packets:
            self.draw_packet(arrow)
        return bottom

    def draw_history(self, top):
        self.heading(top, "The history", "place, client, its number of the command, command = reply")
        top += 24
        for entry in self.run.history:
            for text in wrap(entry, 112, "    "):
                self.text(EDGE + 8, top, text)
                top += LINE + 2
        if not self.run.history:
            self.text(EDGE + 8, top, "empty", SOFT)
            top += LINE + 2
        return top

    def spots(self, top):
        """Where each event stands, from left to right, and what the lowest is."""
        order, left = self.order, EDGE + 26
        deep = max([y for _, y in order.where.values()] + [0])
        self.unit = min(UNIT, (WIDE - 2 * left) / max(deep, 1))
        spot = {event: (left + y * self.unit, top + x * TALL) for event, (x, y) in order.where.items()}
        low = max([y for _, y in spot.values()] + [top - TALL])
        across = int((WIDE - 2 * left) / UNIT) + 1
        for at, event in enumerate(order.loose):
            spot[event] = left + (at % across) * UNIT, low + TALL * (1 + at // across)
        return spot, max([y for _, y in spot.values()] + [top])

    def draw_order(self, top):
        """The graph at the top: its lower edge."""
        order = self.order
        if not order.events:
            return top - 14
        note = "an arrow leads from an event to one that is after it" if order.pairs else "no event is bound to another"
        self.heading(top, "The order at the end", note + ("; pale: dead" if order.dead else ""))
        spot, low = self.spots(top + 40)
        for a, b in order.pairs:
            self.draw_pair(a, b, spot, EDGE + 26, top + 40)
        for event, (x, y) in sorted(spot.items()):
            dead = event in order.dead
            look = (PALE, "#8d8a83", ' stroke-dasharray="4 3"') if dead else ("#ffffff", INK, "")
            place = (num(x), num(y), ROUND) + look
            self.under.append('<circle cx="%s" cy="%s" r="%s" fill="%s" stroke="%s" stroke-width="1.6"%s/>' % place)
            self.text(x, y + 5.5, str(event), "#67645d" if dead else INK, LARGE, "middle", not dead)
        return low + ROUND + 40

    def draw_pair(self, a, b, spot, left, top):
        bends = [(left + y * self.unit, top + x * TALL) for x, y in self.order.bends[a, b]]
        way = [spot[a]] + bends + [spot[b]]

        def towards(end, other):
            dx, dy = other[0] - end[0], other[1] - end[1]
            far = (dx * dx + dy * dy) ** 0.5 or 1
            return end[0] + dx / far * (ROUND + 2), end[1] + dy / far * (ROUND + 2)

        way[0], way[-1] = towards(way[0], way[1]), towards(way[-1], way[-2])
        path = "M" + "L".join("%s %s" % (num(x), num(y)) for x, y in way)
        faint = a in self.order.dead or b in self.order.dead
        look = ("#a5a29a", "pale") if faint else (INK, "pair")
        self.arrows.append(
            '<path d="%s" stroke="%s" stroke-width="1.8" stroke-linejoin="round" marker-end="url(#%s)">'
            "<title>%d before %d</title></path>" % (path, *look, a, b)
        )

    def svg(self):
        self.text(EDGE, 30, self.name.replace("_", " "), INK, LARGE, bold=True)
        low = self.draw_order(64)
        low = self.draw_run(low)
        low = self.draw_history(low + 38) + 4
        marks = dict(COLOURS, pair=INK, pale="#a5a29a")
        used = [kind for kind in marks if any("url(#%s)" % kind in line for line in self.arrows)]
        heads = "".join(
            '<marker id="%s" viewBox="0 0 8 8" refX="7.5" refY="4" markerWidth="9" markerHeight="9"'
            ' markerUnits="userSpaceOnUse" orient="auto"><path d="M0 .5L8 4L0 7.5z" fill="%s"/></marker>' % (kind, marks[kind])
            for kind in used
        )
        size = WIDE, num(low)
        return "\n".join(
            [
                '<svg xmlns="http://www.w3.org/2000/svg" width="%s" height="%s" viewBox="0 0 %s %s" role="img"' % (size * 2),
                ' font-family="ui-monospace, SFMono-Regular, Menlo, Consolas, \'DejaVu Sans Mono\', monospace">',
                "<title>%s</title>" % escape(self.name),
                "<defs>%s</defs>" % heads,
                '<rect x=".5" y=".5" width="%s" height="%s" rx="8" fill="%s" stroke="%s"/>'
                % (WIDE - 1, num(low - 1), PAPER, FAINT),
                *self.stripes,
                *self.under,
                '<g fill="none" stroke-width="1.4">',
                *self.arrows,
                "</g>",
                '<g paint-order="stroke" stroke="%s" stroke-width="3" stroke-linejoin="round">' % PAPER,
                *self.over,
                "</g>",
                "</svg>",
                "",
            ]
        )


def draw(name, run, order, reasons, all_steps):
    return Page(name, run, order, reasons, all_steps).svg()
