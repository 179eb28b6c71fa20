"""Runs the program on a script, and finds which lines each of its steps printed.

Each step is followed by two marks, steps that are always refused and so change nothing: a delivery of a packet and a
command of a client that no run has. A step prints at most one refusal, so the two refusals one after the other end its
lines. Behind the marks each server is shown, which changes nothing either: a line for each, so what every server has
is known after every step. A round is replaced by the plain steps that it stands for. In the end the lines of all steps
are compared with what the program prints for the script as it is.
"""
import os
import shlex
import subprocess

MOST_STEPS = 2000
MOST_PACKETS = 20000
MARKS = ("deliver 4294967295", "create 4294967295")
MARK_LINES = ["refused NoSuchPacket", "refused NoSuchClient"]
COMMANDS = ("create", "assign", "acquire", "release")


class Stop(Exception):
    """Why nothing is drawn, and the status to end with."""

    def __init__(self, status, text):
        super().__init__(text)
        self.status = status


class Packet:
    """A packet: which step sent it, which took it, which lost it. It matters where a step that took it does."""

    def __init__(self, number, sender, receiver, what, sent):
        self.number, self.sender, self.receiver, self.what, self.sent = number, sender, receiver, what, sent
        self.taken, self.lost, self.matters = [], None, False
        self.kind = what.split()[0]


class Step:
    """A plain step: its text, the number of its line behind the first, its lines, who acts in it.

    `view` is the manager's view where the step made one, `states` what each server has after it, `caused` the packets
    that others sent because of it: the answers to a question that it took. It `matters` where somebody was told or
    shown something, a server or a client's view changed, or a packet matters that it sent or caused.
    """

    def __init__(self, text, number, of_round=False):
        self.text, self.number, self.of_round = text, number, of_round
        self.words = text.split()
        self.lines, self.refused, self.actor = [], None, None
        self.sent, self.grown, self.view = [], None, None
        self.states, self.waiting, self.caused = {}, {}, []
        self.learns, self.matters = None, False


class State:
    """What a server has, as `show` tells it."""

    def __init__(self, line):
        words = line.split()
        numbers = dict(zip(words[2::2], map(int, words[3::2])))
        self.view, self.log, self.done = numbers["view"], numbers["log"], numbers["done"]
        self.held, self.pairs, self.waiting = numbers["held"], numbers["pairs"], numbers["waiting"]

    def kept(self):
        """All but the queries that wait."""
        return self.view, self.log, self.done, self.held, self.pairs


def read(path):
    """The bytes of a script."""
    try:
        with open(path, "rb") as file:
            return file.read()
    except OSError as error:
        raise Stop(2, "no script: %s: %s" % (path, error.strerror))


def program():
    """The words that run the program."""
    named = os.environ.get("KRONOS")
    if named:
        return shlex.split(named)
    here = os.path.dirname(os.path.dirname(os.path.dirname(os.path.abspath(__file__))))
    return [os.path.join(here, "kronos")]


def output(words, text):
    """What the program prints for a script: its status and its lines. What it says besides is passed on."""
    try:
        done = subprocess.run([*words, "script"], input=text, stdout=subprocess.PIPE)
    except OSError as error:
        raise Stop(2, "no program: %s: %s" % (words[0], error.strerror))
    return done.returncode, done.stdout.decode().splitlines()


def transcript(words, script):
    """The lines of the steps, and of the history."""
    status, lines = output(words, script)
    if status == 3 and lines:
        raise Stop(3, lines[0])
    if status == 4:
        raise Stop(4, "the script has more bytes than the program takes")
    if status or not lines or lines[-1] != "end":
        raise Stop(1, "the program ended with status %d" % status)
    at = next(i for i, line in enumerate(lines) if line.startswith("history "))
    return lines[:at], lines[at + 1 : -1]


class Run:
    """The plain steps of a run, in order, with what is known of its world after them."""

    def __init__(self, words, first, joins):
        self.words, self.first = words, first
        self.servers, self.clients = (int(word) for word in first.split()[1:3])
        self.shows = ["show %d" % server for server in range(1, min(64, self.servers + joins) + 1)]
        self.known = {client: 1 for client in range(1, self.clients + 1)}
        self.asked = {}
        self.steps, self.packets, self.history = [], {}, []
        self.stopped, self.joined_at, self.open = {}, {}, {}
        self.view, self.chain, self.joiner = 1, list(range(1, self.servers + 1)), None

    def extend(self, steps):
        """Takes these steps too: runs the program on all so far, and follows the new ones."""
        if not steps:
            return
        text = [self.first] + [step.text for step in self.steps]
        for step in steps:
            text += [step.text, *MARKS, *self.shows]
        lines, _ = transcript(self.words, ("\n".join(text) + "\n").encode())
        at = sum(len(step.lines) for step in self.steps)
        for step in steps:
            start = at
            while lines[at : at + 2] != MARK_LINES:
                at += 1
                if at >= len(lines):
                    raise Stop(1, "the steps do not add up to the transcript")
            step.lines = lines[start:at]
            at += 2
            shown = lines[at : at + len(self.shows)]
            step.states = {int(line.split()[1][1:]): State(line) for line in shown if line.startswith("show s")}
            self.steps.append(step)
            self.follow(len(self.steps) - 1, step)
            at += len(self.shows)

    def follow(self, index, step):
        for line in step.lines:
            words = line.split()
            if words[0] == "refused":
                step.refused = words[1]
            elif words[0] == "grown":
                step.grown = int(words[1])
            elif words[0] == "packet":
                packet = Packet(int(words[1]), words[2], words[3], " ".join(words[4:]), index)
                self.packets[packet.number] = packet
                step.sent.append(packet)
        if len(self.packets) > MOST_PACKETS:
            raise Stop(4, "the run is too large to draw: it sends more than %d packets" % MOST_PACKETS)
        if not step.refused:
            self.act(index, step)
            self.calls(step)
            self.views(step)
            self.questions(step)
            self.learnt(step)

    def act(self, index, step):
        """Who acts in the step, and what it does to packets and servers."""
        word, number = step.words[0], int((step.words + ["0"])[1]) if step.words[1:] else 0
        if word in COMMANDS or word in ("query", "retry", "learn"):
            step.actor = "c%d" % number
        elif word == "deliver":
            self.packets[number].taken.append(index)
            step.actor = self.packets[number].receiver
        elif word == "lose":
            self.packets[number].lost = index
        elif word in ("notice", "join") or (word == "tick" and number == 0):
            step.actor = "m"
        else:
            step.actor = "s%d" % number
        if word == "stop":
            self.stopped[number] = index
        if word == "join":
            self.servers += 1
            self.joined_at[self.servers] = index

    def calls(self, step):
        """Which calls are open after the step: of a query, how many pairs are not told yet."""
        client = int(step.words[1]) if step.words[1:] else 0
        if step.words[0] in COMMANDS:
            self.open[client] = 0
        if step.words[0] == "query":
            self.open[client] = len(step.words) - 3
        for line in step.lines:
            words = line.split()
            if words[0] == "told":
                self.open.pop(int(words[1][1:]), None)
            if words[0] == "part":
                told = int(words[1][1:])
                self.open[told] -= 1
                if self.open[told] == 0:
                    del self.open[told]

    def views(self, step):
        """The manager's view after the step: a new one is known by its packets."""
        named = [packet for packet in step.sent if packet.what.startswith("view ")]
        number = int(named[0].what.split()[1]) if named else 0
        if number <= self.view:
            return
        members = [int(packet.receiver[1:]) for packet in named]
        if step.words[0] == "join":
            self.joiner = members[-1]
        elif step.words[0] != "notice" or self.joiner not in members:
            self.joiner = None
        self.view, self.chain = number, [member for member in members if member != self.joiner]
        step.view = (self.view, self.chain, self.joiner)

    def questions(self, step):
        """Which step took the question that an answer is to: those that wait are answered oldest first."""
        if step.words[0] == "deliver" and self.packets[int(step.words[1])].kind == "ask":
            server = int(step.actor[1:])
            if step.states[server].waiting > len(self.asked.setdefault(server, [])):
                self.asked[server].append((step, self.packets[int(step.words[1])]))
        if step.words[0] == "work":
            for (asker, _), packet in zip(self.asked.pop(int(step.words[1]), []), step.sent):
                asker.caused.append(packet)
        step.waiting = {server: [packet for _, packet in asked] for server, asked in self.asked.items()}

    def learnt(self, step):
        """The view that a client learns in the step, where it is newer than the one that it knew."""
        if step.words[0] == "learn":
            newer = self.view
        elif step.words[0] == "deliver" and self.packets[int(step.words[1])].kind == "refer" and step.sent:
            newer = int(self.packets[int(step.words[1])].what.split()[3])
        else:
            return
        client = int(step.actor[1:])
        if newer > self.known[client]:
            self.known[client] = step.learns = newer

    def weigh(self):
        """Which steps and packets matter, from the last to the first."""
        for index in range(len(self.steps) - 1, -1, -1):
            step = self.steps[index]
            for packet in step.sent:
                packet.matters = any(self.steps[taken].matters for taken in packet.taken)
            before = self.steps[index - 1].states if index else {}
            step.matters = bool(step.learns or step.view or step.words[0] in ("stop", "join", "notice"))
            step.matters |= any(line.split()[0] in ("told", "part", "grown", "show") for line in step.lines)
            step.matters |= any(packet.matters for packet in step.sent + step.caused)
            step.matters |= any(
                state.kept() != (before[server].kept() if server in before else (1, 0, 0, 0, 0))
                for server, state in step.states.items()
            )

    def lives(self, node):
        return node[0] != "s" or int(node[1:]) not in self.stopped

    def round(self, number):
        """The plain steps of a round, in its order."""
        def part(text):
            return Step(text, number, True)

        servers = range(1, self.servers + 1)
        working = [s for s in servers if s not in self.stopped]
        learns = [part("learn %d" % client) for client in range(1, self.clients + 1)]
        self.extend(learns + [part("tick 0")] + [part("tick %d" % s) for s in working])
        targets = [(c, self.chain[-1] if self.open[c] else self.chain[0]) for c in sorted(self.open)]
        retries = [part("retry %d %d" % (c, s)) for c, s in targets if s not in self.stopped]
        if retries:
            self.extend(retries)
        waiting = [p for p in self.packets.values() if not p.taken and p.lost is None and self.lives(p.receiver)]
        self.extend([part("deliver %d" % p.number) for p in waiting] + [part("work %d 1" % s) for s in working])


def follow(words, script):
    """The run of a script, given as bytes."""
    lines = script.decode(errors="replace").splitlines()
    if len(lines) > MOST_STEPS + 1:
        raise Stop(4, "the run is too large to draw: %d steps, more than %d" % (len(lines) - 1, MOST_STEPS))
    printed, history = transcript(words, script)
    run = Run(words, lines[0], lines.count("join"))
    plain = []
    for number, text in enumerate(lines[1:], 1):
        if text != "round":
            plain.append(Step(text, number))
            continue
        run.extend(plain)
        plain = []
        run.round(number)
        if len(run.steps) > 10 * MOST_STEPS:
            raise Stop(4, "the run is too large to draw: its rounds have more than %d steps" % (10 * MOST_STEPS))
    run.extend(plain)
    if [line for step in run.steps for line in step.lines] != printed:
        raise Stop(1, "the steps do not add up to the transcript")
    run.history = history
    run.weigh()
    return run
