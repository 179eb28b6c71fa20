"""Scripts that are to cost as much as their bytes can: what a program is worst at, by the part of it that does the work.

Each is a text of at most LIMIT bytes, which the grammar takes and whose steps do what is said of it; it is filled up with
what costs most for its bytes. What is random in them is the same in each run.
"""
import random

LIMIT = 1048576
MOST_PACKETS, MOST_BYTES = 65000, 268435456


class Chain:
    """A script over a chain of servers, each of whose packets is taken in the order in which it was sent."""

    def __init__(self, servers=1, clients=1):
        self.servers, self.sent, self.bytes = servers, 0, 0
        self.lines = []
        self.add(["cluster %d %d" % (servers, clients)])

    def add(self, lines):
        self.lines += lines
        self.bytes += sum(len(line) + 1 for line in lines)

    def command(self, text):
        """A command, which its client is told. It takes a request, an Append and an acknowledgement between each server
        and the next, a reply, and an acknowledgement of what is applied at each server but the two ends."""
        packets = 2 if self.servers == 1 else 3 * self.servers - 2
        self.add([text] + ["deliver %d" % (self.sent + k) for k in range(1, packets + 1)])
        self.sent += packets

    def query(self, server, pairs):
        """A query, which its server answers for good; the number of its Ask."""
        asked = self.sent + 1
        words = " ".join("%d,%d" % pair for pair in pairs)
        self.add(["query 1 %d %s" % (server, words), "deliver %d" % asked, "work %d 1" % server, "deliver %d" % (asked + 1)])
        self.sent += 2
        return asked

    def creates(self, count):
        for _ in range(count):
            self.command("create 1")
        return self

    def bind(self, pairs, kind="!"):
        for begin in range(0, len(pairs), 32):
            self.command("assign 1 " + " ".join("%d%s%d" % (a, kind, b) for a, b in pairs[begin : begin + 32]))
        return self

    def has_room(self, lines=()):
        return self.bytes + sum(len(line) + 1 for line in lines) <= LIMIT

    def fill(self, turns):
        """Adds what each turn makes, as long as there is room for it and for its packets."""
        for turn in turns:
            before = len(self.lines), self.bytes, self.sent
            turn()
            if not self.has_room() or self.sent > MOST_PACKETS:
                del self.lines[before[0] :]
                self.bytes, self.sent = before[1:]
                break
        return self

    def repeat(self, line, packets=0):
        """Adds the line as often as there is room for it, and for so many packets of each."""
        times = (LIMIT - self.bytes) // (len(line) + 1)
        times = min(times, (MOST_PACKETS - self.sent) // packets) if packets else times
        self.add([line] * times)
        self.sent += packets * times
        return self

    def grow(self, count=64):
        """Servers join until there are so many, each a member before the next one comes; there are no entries yet. Each
        member learns the last view in the end."""
        while self.servers < count:
            at, members = self.sent, self.servers
            # the view at the last member and at the joiner, whose acknowledgement the member takes; the manager hears of it
            steps = [at + members, at + members + 1, at + members + 3, at + members + 4]
            self.add(["join"] + ["deliver %d" % packet for packet in steps])
            self.sent += 2 * members + 5
            self.servers += 1
        # all but the first acknowledge
        self.add(["deliver %d" % packet for packet in range(self.sent - count + 1, self.sent + 1)])
        self.sent += count - 1
        return self

    def batches(self, pairs):
        """Each of 16 clients has a batch of so many pairs; one window takes them to each further server, and the
        acknowledgements of what is applied come back."""
        at, last = self.sent, self.servers
        words = " 1?1" * pairs
        self.add(["assign %d%s" % (client, words) for client in range(1, 17)])
        self.add(["deliver %d" % packet for packet in range(at + 1, at + 17)])
        # the first server sent a window behind each request; the last one has all. The others send an acknowledgement and
        # a window each, and the last server 16 replies and an acknowledgement
        windows = [at + 32 + 2 * k for k in range(last - 1)]
        replies = [windows[-1] + k for k in range(1, 17)]
        acks = [replies[-1] + k for k in range(1, last)]
        self.add(["deliver %d" % packet for packet in windows + replies + acks])
        self.sent = acks[-1]
        return self

    def text(self):
        return "\n".join(self.lines) + "\n"


def forever(turn):
    while True:
        yield turn


def side_by_side(chain, layers, wide):
    """Two graphs, each of layers of events, each event before all of the next layer. From the second layer of the first
    graph nearly all of it can be reached, and nothing of the second one. The events of that layer, and those of the last
    layer of the second graph, which have a way in."""
    size = layers * wide
    chain.creates(2 * size)
    places = range(1, wide + 1)
    for graph in range(2):
        at = lambda layer, place: graph * size + layer * wide + place
        chain.bind([(at(k, a), at(k + 1, b)) for k in range(layers - 1) for a in places for b in places])
    return [wide + place for place in places], [2 * size - wide + place for place in places]


def couples(rng, firsts, seconds, count):
    return [(rng.choice(firsts), rng.choice(seconds)) for _ in range(count)]


# Searches


def asks_behind_entries(layers, wide):
    """64 Asks of 32 pairs each wait, of two events between which there is no way, though many ways lead on from the first;
    and an entry is applied before they are answered, so that no answer can be kept."""
    chain, rng = Chain(), random.Random(1)
    firsts, seconds = side_by_side(chain, layers, wide)
    asks = [chain.query(1, couples(rng, firsts, seconds, 32)) for _ in range(64)]

    def turn():
        chain.command("create 1")
        chain.add(["deliver %d" % ask for ask in asks] + ["work 1 1"])
        chain.sent += 64

    return chain.fill(forever(turn)).text()


def ends_of_a_chain(count):
    """The ends of a chain are asked for, behind each further entry, the last one first."""
    chain = Chain().creates(count).bind([(event, event + 1) for event in range(1, count)])
    ask = chain.query(1, [(count - k, k + 1) for k in range(32)])

    def turn():
        chain.command("create 1")
        chain.add(["deliver %d" % ask, "work 1 1"])
        chain.sent += 1

    return chain.fill(forever(turn)).text()


# Batches


def refused_musts(layers, wide, servers):
    """Batches of 31 musts, each of which is against the order in which the events were bound, and is searched for past all
    that its second event leads to; the last pair refuses the batch."""
    chain, rng = Chain(servers), random.Random(2)
    firsts, seconds = side_by_side(chain, layers, wide)
    turn = lambda: chain.bind(couples(rng, seconds, firsts, 31) + [(1, 1)])
    return chain.fill(forever(turn)).text()


def full_layers(wide, servers):
    """Musts of each of the upper events before each of the lower ones, and then of random events of all."""
    chain, rng = Chain(servers), random.Random(3)
    chain.creates(2 * wide)
    chain.bind([(a, b) for a in range(1, wide + 1) for b in range(wide + 1, 2 * wide + 1)])
    turn = lambda: chain.bind([tuple(sorted(rng.sample(range(1, 2 * wide + 1), 2))) for _ in range(32)])
    return chain.fill(forever(turn)).text()


def pairs_that_hold(count):
    """Musts of a chain that hold already, between its two halves."""
    chain, rng = Chain(), random.Random(4)
    chain.creates(count).bind([(event, event + 1) for event in range(1, count)])
    half = count // 2
    turn = lambda: chain.bind([(rng.randint(1, half), rng.randint(half + 1, count)) for _ in range(32)])
    return chain.fill(forever(turn)).text()


def chain_backwards(count, servers):
    """Batches that put a chain together from its end, each of them refused by its last pair: the way through the pairs of
    the batch itself is searched for each of them."""
    chain = Chain(servers).creates(count)
    firsts = iter(range(count - 32, 0, -1))

    def turn():
        first = next(firsts)
        chain.bind([(k, k + 1) for k in range(first + 30, first - 1, -1)] + [(first + 31, first)])

    return chain.fill(turn for _ in range(count - 32)).text()


def star(count, kind, released):
    """One event before each of the others, as musts or prefers; then all are released where that is wanted."""
    chain = Chain().creates(count).bind([(1, other) for other in range(2, count + 1)], kind)
    if released:
        chain.fill((lambda event=event: chain.command("release 1 %d" % event)) for event in range(count, 0, -1))
    return chain.text()


# Appends


def append_again(is_known):
    """An Append of 16 batches of 32 pairs each is taken again and again: by a server that has its entries, or by one that
    takes no entries of its sender, since that one has stopped and left the chain."""
    chain = Chain(3, 16)
    chain.batches(32)
    # the request of the 16th client is packet 16, and the first server's whole window packet 32
    if is_known:
        return chain.repeat("deliver 32", 1).text()
    chain.add(["stop 1", "notice 1", "deliver %d" % (chain.sent + 1)])
    return chain.repeat("deliver 32").text()


def windows_fill_the_bag():
    """16 batches of 32 pairs each fill the bag by its bytes, a window of all of them with each tick."""
    chain = Chain(2, 16)
    chain.add(["assign %d%s" % (client, " 1?1" * 32) for client in range(1, 17)])
    chain.add(["deliver %d" % packet for packet in range(1, 17)])
    chain.add(["tick 1"] * 29995)
    return chain.text()


def longest_logs(ticks):
    """64 servers, in whose logs batches of 32 pairs are; and then so many ticks, with a window of 16 batches each."""
    chain = Chain(8, 16).grow()
    tail = 13 * 16 + 18 * 150 + 7 * ticks
    while chain.bytes + tail + 4400 < LIMIT and chain.sent + 240 + 32 + ticks < MOST_PACKETS:
        chain.batches(32)
    if ticks:
        # a last group stays at the first server
        chain.add(["assign %d%s" % (client, " 1?1" * 32) for client in range(1, 17)])
        chain.add(["deliver %d" % (chain.sent + client) for client in range(1, 17)])
        chain.add(["tick 1"] * ticks)
    return chain.text()


# Queries that wait


def full_queue():
    """64 queries of 32 pairs wait, and further ones are ignored."""
    chain = Chain().creates(2)
    chain.add(["query 1 1" + " 1,2" * 32])
    chain.sent += 1
    return chain.repeat("deliver %d" % chain.sent).text()


def queues_that_are_answered(count):
    """64 queries of 32 random pairs each wait and are answered, again and again, behind an entry each time."""
    chain, rng = Chain(), random.Random(5)
    pairs = [tuple(sorted(rng.sample(range(1, count + 1), 2))) for _ in range(count)]
    chain.creates(count).bind(pairs)
    asks = [chain.query(1, couples(rng, range(1, count + 1), range(1, count + 1), 32)) for _ in range(64)]

    def turn():
        chain.command("create 1")
        chain.add(["deliver %d" % ask for ask in asks] + ["work 1 8"])
        chain.sent += 64

    return chain.fill(forever(turn)).text()


def works_about_many(count):
    """One query of one pair at a time is answered, of many events, behind an entry each time."""
    chain = Chain().creates(count).bind([(1, 2), (3, 4)])
    ask = chain.query(1, [(2, 4)])

    def turn():
        chain.command("create 1")
        chain.add(["deliver %d" % ask, "work 1 1"])
        chain.sent += 1

    return chain.fill(forever(turn)).text()


def referred_queries():
    """A query comes again and again to the last of 64 servers, which refers to its view, since it is no member yet."""
    chain = Chain(8).grow(63)
    chain.add(["join", "deliver %d" % (chain.sent + 64), "query 1 64 1,2"])
    # 64 views, and the acknowledgement of the joiner
    chain.sent += 66
    return chain.repeat("deliver %d" % chain.sent, 1).text()


# Caches


def cached(count):
    """Queries of 32 pairs that the client's cache answers, the pair that was looked up longest ago each time."""
    chain = Chain().creates(65).bind([(event, event + 1) for event in range(1, 65)])
    pairs = [(event, event + 1) for event in range(1, 65)]
    chain.query(1, pairs[:32])
    chain.query(1, pairs[32:])
    lines = ["query 1 1 " + " ".join("%d,%d" % pair for pair in half) for half in (pairs[:32], pairs[32:])]

    def turn():
        chain.add(lines)

    return chain.fill(turn for _ in range(count)).text()


def missed():
    """Queries of 32 pairs of which the cache has let each go just before it is asked for."""
    chain = Chain().creates(97).bind([(event, event + 1) for event in range(1, 97)])
    groups = [[(event + k, event + k + 1) for k in range(32)] for event in (1, 33, 65)]
    turns = ((lambda group=group: chain.query(1, group)) for _ in range(100000) for group in groups)
    return chain.fill(turns).text()


# Views


def told_views():
    """The manager tells its view to 64 servers, again and again, and each view is taken."""
    chain = Chain(8).grow()

    def turn():
        chain.add(["tick 0"] + ["deliver %d" % (chain.sent + k) for k in range(1, 65)])
        chain.sent += 64

    return chain.fill(forever(turn)).text()


def old_views():
    """The view of 64 servers comes again and again to a server that knows it."""
    chain = Chain(8).grow()
    # behind the last view come the acknowledgements of 63 servers
    return chain.repeat("deliver %d" % (chain.sent - 63)).text()


def learned():
    """A client learns the view of 64 servers, again and again."""
    return Chain(8).grow().repeat("learn 1").text()


def joined_and_stopped(entries):
    """One server after the other joins, takes all entries, and stops, until 64 were made."""
    chain = Chain().creates(entries)
    for server in range(2, 65):
        chain.add(["join"] + ["round"] * (entries // 16 + 4) + ["stop %d" % server, "notice %d" % server])
    return chain.text()


# Rounds


def quiet_rounds(count):
    """Rounds in which nobody has anything to say, about many events."""
    return Chain(1, 16).creates(count).repeat("round", 1).text()


def busy_rounds():
    """Rounds in which 16 clients have a batch of 32 pairs open, along eight servers of which the last has stopped: each
    request comes again, and each window."""
    chain = Chain(8, 16)
    chain.add(["stop 8"] + ["assign %d%s" % (client, " 1?1" * 32) for client in range(1, 17)])
    chain.sent += 16
    return chain.repeat("round", 32).text()


def rounds_with_lost_packets():
    """As many packets for a server that has stopped as there are rounds."""
    chain = Chain(2)
    chain.add(["create 1"] + ["retry 1 2"] * 32000 + ["stop 2", "notice 2"])
    chain.sent += 32002
    return chain.repeat("round", 1).text()


# Releases


def diamonds(count, backwards):
    """Diamonds, each behind the one before; all events are released, from the first one or from the last."""
    chain = Chain().creates(3 * count + 1)
    pairs = []
    for k in range(count):
        top = 3 * k + 1
        pairs += [(top, top + 1), (top, top + 2), (top + 1, top + 3), (top + 2, top + 3)]
    chain.bind(pairs)
    events = range(1, 3 * count + 2)
    turns = ((lambda event=event: chain.command("release 1 %d" % event)) for event in (reversed(events) if backwards else events))
    return chain.fill(turns).text()


def layers_released(layers, wide):
    """Full layers, released from the last event to the first: what is dead is held until all above it is."""
    chain = Chain()
    chain.creates(layers * wide)
    at = lambda layer, place: layer * wide + place + 1
    places = range(wide)
    chain.bind([(at(k, a), at(k + 1, b)) for k in range(layers - 1) for a in places for b in places])
    turns = ((lambda event=event: chain.command("release 1 %d" % event)) for event in range(layers * wide, 0, -1))
    return chain.fill(turns).text()


# Packets


def long_requests():
    """A request with 32 pairs is taken again and again, and replied again."""
    chain = Chain().creates(1).bind([(1, 1)] * 32, "?")
    return chain.repeat("deliver %d" % (chain.sent - 1), 1).text()


def long_retries():
    """A request with 32 pairs is sent again and again."""
    chain = Chain().creates(1)
    chain.add(["assign 1" + " 1?1" * 32])
    return chain.repeat("retry 1 1", 1).text()


def shown():
    """A server is shown again and again."""
    return Chain().creates(2).repeat("show 1").text()


def scripts():
    """Name, and how it is made."""
    return [
        ("searches: 2,048 pairs asked past 5,800 pairs, an entry before each time", lambda: asks_behind_entries(11, 24)),
        ("searches: the ends of a chain of 3,000, an entry before each time", lambda: ends_of_a_chain(3000)),
        ("batches: refused by their last pair, one server", lambda: refused_musts(11, 24, 1)),
        ("batches: refused by their last pair, eight servers", lambda: refused_musts(11, 24, 8)),
        ("batches: two full layers of 150, one server", lambda: full_layers(150, 1)),
        ("batches: two full layers of 150, eight servers", lambda: full_layers(150, 8)),
        ("batches: musts of a chain of 6,000 that hold already", lambda: pairs_that_hold(6000)),
        ("batches: a chain from its end, refused, eight servers", lambda: chain_backwards(1500, 8)),
        ("batches: one event before 20,000, prefers", lambda: star(20000, "?", False)),
        ("appends: one of 8,947 bytes 64,000 times, its entries known", lambda: append_again(True)),
        ("appends: one of 8,947 bytes 94,000 times, ignored", lambda: append_again(False)),
        ("appends: the bag full by its bytes", windows_fill_the_bag),
        ("appends: 3,700 batches of 32 pairs at 64 servers", lambda: longest_logs(0)),
        ("appends: the same of 2,700, and the bag full by its bytes", lambda: longest_logs(20000)),
        ("queries: 100,000 beside 64 that wait", full_queue),
        ("queries: 64 of 32 pairs of 8,000 events, an entry before each time", lambda: queues_that_are_answered(8000)),
        ("queries: one pair of 14,000 events, an entry before each time", lambda: works_about_many(14000)),
        ("queries: referred to a view of 64 servers", referred_queries),
        ("caches: each pair found, the oldest first", lambda: cached(100000)),
        ("caches: each pair gone just before", missed),
        ("views: told to 64 servers", told_views),
        ("views: of 64 servers, known already", old_views),
        ("views: of 64 servers, learned again", learned),
        ("views: 63 joins and stops behind 500 entries", lambda: joined_and_stopped(500)),
        ("rounds: nothing to say, about 12,000 events", lambda: quiet_rounds(12000)),
        ("rounds: 16 batches of 32 pairs open, the last of eight servers stopped", busy_rounds),
        ("rounds: 32,000 behind as many packets for a server that stopped", rounds_with_lost_packets),
        ("releases: one event before 13,000, from the last", lambda: star(13000, "!", True)),
        ("releases: 4,000 diamonds, from the first", lambda: diamonds(4000, False)),
        ("releases: 4,000 diamonds, from the last", lambda: diamonds(4000, True)),
        ("releases: eleven full layers of 85, from the last", lambda: layers_released(11, 85)),
        ("packets: a request of 32 pairs, replied again", long_requests),
        ("packets: a request of 32 pairs, tried again", long_retries),
        ("lines: a server shown again and again", shown),
    ]
