"""What each line of a script led to, which packets are under way after it, and which lines could be next."""
from . import steps
from .steps import output


def good_part(words, script):
    """The lines before the first bad one, and that one with its number, if there is one."""
    if script and not script.endswith(b"\n"):
        script += b"\n"
    status, printed = output(words, script)
    if status != 3:
        return script, None
    number = int(printed[0].split()[2])
    lines = script.splitlines(keepends=True)
    bad = lines[number - 1].decode(errors="replace").rstrip("\n") if lines else ""
    return b"".join(lines[: number - 1]), "line %d is no line of a script: `%s`" % (number, bad)


def under_way(run, index):
    """The packets under way after the step of this index."""
    stopped = {server for server, at in run.stopped.items() if at <= index}
    found = []
    for packet in run.packets.values():
        gone = packet.lost is not None and packet.lost <= index or any(taken <= index for taken in packet.taken)
        if packet.sent <= index and not gone and packet.receiver not in {"s%d" % server for server in stopped}:
            found.append("%d %s to %s %s" % (packet.number, packet.sender, packet.receiver, packet.what))
    return found


def next_lines(run):
    """Lines that could be next: what may be done with the packets under way, and with calls that are open."""
    waiting = under_way(run, len(run.steps) - 1)
    found = ["deliver %s" % text.split()[0] for text in waiting[:4]]
    found += ["lose %s" % text.split()[0] for text in waiting[:1]]
    running = [server for server in run.chain if server not in run.stopped]
    for client in range(1, run.clients + 1):
        if client in run.open and running:
            found.append("retry %d %d" % (client, running[0] if run.open[client] == 0 else running[-1]))
        elif client not in run.open:
            found.append("create %d" % client)
    shown = run.steps[-1].states if run.steps else {}
    found += ["work %d 1" % server for server, state in shown.items() if state.waiting]
    found += ["notice %d" % server for server in run.chain if server in run.stopped]
    return found + ["round"]


def tell(run, lines):
    """What to print of a run: each line of the script, with what it led to."""
    found = [run.first]
    for number, text in enumerate(lines[1:], 1):
        here = [at for at, step in enumerate(run.steps) if step.number == number]
        found.append(text)
        found += ["    " + line for at in here for line in run.steps[at].lines if not line.startswith("packet ")]
        found += ["    under way: " + packet for packet in under_way(run, here[-1])]
    return found + ["next, for example: " + ", ".join(next_lines(run))]


def lines(program, script):
    """What tools/complete prints of a script, and whether all of it is one."""
    script, bad = good_part(program, script)
    found = tell(steps.follow(program, script), script.decode().splitlines()) if script else []
    return found + ([bad] if bad else []), bad is None
