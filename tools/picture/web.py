"""A page to step through a run: one file, with its program and its looks in it, and no address outside itself.

A frame of it is a line of the script, or a part of a round that matters; a round of which nothing matters is a frame of
its own. The frames are written into the page as JSON, with what each server has after them; step.html shows them.
"""
import json
import os
from html import escape

from .rows import facts, seen

ROUND, UNIT, TALL, LEFT = 17, 70, 46, 22


def shown(run):
    """The indices of the steps that are frames."""
    found, kept = [], {step.number for step in run.steps if seen(run, step)}
    for index, step in enumerate(run.steps):
        last = index + 1 == len(run.steps) or run.steps[index + 1].number != step.number
        if not step.of_round or seen(run, step) or (last and step.number not in kept):
            found.append(index)
    return found


def packet(one):
    return {"n": one.number, "from": one.sender, "to": one.receiver, "what": one.what, "kind": one.kind}


def servers(run, index):
    """What each server has after a step."""
    step, found = run.steps[index], {}
    for server in range(1, run.servers + 1):
        if server in run.joined_at and run.joined_at[server] > index:
            continue
        state = step.states.get(server)
        if state is None:
            found["s%d" % server] = {"stopped": True}
            continue
        waiting = ["%s query %s" % (ask.sender, ask.what.split()[1]) for ask in step.waiting.get(server, [])]
        found["s%d" % server] = dict(vars(state), asks=waiting)
    return found


def frame(run, index, fresh, grown, view, reason):
    step = run.steps[index]
    taken = [run.packets[int(step.words[1])]] if step.words[0] in ("deliver", "lose") and not step.refused else []
    way = [one for one in run.packets.values() if one.sent <= index and not any(at <= index for at in one.taken)]
    way = [one for one in way if (one.lost is None or one.lost > index) and not gone(run, one.receiver, index)]
    return {
        "line": step.number,
        "text": "round" if step.of_round else step.text,
        "part": step.text if step.of_round and (step.matters or step.lines) else "",
        "actor": step.actor or "",
        "taken": [packet(one) for one in taken],
        "lost": step.words[0] == "lose",
        "sent": [packet(one) for one in step.sent if one.matters or not step.of_round],
        "way": ["%d %s to %s: %s" % (one.number, one.sender, one.receiver, one.what) for one in way][-12:],
        "more": max(0, len(way) - 12),
        "facts": [[text, kind] for text, kind in facts([step])],
        "fresh": fresh,
        "servers": servers(run, index),
        "grown": grown,
        "view": view,
        "reason": reason,
    }


def gone(run, node, index):
    """Whether the node is a server that has stopped by this step."""
    return node[0] == "s" and run.stopped.get(int(node[1:]), index + 1) <= index


def told(run):
    """All that each client is told, with the step that it was told in."""
    found = {"c%d" % client: [] for client in range(1, run.clients + 1)}
    for index, step in enumerate(run.steps):
        for line in step.lines:
            words = line.split()
            if words[0] in ("told", "part"):
                found[words[1]].append([index, " ".join(words[:1] + words[2:])])
    return found


def frames(run, reasons):
    """The frames, from the one before the first step on."""
    chain = ", ".join("s%d" % server for server in range(1, int(run.first.split()[1]) + 1))
    view, grown, last = "view 1: " + chain, 0, 0
    begin = {"s%s" % s: {"view": 1, "log": 0, "done": 0, "held": 0, "pairs": 0, "waiting": 0, "asks": []}
             for s in range(1, int(run.first.split()[1]) + 1)}
    found = [{"line": 0, "text": run.first, "part": "", "actor": "", "taken": [], "lost": False, "sent": [], "way": [],
              "more": 0, "facts": [], "fresh": -1, "servers": begin, "grown": 0, "view": view, "reason": reasons.get(0, "")}]
    at = 0
    for index in shown(run):
        for step in run.steps[at : index + 1]:
            grown = step.grown or grown
            for text, kind in facts([step]):
                view = text if kind == "view" else view
        at, step = index + 1, run.steps[index]
        found.append(frame(run, index, index, grown, view, reasons.get(step.number, "")))
    return found


def graph(order):
    """The order of events as one SVG, each part with the place in the history from which on it is so."""
    spot = {event: (LEFT + y * UNIT, LEFT + x * TALL) for event, (x, y) in order.where.items()}
    low = max([y for _, y in spot.values()] + [LEFT - TALL])
    for at, event in enumerate(order.loose):
        spot[event] = LEFT + (at % 8) * UNIT, low + TALL * (1 + at // 8)
    wide = max([x for x, _ in spot.values()] + [LEFT]) + LEFT
    parts = [
        '<defs><marker id="tip" viewBox="0 0 8 8" refX="7.5" refY="4" markerWidth="8" markerHeight="8"'
        ' markerUnits="userSpaceOnUse" orient="auto"><path d="M0 .5L8 4L0 7.5z"/></marker></defs>'
    ]
    for a, b in order.pairs:
        way = [spot[a]] + [(LEFT + y * UNIT, LEFT + x * TALL) for x, y in order.bends[a, b]] + [spot[b]]
        way[0], way[-1] = near(way[0], way[1]), near(way[-1], way[-2])
        path = "M" + "L".join("%.1f %.1f" % point for point in way)
        parts.append('<path class="pair" data-at="%d" d="%s" marker-end="url(#tip)"/>' % (order.bound[a, b], path))
    for event, (x, y) in sorted(spot.items()):
        parts.append(
            '<g class="event" data-at="%d" data-died="%d"><circle cx="%.1f" cy="%.1f" r="%d"/><text x="%.1f" y="%.1f">%d</text></g>'
            % (order.made[event], order.died.get(event, 0), x, y, ROUND, x, y + 5, event)
        )
    high = max([y for _, y in spot.values()] + [LEFT]) + LEFT
    return '<svg width="%.0f" height="%.0f" viewBox="0 0 %.0f %.0f" role="img" aria-label="The order of events">%s</svg>' % (
        wide, high, wide, high, "".join(parts)
    )


def near(end, other):
    """The point of a line where it leaves the circle around its end."""
    dx, dy = other[0] - end[0], other[1] - end[1]
    far = (dx * dx + dy * dy) ** 0.5 or 1
    return end[0] + dx / far * (ROUND + 2), end[1] + dy / far * (ROUND + 2)


def write(name, run, order, reasons):
    with open(os.path.join(os.path.dirname(os.path.abspath(__file__)), "step.html"), encoding="utf-8") as file:
        text = file.read()
    lines, last = [run.first], 0
    for step in run.steps:
        if step.number != last:
            lines.append("round" if step.of_round else step.text)
        last = step.number
    data = {
        "name": name,
        "lines": lines,
        "frames": frames(run, reasons),
        "told": told(run),
        "history": run.history,
        "clients": ["c%d" % client for client in range(1, run.clients + 1)],
        "servers": ["s%d" % server for server in range(1, run.servers + 1)],
        "manager": any("m" in (one.sender, one.receiver) and (one.matters or not run.steps[one.sent].of_round)
                       for one in run.packets.values()),
    }
    packed = json.dumps(data, separators=(",", ":"), sort_keys=True).replace("</", "<\\/")
    text = text.replace("{{title}}", escape(name.replace("_", " "))).replace("{{graph}}", graph(order))
    return text.replace("{{data}}", packed)
