"""The rows of a picture: a line of the script each, or a round with what became of it.

In the short picture a round is one row, with the steps of it that matter; in the whole one its steps that show
something have rows of their own, where several stand side by side if none has to be under another.
"""
from .table import view


class Row:
    """A band of the picture: the number and the text of its line, its steps by their indices, its facts, its reason.

    A fact is a text and the kind of it: told, grown, view, stop or refused.
    """

    def __init__(self, step, text, indices):
        self.number, self.text, self.indices = step.number, text, indices
        self.of_round, self.refused = step.of_round, bool(step.refused)
        self.facts, self.reason, self.top, self.height = [], "", 0, 0


def facts(steps):
    """What became of these steps, in their order."""
    found = []
    for step in steps:
        for line in step.lines:
            kind = line.split()[0]
            if kind in ("told", "part", "show"):
                found.append((line, "told"))
            elif kind in ("grown", "refused"):
                found.append((line, kind))
        if step.view:
            found.append((view(step.view), "view"))
        if step.words[0] == "stop" and not step.refused:
            found.append(("s%s stopped" % step.words[1], "stop"))
    told = {words[words.index("at") + 1] for words in (text.split() for text, kind in found if kind == "told") if "at" in words}
    return [(text, kind) for text, kind in found if kind != "grown" or text.split()[1] not in told]


def seen(run, step):
    """Whether a part of a round stands in the short picture: it matters, or has to do with a packet of a plain line."""
    touched = [run.packets[int(step.words[1])]] if step.words[0] == "deliver" and not step.refused else []
    if step.matters or any(not run.steps[packet.sent].of_round for packet in touched):
        return True
    ends = [end for packet in step.sent for end in packet.taken + [packet.lost] if end is not None]
    return any(not run.steps[end].of_round for end in ends)


def short(run):
    found, at = [], 0
    while at < len(run.steps):
        step, end = run.steps[at], at + 1
        while end < len(run.steps) and run.steps[end].number == step.number:
            end += 1
        kept = [index for index in range(at, end) if not step.of_round or seen(run, run.steps[index])]
        found.append(Row(step, "round" if step.of_round else step.text, kept))
        found[-1].facts = facts(run.steps[at:end])
        at = end
    return found


def under(run, step, row):
    """Whether the step has to stand under the row: a step there is of the same node, or sent what this one takes."""
    sent = run.packets[int(step.words[1])].sent if step.words[0] == "deliver" and not step.refused else None
    return sent in row.indices or any(run.steps[index].actor == step.actor for index in row.indices)


def whole(run):
    found = []
    for index, step in enumerate(run.steps):
        if step.of_round and not step.lines and step.words[0] != "deliver":
            continue
        beside = found and step.of_round and found[-1].of_round and found[-1].number == step.number
        if beside and not under(run, step, found[-1]):
            found[-1].indices.append(index)
            found[-1].text += ", " + step.text
        else:
            found.append(Row(step, ("round: " if step.of_round else "") + step.text, [index]))
    for row in found:
        row.facts = facts([run.steps[index] for index in row.indices])
    return found


def rows(run, reasons, all_steps):
    """The rows of the picture, each reason at the first row of its line."""
    found, last = whole(run) if all_steps else short(run), 0
    for row in found:
        row.reason = reasons.get(row.number, "") if row.number != last else ""
        last = row.number
    return found
