"""The reasons of a run: sentences that stand beside lines of its script.

`NAME.why` beside `NAME.script` has a line for each of them: the number of the script's line, counted from 0, its text, a
colon and the sentence. The first line of a script is number 0, so the numbers are those of the steps in a picture. The
text is there so that a script which is changed and its reasons cannot part unseen.
"""
import os
import re

from .steps import Stop


def read(path, script):
    """The reasons of the script of this path, by the number of the line; none where there is no such file."""
    path = os.path.splitext(path)[0] + ".why"
    if not os.path.exists(path):
        return {}
    with open(path, encoding="utf-8") as file:
        return parse(path, file.read(), script.decode(errors="replace").splitlines())


def parse(name, text, lines):
    reasons = {}
    for at, line in enumerate(text.splitlines(), 1):
        found = re.fullmatch(r"(\d+) ([^:]+): (\S.*)", line)
        if not found:
            raise Stop(3, "%s: line %d is no reason" % (name, at))
        number, step, reason = int(found[1]), found[2], found[3]
        if number >= len(lines) or lines[number] != step:
            raise Stop(3, "%s: line %d: line %d of the script is not `%s`" % (name, at, number, step))
        if number in reasons:
            raise Stop(3, "%s: line %d: line %d of the script has a reason" % (name, at, number))
        reasons[number] = reason
    return reasons
