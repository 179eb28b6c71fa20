"""The table of a run: each line of its script, what it led to, and why."""
import os
import re

from . import steps, why

EXAMPLES = os.path.join(os.path.dirname(os.path.dirname(os.path.dirname(os.path.abspath(__file__)))), "examples")
BLOCK = re.compile(r"(<!-- tools/tell (\w+) -->\n)(.*?)(<!-- end of \2 -->\n)", re.S)


class Group:
    """Steps in one row of the table: a line of the script, and the rounds behind it that have no reason of their own."""

    def __init__(self, number, text):
        self.number, self.text = number, text
        self.steps, self.rounds = [], 0

    def line(self):
        """What stands in the script."""
        if self.text == "round":
            return "`round`" if self.rounds == 1 else "%d rounds" % self.rounds
        if self.rounds:
            return "`%s`, then %s" % (self.text, "a round" if self.rounds == 1 else "%d rounds" % self.rounds)
        return "`%s`" % self.text

    def led_to(self):
        """The lines of the steps, without the packets of rounds, and without `grown L` where a reply at L is told."""
        told = set(re.findall(r"told .* at (\d+) ", "\n".join(line for step in self.steps for line in step.lines)))
        found = []
        for step in self.steps:
            for line in step.lines:
                words = line.split()
                if not (self.rounds and (words[0] == "packet" or words[0] == "grown" and words[1] in told)):
                    found.append("`%s`" % line)
            if step.of_round and step.view:
                found.append(view(step.view))
        return found


def view(made):
    number, chain, joiner = made
    members = ", ".join("s%d" % server for server in chain)
    return "view %d: %s%s" % (number, members, "; s%d joins" % joiner if joiner else "")


def groups(run, reasons):
    found, last = [], 0
    for step in run.steps:
        fresh = step.number != last
        last = step.number
        folds = step.of_round and found and step.number not in reasons
        if fresh and not folds:
            found.append(Group(step.number, "round" if step.of_round else step.text))
        if fresh and step.of_round:
            found[-1].rounds += 1
        found[-1].steps.append(step)
    return found


def markdown(run, reasons):
    """The table as lines of Markdown."""
    lines = ["| step | line | what it led to | why |", "|---|---|---|---|"]
    if 0 in reasons:
        lines.append("| | `%s` | | %s |" % (run.first, reasons[0]))
    for group in groups(run, reasons):
        reason = reasons.get(group.number, "").replace("|", "\\|")
        cells = str(group.number), group.line(), "<br>".join(group.led_to()), reason
        lines.append("| " + " | ".join(cells) + " |")
    return [re.sub(r"\|  +(?=\|)", "| ", line) for line in lines]


def names(text):
    """The runs whose tables a page has, in its order."""
    return [found[2] for found in BLOCK.finditer(text)]


def with_tables(text, tables):
    """A page with its tables made anew: `tables` has the lines of each by the name of the run."""
    def block(found):
        return found[1] + "\n" + "\n".join(tables[found[2]]) + "\n\n" + found[4]

    return BLOCK.sub(block, text)


def tell(name):
    """The lines of the table of a run."""
    path = name if name.endswith(".script") else os.path.join(EXAMPLES, name + ".script")
    script = steps.read(path)
    reasons = why.read(path, script)
    return markdown(steps.follow(steps.program(), script), reasons)


def pages(paths, write):
    """Makes the tables of pages anew, or compares: how many differ."""
    differ = 0
    for path in paths:
        with open(path, encoding="utf-8") as file:
            text = file.read()
        made = with_tables(text, {name: tell(name) for name in names(text)})
        if made != text and write:
            with open(path, "w", encoding="utf-8") as file:
                file.write(made)
        elif made != text:
            differ += 1
            print("tell: a table of %s is not what tools/tell makes; tools/tell --write %s mends it" % (path, path))
    return differ
