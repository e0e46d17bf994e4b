"""Reads a play from what `cvec steps --trace` printed. The columns are those of docs/SCRIPTS.md, "Lines of a trace"."""

import re

STEP = re.compile(
    r"(?P<number>\d+) +(?P<actor>[a-z])(?P<call>\d*)(?: (?P<command>[a-z]+))? +(?P<name>-|[A-Z]\w*)(?: (?P<at>\d+))? +"
    r"(?P<finding>[a-z]+) +(?P<event>-|[A-Z].*?) +size (?P<size>\d+)"
)
ANSWER = re.compile(r"(?P<call>[a-z]\d+) [a-z]+ (?P<answer>.+)")

# What a step did, by what it found, or else by its name. Any other step only looks.
KIND_OF_FINDING = {
    "won": "won",
    "lost": "lost",
    "full": "refused",
    "refused": "refused",
    "outofrange": "refused",
    "taken": "taken",
    "nothing": "idle",
}
KIND_OF_NAME = {"Put": "put", "Fill": "filled", "FillMended": "filled", "Spoil": "broken"}
CELL_OF_KIND = {"won": "empty", "taken": "busy", "filled": "filled", "broken": "broken"}
REFUSALS = {"full": "full", "refused": "no memory", "outofrange": "out of range"}


class Step:
    """One line of a trace. `wanted` is the size that the call has loaded: its run is to begin there."""

    def __init__(self, found, wanted):
        self.text, self.wanted = re.sub(" +", " ", found[0]), wanted
        self.name, self.finding, self.event = found["name"], found["finding"], found["event"]
        self.number, self.size, self.at = int(found["number"]), int(found["size"]), int(found["at"] or 0)
        self.actor, self.call, self.command = found["actor"], found["actor"] + found["call"], found["command"]
        self.kind = KIND_OF_FINDING.get(self.finding) or KIND_OF_NAME.get(self.name, "look")
        # The cell that it makes, and the places whose cells are like that after it.
        self.cell, self.places = CELL_OF_KIND.get(self.kind, ""), range(0)
        if self.kind == "won":
            first, count = map(int, re.search(r"Run (\d+) (\d+)", self.event).groups())
            self.places = range(first, first + count)
        elif self.cell:
            self.places = range(self.at, self.at + 1)

    def word(self):
        """What it is called: its name, or how its try on the size ended."""
        if self.kind == "won":
            words = {0: "no place", 1: f"place {self.places.start}"}
            return "won " + words.get(len(self.places), f"places {self.places.start} to {self.places.stop - 1}")
        if self.kind == "lost":
            return f"lost place {self.wanted}"
        if self.kind == "idle":
            return ""
        at = "" if self.name in ("Load", "Exchange", "Raise") else f" {self.at}"
        return REFUSALS.get(self.finding, re.sub(r"(?<!^)(?=[A-Z])", " ", self.name).lower() + at)

    def contents(self):
        """What is said of the first cell that it changes: the call that claimed it, its value, or that it is broken."""
        value = re.match(r"Finish \d+ (\d+)", self.event)
        return value[1] if value else {"empty": self.call, "broken": "broken"}.get(self.cell, "")


class Play:
    """The steps of a trace, of which at most `most` are drawn, and the answers of the calls that ended."""

    def __init__(self, text, most):
        lines, loaded, self.steps = text.split("\n"), {}, []
        for found in filter(None, map(STEP.fullmatch, lines)):
            step = Step(found, loaded.get(found["actor"], 0))
            self.steps.append(step)
            if step.name == "Load" or step.kind == "lost":
                loaded[step.actor] = step.size
        if not self.steps:
            raise ValueError("there is no step to draw")
        # Lines of calls without a number are those of `--count`, after the line of the cells.
        ends = [line for line in lines[len(self.steps) :] if ANSWER.fullmatch(line) and " lost " not in line]
        answers = dict(ANSWER.fullmatch(line).groups() for line in ends)
        self.drawn, last = self.steps[:most], {step.call: step.number for step in self.steps}
        self.answers = {call: answer for call, answer in answers.items() if last[call] <= len(self.drawn)}
        self.actors, self.size = sorted({step.actor for step in self.drawn}), self.drawn[-1].size

    def sentences(self):
        """What happened, for readers by ear."""
        steps, actors = len(self.drawn), ", ".join(self.actors)
        yield f"{steps} atomic steps of the actors {actors}."
        for step in self.drawn:
            if step.kind in ("won", "lost", "refused", "broken"):
                word = f"broke place {step.at}" if step.kind == "broken" else step.word()
                yield f"Step {step.number}: {step.call} {step.command}, {word}."
        yield f"At the end the size is {self.size}."
