#!/usr/bin/env python3
"""Draws the atomic steps of a play, and prints the picture, an SVG.

  bin/draw FILE.steps    plays the script by bin/cvec, with a trace
  bin/draw FILE.trace    draws a stored trace

Time runs from left to right. Each actor has a lane. A step is a mark there, whose shape and colour say what it did, and the
steps of a call lie in one bar. A claim leads to a bracket at its places, a lost exchange to the place that it lost. Below the
lanes each place has a strip, which shows its cell from the claim on. A column is as wide as its labels need, so that no two
overlap. A long play is cut, and the picture says so.
"""

import collections
import os
import subprocess
import sys
from xml.sax.saxutils import escape

sys.dont_write_bytecode = True

from play import Play

CVEC = os.path.join(os.path.dirname(os.path.realpath(__file__)), "..", "bin", "cvec")

# The most steps and places that are drawn.
MOST_STEPS, MOST_PLACES = 200, 40

# Each colour on a light page and on a dark one.
COLOURS = {
    "page": ("#ffffff", "#0d1117"),
    "ink": ("#1f2328", "#e6edf3"),
    "faint": ("#59636e", "#9198a1"),
    "line": ("#d1d9e0", "#3d444d"),
    "call": ("#f0f3f6", "#1c232c"),
    "won": ("#0550ae", "#79c0ff"),
    "lost": ("#d1242f", "#ff7b72"),
    "refused": ("#bc4c00", "#ffa657"),
    "busy": ("#9a6700", "#e3b341"),
    "filled": ("#1a7f37", "#56d364"),
    "broken": ("#8250df", "#d2a8ff"),
}
BOLD = ("won", "lost", "refused", "broken")

# What a step did: its colour, its shape around the point 0,0, and what the legend says of it.
KINDS = {
    "look": ("faint", '<circle r="4"/>', "looks"),
    "put": ("ink", '<path d="M-4-4H4V4H-4z" fill="currentColor"/>', "puts a segment"),
    "won": ("won", '<path d="M0-7 7 0 0 7-7 0z" fill="currentColor"/>', "claims places"),
    "lost": ("lost", '<path d="M-5-5 5 5M5-5-5 5" stroke-width="3"/>', "loses an exchange"),
    "refused": ("refused", '<circle r="5.5"/><path d="M-4 4 4-4"/>', "is refused"),
    "taken": ("busy", '<path d="M-4-5.5 6 0-4 5.5z" fill="currentColor"/>', "begins a cell"),
    "filled": ("filled", '<circle r="5.5" fill="currentColor"/>', "fills it"),
    "broken": ("broken", '<path d="M0-7 2-2 7 0 2 2 0 7-2 2-7 0-2-2z" fill="currentColor"/>', "breaks it"),
    "idle": ("faint", '<circle r="1" fill="currentColor"/>', "has no call left"),
}

# A cell that is claimed: its colour, what is inside its strip, and the words for it.
CELLS = {
    "empty": ("faint", "none", "empty cell"),
    "busy": ("busy", "url(#busy)", "busy cell"),
    "filled": ("filled", "currentColor", "filled cell"),
    "broken": ("broken", "currentColor", "broken cell"),
}

DOTS = 'stroke-dasharray="1 3"'

# Lengths. A character is at most as wide as WIDTH times its size. The lanes begin at the height TOP, the columns at LEFT.
WIDTH, GAP, COLUMN, LEFT, TOP = 0.61, 7, 26, 84, 66
LANE, MARK, ROW, STRIP = 58, 30, 19, 13


def text(x, y, words, colour, size=10, is_bold=False):
    bold = ' font-weight="bold"' if is_bold or colour in BOLD else ""
    return f'<text class="{colour}" x="{x:.1f}" y="{y}" font-size="{size}"{bold}>{escape(words)}</text>'


def width_of(words, size=10):
    return len(words) * size * WIDTH


class Picture:
    """The picture of a play. Steps are added from left to right."""

    def __init__(self, play, name):
        self.play, self.name, self.x, self.parts = play, name, LEFT - COLUMN, []
        # Where the bar of each call begins and ends, and how the cell of each place changes.
        self.bars, self.changes = {}, collections.defaultdict(list)
        self.lanes = {actor: TOP + LANE * at for at, actor in enumerate(play.actors)}
        self.rows = TOP + LANE * len(play.actors) + 26
        # Where the last label ends in each line of labels, by its height.
        heights = [y + below for y in self.lanes.values() for below in (14, LANE - 8)]
        heights += [self.row(place) + 11 for place in range(min(play.size, MOST_PLACES))]
        self.ends = dict.fromkeys([TOP - 12, *heights, self.rows - 8], LEFT - GAP)

    def row(self, place):
        """The top of the row of a place. All those that are not drawn have one row."""
        return self.rows + ROW * min(place, MOST_PLACES)

    def labels(self, step, is_first):
        """The labels of a step: each with its height, where it begins beside the mark, its colour and its size."""
        lane, number, word = self.lanes[step.actor], str(step.number), step.word()
        yield number, TOP - 12, -width_of(number, 9) / 2, "faint", 9
        yield word, lane + LANE - 8, -width_of(word) / 2, KINDS[step.kind][0], 10
        if is_first:
            answer = self.play.answers.get(step.call)
            yield f"{step.call} {step.command}" + (f" → {answer}" if answer else ""), lane + 14, -9, "ink", 11
        if step.number == 1 or step.kind == "won" and step.places:
            yield str(step.size), self.rows - 8, 4, "won", 11
        if step.places and step.places.start < MOST_PLACES:
            yield step.contents(), self.row(step.places.start) + 11, 4, "ink", 10

    def add(self, step):
        """Draws a step as far left as its labels have room, and so that its line to a cell crosses no label."""
        labels = [it for it in self.labels(step, bool(step.command) and step.call not in self.bars) if it[0]]
        foot, row = self.lanes[step.actor] + LANE - 3, 0
        if step.kind == "lost" or step.kind == "won" and step.places:
            row = self.row(step.wanted if step.kind == "lost" else step.places.start)
        crossed = [y for y in self.ends if foot < y < row + (ROW if step.kind == "lost" else 0)]
        room = [self.ends[y] + GAP - begin for _words, y, begin, _colour, _size in labels]
        self.x = round(max([self.x + COLUMN, *room, *(self.ends[y] + GAP for y in crossed)]), 1)
        self.ends.update((y, self.x) for y in crossed)
        for words, y, begin, colour, size in labels:
            self.parts.append(text(self.x + begin, y, words, colour, size))
            self.ends[y] = self.x + begin + width_of(words, size)
        self.parts += [self.mark(step), self.line(step, foot, row) if row else ""]
        self.bars.setdefault(step.call, [step.actor, self.x, 0])[2] = self.x
        for place in step.places[: max(0, MOST_PLACES - step.places.start)]:
            self.changes[place].append((self.x, step.cell))

    def mark(self, step):
        colour, shape, _words = KINDS[step.kind]
        at = f'transform="translate({self.x} {self.lanes[step.actor] + MARK})"'
        return f'<g class="{colour} {step.kind}-step" {at}><title>{escape(step.text)}</title>{shape}</g>'

    def line(self, step, foot, row):
        """The line from a claim to a bracket at its places, or from a lost exchange to the place that it lost."""
        if step.kind == "won":
            end = self.row(step.places.stop - 1) + STRIP + 2
            return f'<path class="won" d="M{self.x} {foot}V{end}M{self.x + 5:.1f} {row}h-5M{self.x + 5:.1f} {end}h-5"/>'
        cross = f"M{self.x - 4:.1f} {row + STRIP / 2 - 3}l8 8m0-8l-8 8"
        dashes = f'<path d="M{self.x} {foot}V{row + STRIP / 2 - 3}" stroke-dasharray="3 3"/>'
        return f'<g class="lost">{dashes}<path d="{cross}" stroke-width="2.5"/></g>'

    def lane_parts(self, right):
        """The lanes with their names, and the bar of each call: dashed if the call does not end."""
        for actor, y in self.lanes.items():
            yield text(16, y + MARK + 5, actor, "ink", 15, True)
            yield f'<path class="line" d="M36 {y + MARK}H{right}" stroke-width="1"/>'
        for call, (actor, first, last) in self.bars.items():
            end, dashes = (last + 11, "") if call in self.play.answers else (right, ' stroke-dasharray="4 3"')
            at = f'x="{first - 11:.1f}" y="{self.lanes[actor] + MARK - 10}" width="{end - first + 11:.1f}" height="20" rx="10"'
            if call != actor:
                yield f'<g class="line"><rect {at} class="call" fill="currentColor"/><rect {at} stroke-width="1"{dashes}/></g>'

    def row_parts(self, right):
        """The size, and the places with the strip of each."""
        yield text(16, self.rows - 8, "size", "faint")
        if self.play.size > MOST_PLACES:
            yield text(16, self.row(MOST_PLACES) + 11, "others", "faint")
        for place in range(min(self.play.size, MOST_PLACES)):
            y, changes = self.row(place) + 1, [*self.changes[place], (right, "")]
            yield text(16, y + 10, f"place {place}", "faint")
            yield f'<path class="faint" d="M{LEFT} {y + 6.5}H{changes[0][0]}" stroke-width="1" {DOTS}/>'
            for (x, cell), (end, _next) in zip(changes, changes[1:]):
                colour, inside, words = CELLS[cell]
                at = f'x="{x}" y="{y}" width="{end - x:.1f}" height="{STRIP}"'
                yield f'<rect class="{colour} {cell}-cell" {at} fill="{inside}" fill-opacity=".25" stroke-width="1">' + (
                    f"<title>place {place}: {words}</title></rect>"
                )

    def legend(self, right, y):
        """The marks and cells that are drawn, with words, in as many lines as they need. Returns the height below them."""
        kinds, cells = {it.kind for it in self.play.drawn}, {it.cell for it in self.play.drawn if it.places}
        shown = [it for kind, it in KINDS.items() if kind in kinds]
        box = '<path d="M-7-6H7V6H-7z" fill="{}" fill-opacity=".25" stroke-width="1"/>'
        shown += [(colour, box.format(inside), words) for it, (colour, inside, words) in CELLS.items() if it in cells]
        shown += [("faint", f'<path d="M-7 0H7" stroke-width="1" {DOTS}/>', "not claimed")]
        x = 16
        for colour, shape, words in shown:
            x, y = (x, y) if x + 20 + width_of(words) <= right else (16, y + 20)
            self.parts += [f'<g class="{colour}" transform="translate({x + 8:.1f} {y - 3.5})">{shape}</g>']
            self.parts += [text(x + 20, y, words, "faint")]
            x += 40 + width_of(words)
        return y + 22

    def notes(self):
        """What is not drawn."""
        kinds = (len(self.play.steps), len(self.play.drawn), "steps"), (self.play.size, MOST_PLACES, "places")
        return [f"Only the first {most} of {count} {what} are drawn." for count, most, what in kinds if count > most]

    def svg(self):
        for step in self.play.drawn:
            self.add(step)
        heading, beside = f"{len(self.play.drawn)} atomic steps from left to right", 30 + width_of(self.name, 16)
        right = round(max(self.x + 70, *self.ends.values(), beside + width_of(heading, 11), 600))
        head = [text(16, 28, self.name, "ink", 16, True), text(beside, 28, heading, "faint", 11)]
        head += [text(16, TOP - 12, "step", "faint", 9), *self.lane_parts(right), *self.row_parts(right)]
        y = self.legend(right, self.row(min(self.play.size, MOST_PLACES + 1)) + 24)
        notes = self.notes()
        self.parts += [text(16, y + 20 * at, note, "ink", 11) for at, note in enumerate(notes)]
        told = " ".join([*self.play.sentences(), *notes])
        return page(right + 16, y + 20 * len(notes), self.name, told, [*head, *self.parts])


def page(width, height, name, told, parts):
    """The whole picture of these parts."""
    sheets = ["".join(f".{it}{{color:{colours[at]}}}" for it, colours in COLOURS.items()) for at in (0, 1)]
    return f"""\
<svg xmlns="http://www.w3.org/2000/svg" width="{width}" height="{height}" viewBox="0 0 {width} {height}"
 role="img" aria-labelledby="title told">
<title id="title">The steps of {escape(name)}, one lane for each actor, and the cells below</title>
<desc id="told">{escape(told)}</desc>
<style>text{{fill:currentColor;stroke:none}}
{sheets[0]}
@media(prefers-color-scheme:dark){{{sheets[1]}}}</style>
<pattern id="busy" width="5" height="5" patternUnits="userSpaceOnUse" patternTransform="rotate(45)">
<path class="busy" d="M2 0V5" stroke="currentColor" stroke-width="3"/></pattern>
<rect class="page" width="{width}" height="{height}" rx="8" fill="currentColor"/>
<g font-family="ui-monospace,'DejaVu Sans Mono',Menlo,Consolas,monospace" stroke="currentColor" fill="none" stroke-width="1.6">
{chr(10).join(filter(None, parts))}
</g>
</svg>"""


def trace_of(path):
    """The text of a stored trace, or of the trace of a script."""
    with open(path, encoding="utf-8") as file:
        if path.endswith(".trace"):
            return file.read()
        return subprocess.run([CVEC, "steps", "--trace"], stdin=file, stdout=subprocess.PIPE, text=True, check=True).stdout


def main(words):
    if len(words) != 1 or not words[0].endswith((".steps", ".trace")):
        sys.exit(__doc__)
    try:
        play = Play(trace_of(words[0]), MOST_STEPS)
    except (OSError, ValueError, subprocess.CalledProcessError) as error:
        sys.exit(f"draw: {error}")
    print(Picture(play, os.path.splitext(os.path.basename(words[0]))[0]).svg())


if __name__ == "__main__":
    main(sys.argv[1:])
