#!/usr/bin/env python3
"""Prints a script of the greatest size, or of a part of it.

    python3 examples/largest.py SHAPE [PART]

PART is a number above 0 and up to 1; with none it is 1. SHAPE is one of:

    pushes   16 actors of 1,000 pushes each, and 100,000 items in rounds
    items    100,000 items of one actor that has one call
    cells    16 actors that each grow by all the places there may be: 65,536 for one, refused for the others
    bytes    1,048,576 bytes: 16,000 calls of the longest numbers, and items with marks
    text     the longest texts, above 1.5 MB with the counts of steps: 65,536 places of the longest values by whole calls, and
             42,000 by steps, and then a line or two for each of 15,960 reads past the size

A part of a shape has that fraction of its calls, items and places.
"""
import sys

LETTERS = "abcdefghijklmnop"
MOST_ITEMS = 100_000
MOST_BYTES = 1_048_576


def script(limit, program, items):
    lines = [f"limit {limit}"]
    lines += [f"actor {letter} {program}" for letter in LETTERS]
    lines.append(" ".join(["steps"] + items))
    return "\n".join(lines)


def rounds(count):
    return [LETTERS[i % len(LETTERS)] for i in range(count)]


def pushes(part):
    program = ", ".join(["push 7"] * round(1_000 * part))
    return script(65_536, program, rounds(round(MOST_ITEMS * part))) + "\n"


def items(part):
    return script(65_536, "size", ["a"] * round(MOST_ITEMS * part)) + "\n"


def cells(part):
    places = round(65_536 * part)
    return script(places, f"grow {places} 7", list(LETTERS)) + "\n"


def bytes_(part):
    number = 2**64 - 1
    program = ", ".join([f"grow {number} {number}"] * round(1_000 * part))
    schedule = rounds(round(MOST_ITEMS * part))
    marks = round(MOST_BYTES * part) - len(script(65_536, program, schedule))
    marked = [item + "!" if i < marks else item for i, item in enumerate(schedule)]
    return script(65_536, program, marked)


def text(part):
    number = 2**64 - 1
    first, second = round(42_000 * part), round(23_536 * part)
    programs = [f"grow {first} {number}, grow {second} {number}"]
    programs += [", ".join([f"read {number}"] * round(1_000 * part))] * (len(LETTERS) - 1)
    lines = ["limit 65536"]
    lines += [f"actor {letter} {program}" for letter, program in zip(LETTERS, programs)]
    # A load, two steps for each of sixteen segments, an exchange, and two steps for each place.
    by_steps = ["a"] * (1 + 2 * (first - 1).bit_length() + 1 + 2 * first)
    lines.append(" ".join(["steps"] + by_steps + list(LETTERS[1:]) * round(1_064 * part)))
    return "\n".join(lines)


SHAPES = {"pushes": pushes, "items": items, "cells": cells, "bytes": bytes_, "text": text}


def main(words):
    if not 1 <= len(words) <= 2 or words[0] not in SHAPES:
        sys.exit(__doc__)
    part = float(words[1]) if len(words) == 2 else 1.0
    if not 0 < part <= 1:
        sys.exit(__doc__)
    sys.stdout.write(SHAPES[words[0]](part))


main(sys.argv[1:])
