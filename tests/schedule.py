#!/usr/bin/env python3
"""Prints what `cvec sweep --seed SEED --count 1 --len LEN --print 0` must print: a schedule as a script for `cvec steps`.

    tests/schedule.py SEED LEN

It is written from the definitions in docs/SCRIPTS.md, and tests/cli-tests compares the two.
"""
import sys

PROGRAMS = {
    "a": "push 1, grow 3 2, atleast 9 3",
    "b": "fail 4 5 2, read 0, push 6",
    "c": "atleast 5 7, size, grow 2 8",
}
LONG, WORD = 2**64 - 1, 2**32 - 1
MULTIPLIER = 6364136223846793005


def turned(state):
    """The word that the generator Pcg32 makes of a state."""
    mixed, turn = (((state >> 18) ^ state) >> 27) & WORD, state >> 59
    return ((mixed >> turn) | (mixed << (-turn & 31))) & WORD


def words(seed):
    """The words of the Pcg32 that is seeded from one number."""
    filled = []
    for _ in range(4):
        seed = (seed * MULTIPLIER + 11634580027462260723) & LONG
        filled.append(turned(seed))
    increment = (filled[3] << 32 | filled[2]) | 1
    state = ((filled[1] << 32 | filled[0]) + increment) * MULTIPLIER + increment & LONG
    while True:
        yield turned(state)
        state = (state * MULTIPLIER + increment) & LONG


def main(seed, length):
    print("limit 16")
    for name, program in PROGRAMS.items():
        print(f"actor {name} {program}")
    items = ("abc"[word % 3] + ("" if word // 3 % 16 else "!") for _, word in zip(range(length), words(seed & LONG)))
    print(" ".join(["steps", *items]))


if __name__ == "__main__":
    if len(sys.argv) != 3:
        sys.exit(__doc__)
    main(int(sys.argv[1]), int(sys.argv[2]))
