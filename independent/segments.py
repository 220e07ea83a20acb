#!/usr/bin/env python3
"""What crates/segments_run must write, made from the papers' sentences and not from the Rattle program.

A message of 1 to 12,240 bytes takes ceil(bytes / 48) slots; else 10. Segment j is the bytes from 48(j-1) up to 48j or
the end; 10 for a message of another size, then 13 for a j that is 0 or above the slot total.

Given a short one and a long one (paper 02, T-04), the segment is of the short or of the long, by the turn: urgent and
open take the short, long takes the long, any other turn gives 13. There 10 means that the length of the message taken
is outside its own kind: a short has 1 to 48 bytes, a long 49 to 12,240.
"""
import sys
from fractions import Fraction
from math import ceil

TAKES = {"urgent": "short", "open": "short", "long": "long"}
KINDS = {"short": range(1, 48 + 1), "long": range(49, 12240 + 1)}
# In the space of all bytes, the place where each of two messages begins, and the owner that an owned turn names.
BEGINS = {"short": 0, "long": 100}
OWNER = 923


def slots(count):
    """The number and the slot total of a message of that many bytes."""
    if count < 1 or count > 12240:
        return 10, 0
    return 0, ceil(Fraction(count, 48))


def segment(data, j):
    """The number and the part of segment j."""
    number, total = slots(len(data))
    if number:
        return number, b""
    if j == 0 or j > total:
        return 13, b""
    return 0, bytes(b for i, b in enumerate(data) if 48 * (j - 1) <= i < 48 * j)


def segment_of_two(messages, turn, j):
    """The number and the part of segment j of the message that the turn takes."""
    if turn not in TAKES:
        return 13, b""
    kind = TAKES[turn]
    if len(messages[kind]) not in KINDS[kind]:
        return 10, b""
    return segment(messages[kind], j)


def told(answer):
    """The number, and the part's bytes, first and last byte."""
    number, part = answer
    first, last = (part[0], part[-1]) if part else (0, 0)
    return number, len(part), first, last


def rows_of_two(data):
    """By every turn, every two lengths, and segments 0, 1, 2, the last and one past it of either message."""
    lengths = (0, 1, 48, 49, 12240, 12241)
    for turn in ("urgent", "long", "resolve", "open", "owned"):
        for short in lengths:
            for long in lengths:
                counts = {"short": short, "long": long}
                messages = {kind: data[BEGINS[kind]:][:counts[kind]] for kind in counts}
                ends = [slots(count)[1] for count in (short, long)]
                for j in sorted({0, 1, 2, *ends, *(end + 1 for end in ends)}):
                    owner = (OWNER,) if turn == "owned" else ()
                    yield (turn, short, long, j) + owner + told(segment_of_two(messages, turn, j))


def rows():
    for count in (0, 1, 48, 49, 96, 97, 12239, 12240, 12241, 2**64 - 1):
        yield ("slots", count) + slots(count)
    data = bytes((31 * (i % 251) + 7) % 251 for i in range(100 + 12241))
    for count in (0, 1, 48, 49, 100, 12240, 12241):
        end = slots(count)[1]
        for j in (0, 1, 2, end, end + 1):
            yield ("segment", count, j) + told(segment(data[:count], j))
    yield from rows_of_two(data)


for row in rows():
    sys.stdout.write(",".join(map(str, row)) + "\n")
