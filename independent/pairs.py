#!/usr/bin/env python3
"""Which two conditions a box's two records can be in at once, the short one's first.

  pairs.py                            those that the lists of rehearse.py show, and the first list that shows each
  pairs.py BOXES MINISLOTS GROUPS     all that a plain channel (plain.py) can come to by offers of one and of two slots and by slots, searched through to the end
  pairs.py BOXES MINISLOTS GROUPS holds
                                      the same by holds, commits and withdrawals too

`pairs.py 4 2 1` takes half a minute, `pairs.py 4 2 2` ten. Boxes are alike: what differs only by which box is which is searched once.
"""
import collections
import hashlib
import itertools
import pickle
import sys

import rehearse
from plain import LONG, SHORT, Plain, Refusal


def shown(printed):
    """The pair of conditions of each station in each show: two lines `message` one after the other."""
    conditions = [fields[3] for fields in (line.split(",") for line in printed.decode().split("\r\n")) if fields[1:2] == ["message"]]
    return zip(conditions[::2], conditions[1::2])


def of_the_lists():
    first = {}
    for name, data in rehearse.cases():
        for pair in shown(rehearse.rehearse(data)):
            first.setdefault(pair, name)
    for pair in sorted(first):
        print("%s,%s" % pair, first[pair])
    print(len(first), "pairs")


def remarks(short, long):
    """What a pair is found under: its two conditions; and where both have to do with one group, which."""
    yield short[0] + "," + long[0]
    if short[0] in ("asked", "resolving") and long[0] in ("asked", "resolving") and short[1] == long[1]:
        yield "in one group: " + short[0] + "," + long[0]


def state_of(channel, read=lambda condition: condition):
    """A channel in a few bytes, each condition as it is read."""
    conditions = [[read(condition) for condition in pair] for pair in channel.conditions()]
    text = repr((sorted(map(repr, conditions)), channel.group, channel.open))
    return hashlib.sha256(text.encode()).digest()[:12]


def held_as_free(condition):
    return ("free",) if condition[0] == "held" else condition


def search(boxes, m, n, holds):
    calls = [("offer", box, size) for box in range(boxes) for size in (1, 49)] + [("slot", picks) for picks in itertools.product(range(1, m + 1), repeat=boxes)]
    if holds:
        calls += [("hold", box, size) for box in range(boxes) for size in (1, 49)]
        calls += [(name, box, record) for name in ("commit", "withdraw") for box in range(boxes) for record in (SHORT, LONG)]
    first = Plain(boxes, m, n, range(boxes))
    states, found, coming = {state_of(first)}, {"free,free": 0}, collections.deque([(pickle.dumps(first), 0)])
    without_held = {state_of(first)}
    while coming:
        data, length = coming.popleft()
        for name, *arguments in calls:
            channel = pickle.loads(data)
            try:
                getattr(channel, name)(*arguments)
            except Refusal:
                continue
            channel.history = []
            state = state_of(channel)
            if state not in states:
                states.add(state)
                without_held.add(state_of(channel, held_as_free))
                coming.append((pickle.dumps(channel), length + 1))
                for pair in channel.conditions():
                    for remark in remarks(*pair):
                        found.setdefault(remark, length + 1)
    for remark in sorted(found):
        print(remark, "after", found[remark], "calls")
    print(len(states), "states")
    if holds:
        print(len(without_held), "states where a held record is read as a free one")


if __name__ == "__main__":
    if len(sys.argv) > 1:
        search(*[int(x) for x in sys.argv[1:4]], sys.argv[4:] == ["holds"])
    else:
        of_the_lists()
