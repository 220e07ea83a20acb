#!/usr/bin/env python3
"""The two channels of this folder against each other, on lists of calls made by chance: boxes that each do their own slot (channel.py over station.py) and the
plain channel of queues (plain.py).

  agree.py          100 lists, the same ones on every run
  agree.py LISTS    so many

After each call the answers, both records of each box, counters, calendar, position and wire must be the same, and the slots of all messages taken must be those
delivered and those that wait; a held message is taken at its commit. Who sends in the coming slots is asked of both on the way. It stops at the first that is not so,
and at the end says how often each answer, each turn and each pair of conditions came.
"""
import random
import sys

import channel
import station
from plain import FREE, LONG, SHORT, Plain, Refusal


def answer_of(call, *arguments):
    """What a call answers, or the number of its refusal."""
    try:
        return call(*arguments)
    except (Refusal, station.Refusal) as refusal:
        return ("refused", refusal.args[0])


class Both:
    """A channel twice. `taken` is the slots of the messages that were taken."""
    def __init__(self, m, n, indexes):
        self.plain = Plain(len(indexes), m, n, indexes)
        self.boxes = channel.channel_start(channel.EMPTY_TABLE.with_count(len(indexes)), m, n, indexes)
        self.taken = 0

    def write(self, name, index, argument):
        """An offer or a hold of so many bytes, or the commit or withdrawal of a record; answers what came of it, in a word or two."""
        record = station.RECORDS[argument] if name in ("commit", "withdraw") else argument
        plain, boxes = answer_of(getattr(self.plain, name), index, argument), answer_of(channel.channel_write, self.boxes, getattr(station, name), index, record)
        if isinstance(plain, int) and name in ("offer", "commit"):
            self.taken += plain
        self.same(plain, self.kept(boxes))
        return name if isinstance(plain, int) else "%s refused %d" % (name, plain[1])

    def slot(self, picks):
        position = self.plain.slots % 24
        plain, boxes = answer_of(self.plain.slot, picks), self.kept(answer_of(channel.channel_slot, self.boxes, picks))
        if plain[0] == "owned":
            plain = ("owned,%d" % self.plain.entries[position], *plain[1:])
        self.same(plain, boxes)
        return plain[0]

    def calendar(self, entries):
        plain, boxes = answer_of(self.plain.calendar, *entries), answer_of(channel.channel_calendar, self.boxes, entries)
        if isinstance(boxes, channel.Channel):
            self.boxes, boxes = boxes, None
        self.same(plain, boxes)

    def coming(self, w):
        """Answers what came of it: whether both queues are empty now, within the list or after it."""
        plain = answer_of(self.plain.coming, w)
        self.same(plain, answer_of(channel.channel_coming, self.boxes, w))
        if plain[0] == "refused":
            return "coming refused %d" % plain[1]
        return "coming: empty " + ("now" if plain[1] == 0 else "within the list" if plain[1] <= w else "after it")

    def kept(self, result):
        """The answer of a call; the table that it left is kept."""
        if result[0] == "refused":
            return result
        answer, self.boxes = result
        return answer

    def same(self, plain, boxes):
        assert plain == boxes, (plain, boxes)
        for box, both in zip(self.boxes.boxes, self.plain.conditions()):
            assert [box["short"], box["long"]] == both, (box, both)
            assert [box["m"], box["n"], box["next"], box["H"], box["N"], *box["RQ"], *[int(o) for o in box["Open"]]] == self.plain.counters()
            assert box["calendar"] == self.plain.entries and box["position"] == self.plain.slots % 24
        assert self.boxes.wire == self.plain.wire()
        assert self.taken == len(self.plain.history) + self.plain.waiting()


def rehearsed(chance):
    """A list of calls: what came of each offer, hold, commit and withdrawal, each turn that came, and each box's pair of conditions after each slot."""
    stations, m, n = chance.choice((1, 2, 3, 4, 6, 9, 16)), chance.choice((2, 2, 3, 8)), chance.choice((1, 2, 3, 8))
    indexes = chance.sample(range(924), stations)
    both, seen = Both(m, n, indexes), []
    for _ in range(120):
        rate = chance.choice((0, 0, 0, 0, 0.5 / stations, 0.8))  # none, few, most boxes
        release = chance.choice((0, 0, 0.5 / stations, 0.3))
        for index in [*indexes, 924]:
            for size in (chance.randint(0, 48), *chance.choices((chance.randint(49, 97), chance.randint(49, 300), 12240, 12241), (40, 8, 0.1, 2))):
                if chance.random() < rate:
                    seen.append(both.write(chance.choice(("offer", "hold")), index, size))
            for record in (SHORT, LONG):
                if chance.random() < release:
                    seen.append(both.write(chance.choice(("commit", "commit", "commit", "withdraw")), index, record))
        if chance.random() < 0.03:
            owner = chance.choice((*indexes, 924))
            both.calendar([chance.choice((owner, FREE, FREE)) if chance.random() < 0.9 else FREE for _ in range(24)])
        if chance.random() < 0.05:
            both.slot([chance.randint(0, m + 1) for _ in range(chance.choice((stations, stations + 1)))])
        if chance.random() < 0.1:
            seen.append(both.coming(chance.choices((0, 1, 24, 25, 1024, 1025, chance.randint(1026, 65535), chance.randint(1, 40)), (1, 2, 2, 2, 0.2, 1, 1, 20))[0]))
        seen.append(both.slot([chance.randint(1, m) for _ in indexes]).split(",")[0])
        seen += [tuple(condition[0] for condition in pair) for pair in both.plain.conditions()]
    return seen


def main(lists):
    count = {}
    for seed in range(lists):
        for what in rehearsed(random.Random(seed)):
            count[what] = count.get(what, 0) + 1
    for what in sorted(count, key=str):
        print(what if isinstance(what, str) else "%s,%s" % what, count[what])
    print("the two channels agree on %d lists" % lists)


if __name__ == "__main__":
    main(int(sys.argv[1]) if len(sys.argv) > 1 else 100)
