#!/usr/bin/env python3
"""How long a place waits (paper 02, T-08): foretold from what `rehearse` prints for a show, and held against the slots that it prints later.

  waits.py       every list of crates/rehearse_run/stdout
  waits.py FILE  every list of a file of that form: a line with a name, what is printed for the list, an empty line

It reads printed lines and nothing else, so it is all one which program wrote them. From each show it takes who stands at which place of H and of N, who has asked
in which minislot, and the calendar. By these, slots being counted from the next one that goes through:
  1. a message at H place p sends, and is delivered, in exactly the p-th unowned slot;
  2. a segment at N place p sends, and is delivered, in exactly the unowned slot of number p + u, u being the urgent turns until then;
  3. urgent turns, and long turns, go by the order of joining: first who stands in the queue, place by place; then who has asked alone in a minislot and has no
     immediate success, by the slot that hears it and in it by the minislot; only then anybody else. And from a show to the next places fall by the slots served;
  4. until a calendar is set, owned slots are those of the calendar shown, and no place waits longer than the bound; nor is that bound, for all places of both
     queues, below the number that a call for the coming slots says there.
It stops at the first that is not so. What a list is too short for must not have been sent at its end. At last it says how much was compared.
"""
import os
import sys
from collections import Counter, namedtuple

NOBODY = 65535  # the entry of a position without an owner
POSITIONS = 24
STDOUT = os.path.join(os.path.dirname(os.path.abspath(__file__)), "../crates/rehearse_run/stdout")
# `after_open`: whether the last slot of the same group was open
Slot = namedtuple("Slot", "turn senders index segment delivered after_open")
# `at` and `calendars`: how many slots and calendars came before; `queues`: of H and of N the index and segment at each place; `joining`: those that join next
Show = namedtuple("Show", "call at calendars position entries queues joining")


class Disagrees(Exception):
    """What was foretold and is not so."""


def agree(holds, *words):
    if not holds:
        raise Disagrees(" ".join(str(word) for word in words))


# ---- what is printed for a list

def shown(call, at, calendars, lines):
    """A show, from its lines: of each the kind, and the fields after it."""
    (_, n, following, *lengths), (position, *entries) = [[int(x) for x in fields] for kind, fields in lines if kind in ("counters", "owners")]
    agree(position == at % POSITIONS, "call", call, "shows position", position, "after", at, "slots")
    opened = {int(g): mark == "yes" for g, _, mark in (fields for kind, fields in lines if kind == "group")}
    places, asked = {"H": [], "N": []}, {g: {} for g in opened}
    for index, condition, *numbers in (fields for kind, fields in lines if kind == "message"):
        index, numbers = int(index), [int(x) for x in numbers]
        if condition == "urgent":
            places["H"].append((numbers[0], (index, 1)))
        elif condition == "long":
            first, left, total = numbers
            places["N"] += [(first + k, (index, total - left + 1 + k)) for k in range(left)]
        elif condition == "asked":
            g, j, total = numbers
            asked[g].setdefault(j, []).append((index, total))
    for name, length in zip("HN", lengths):
        agree(sorted(p for p, _ in places[name]) == list(range(1, length + 1)), "call", call, "shows other places of", name, "than 1 to", length)
    joining = {"H": [], "N": []}
    for g in [(following + k - 1) % n + 1 for k in range(n)]:  # in the order of their next slots
        row = [asked[g][j] for j in sorted(asked[g])]
        alone = [messages[0] for messages in row if len(messages) == 1]
        success = opened[g] and len(alone) == len(row) and [total for _, total in alone].count(1) == 1
        joining["H"] += [(index, 1) for index, total in alone if total == 1 and not success]
        joining["N"] += [(index, segment) for index, total in alone if total > 1 for segment in range(1, total + 1)]
    return Show(call, at, calendars, position, entries, {name: [entry for _, entry in sorted(places[name])] for name in "HN"}, joining)


def read(text):
    """The slots that went through; the shows; how many slots came before each calendar; what was said of the coming slots, after how many slots and calendars."""
    slots, shows, calendars, coming, opened = [], {}, [], [], {}
    for line in text.decode().split("\r\n")[1:-1]:
        call, kind, *fields = line.split(",")
        if kind == "slot":
            group, turn, *numbers = fields
            slots.append(Slot(turn, *[int(x) for x in numbers[:4]], opened.get(group, False)))
            opened[group] = turn == "o"
        elif kind == "calendar":
            calendars.append(len(slots))
        elif kind == "coming":
            coming.append((len(slots), len(calendars), int(fields[0])))
        elif kind in ("counters", "owners", "group", "message"):
            shows.setdefault(call, (len(slots), len(calendars), []))[2].append((kind, fields))
    return slots, [shown(int(call), *rest) for call, rest in shows.items()], calendars, coming


# ---- what is foretold

def bound(p, free):
    """The most slots until the p-th unowned one, if so many positions are free."""
    return 0 if p == 0 else POSITIONS * ((p - 1) // free) + (POSITIONS - free) + (p - 1) % free + 1


def number_of(p, show):
    """The slots until the p-th unowned one, by the calendar of a show."""
    free = [k for k in range(1, POSITIONS + 1) if show.entries[(show.position + k - 1) % POSITIONS] == NOBODY]
    return 0 if p == 0 else POSITIONS * ((p - 1) // len(free)) + free[(p - 1) % len(free)]


class Comparison:
    """Of one list. `count` says how much was compared: places, each as often as it is shown, and beside them the different messages, segments and pairs."""
    def __init__(self, text):
        self.slots, self.shows, self.calendars, self.coming = read(text)
        self.count = Counter({"lists": 1 if self.shows else 0, "shows": len(self.shows)})
        self.different = set()
        for show, following in zip(self.shows, self.shows[1:] + [None]):
            self.compare(show, following)
        self.count.update(Counter(kind for kind, *_ in self.different))

    def compare(self, show, following):
        later = list(enumerate(self.slots[show.at:], start=1))
        lasts = self.calendars[show.calendars] - show.at if show.calendars < len(self.calendars) else len(later)  # so many go by the calendar shown
        for k, slot in later[:lasts]:
            owner = show.entries[(show.position + k - 1) % POSITIONS]
            agree(slot.turn != "w" if owner == NOBODY else slot[:4] == ("w", 1, owner, 0), "call", show.call, "gives slot", k, "to owner", owner, "but it is", slot)
        unowned = [k for k, slot in later if slot.turn != "w"]
        not_urgent = [k for k, slot in later if slot.turn not in ("w", "u")]  # the p-th of them is number p + u among the unowned ones
        for name, turn, serving in (("H", "u", unowned), ("N", "l", not_urgent)):
            self.compare_queue(name, show, [(k, slot) for k, slot in later if slot.turn == turn], serving, unowned, lasts)
            if following:
                remain = show.queues[name][len([k for k in serving if k <= following.at - show.at]):]
                agree(following.queues[name][:len(remain)] == remain, "places of", name, "do not fall by the slots served, calls", show.call, "and", following.call)
        waiting = len(show.queues["H"]) + len(show.queues["N"])
        for until in (until for *before, until in self.coming if before == [show.at, show.calendars]):
            most = bound(waiting, show.entries.count(NOBODY))
            agree(until == number_of(waiting, show) <= most, "call", show.call, "has", waiting, "places and bound", most, "and the coming slots beside it are", until)
            self.count["coming"] += 1

    def compare_queue(self, name, show, sending, serving, unowned, lasts):
        """H or N as a show has it. `sending`: the later slots with a turn of this queue. `serving`: the numbers of those that must have one while an entry is left."""
        queue, free = show.queues[name], show.entries.count(NOBODY)
        first = {}
        for k, slot in sending:
            first.setdefault((slot.index, slot.segment), (k, slot))
        numbers = {k: number for number, k in enumerate(unowned, start=1)}
        for p, entry in enumerate(queue, start=1):
            where = ("call", show.call, name, "place", p, "index and segment", entry)
            k, slot = first.get(entry, (None, None))
            foretold = serving[p - 1] if p <= len(serving) else None
            agree(k == foretold, *where, "foretold for slot", foretold, "and sent in", k)
            self.count[name + " places"] += 1
            self.different.add((name + " segments" if k else name + " segments not reached", entry, k and show.at + k))
            if k:
                agree(slot.senders == 1 and 1 <= slot.delivered <= 1 + slot.after_open, *where, "not delivered by", slot)
                self.count[name + " places reached"] += 1
                self.count[name + " places behind newcomers"] += numbers[k] - p > len(show.queues["H"])
            if k and k <= lasts:
                most = bound(numbers[k], free)
                agree(k == number_of(numbers[k], show) <= most, *where, "waits", k, "slots and the bound is", most)
                self.count["bounds"] += 1
        line = queue + show.joining[name]
        for (k, slot), entry in zip(sending, line):
            agree((slot.index, slot.segment) == entry, "call", show.call, "next in line of", name, entry, "and slot", k, "sends", slot)
        # each message in line, and the slot of its last segment if the list goes on so long
        last = {index: k and show.at + k for (index, _), k in zip(line, [k for k, _ in sending] + [None] * len(line))}
        self.different |= {(name + " messages" if last[index] else name + " messages not reached", index, last[index]) for index, _ in queue}
        messages = list(last.items())
        self.different |= {(name + " pairs", *earlier, *after) for i, earlier in enumerate(messages) if earlier[1] for after in messages[i + 1:]}


def compare(text):
    """How much was compared of what is printed for a list. It stops at the first that is not as foretold."""
    return Comparison(text).count


# ---- many lists

def lists_in(data):
    """The name of each list in a file like crates/rehearse_run/stdout, and what is printed for it."""
    for part in data.split(b"\n\n"):
        name, _, text = part.partition(b"\n")
        if name:
            yield name.decode(), text + b"\n"


def in_words(count):
    return (
        "%(lists)d lists with %(shows)d shows; H: %(H messages)d messages sent as foretold from %(H places reached)d places, %(H messages not reached)d not reached; "
        "N: %(N messages)d messages, %(N segments)d segments sent as foretold from %(N places reached)d places, %(N places behind newcomers)d behind urgent newcomers, "
        "%(N messages not reached)d messages not reached; pairs: %(H pairs)d of H, %(N pairs)d of N; bounds: %(bounds)d, and %(coming)d of coming slots") % count


def main(path):
    total = Counter()
    with open(path, "rb") as f:
        data = f.read()
    for name, text in lists_in(data):
        try:
            total.update(compare(text))
        except Disagrees as disagrees:
            print("%s: %s" % (name, disagrees), file=sys.stderr)
            return 1
    print(in_words(total))
    return 0


if __name__ == "__main__":
    sys.exit(main(sys.argv[1] if len(sys.argv) > 1 else STDOUT))
