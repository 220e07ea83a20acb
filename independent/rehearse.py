#!/usr/bin/env python3
"""`rehearse` written a second time, over the plain channel (plain.py) and not from the Rattle programs, and the lists of calls that it is run on.

  rehearse.py               rehearse the list on standard input, bytes in and bytes out
  rehearse.py list          each list: a line with its file's name, what is printed for it, and an empty line (crates/rehearse_run/stdout)
  rehearse.py names         the name of each list's file, a line each (crates/rehearse_run/stdin)
  rehearse.py write FOLDER  each list as FOLDER/NAME.csv (crates/rehearse_run/data)
  rehearse.py try PROGRAM   run PROGRAM on each list, and on some larger ones, by standard input, by file name and a few bytes at a time, and compare
  rehearse.py long STATIONS SLOTS
                            a list of that many slots for timing, with eight offers after every 24th
"""
import functools
import math
import sys

import waits
from plain import FREE, LONG, SHORT, Plain, Refusal
from recordings import command, lines, numbers_of, printed, zeros

HEADER = b"call,kind,group,turn,senders,index,segment,delivered,H,N,RQ\r\n"
LONGEST = 512
# the largest number that each parameter holds; the bytes of an offer or a hold are any number of five digits
MINISLOTS = GROUPS = PICKED = 255
INDEX = ENTRY = COMING_SLOTS = 65535
BYTES = 99999
POSITIONS = 24
KINDS = {b"short": SHORT, b"long": LONG}
LETTERS = {"owned": "w", "urgent": "u", "long": "l", "resolve": "r", "open": "o"}


def line(*values):
    return ",".join(str(value) for value in values).encode() + b"\r\n"


def fitting(fields, most):
    """The fields' numbers, one for each parameter. 19: another count of them, or a number above the most that its parameter holds."""
    numbers = numbers_of(fields)
    if len(numbers) != len(most) or any(x > y for x, y in zip(numbers, most)):
        raise Refusal(19)
    return numbers


def named(fields):
    """An index, and which of the two records a word names. 19: anything else."""
    if len(fields) != 2 or fields[1] not in KINDS:
        raise Refusal(19)
    return fitting(fields[:1], [INDEX]) + [KINDS[fields[1]]]


class Rehearsal:
    """A run: no channel before the first record, then one and the number of the calls made on it.

    A record is read whole before it is done. So 19, as a start's own refusal, leaves `step` and ends the output; a call's refusal is a line of it.
    """
    def __init__(self):
        self.channel = None
        self.calls = 0

    def step(self, record):
        fields = record.split(b",")
        if self.channel is None:
            m, n, *indexes = fitting(fields, [MINISLOTS, GROUPS] + [INDEX] * (len(fields) - 2))
            self.channel = Plain(len(indexes), m, n, indexes)
            return b""
        word, *rest = fields
        if word == b"offer":
            call, numbers = self.offer, fitting(rest, [INDEX, BYTES])
        elif word == b"hold":
            call, numbers = self.hold, fitting(rest, [INDEX, BYTES])
        elif word == b"commit":
            call, numbers = self.commit, named(rest)
        elif word == b"withdraw":
            call, numbers = self.withdraw, named(rest)
        elif word == b"slot":
            call, numbers = self.slot, fitting(rest, [PICKED] * len(rest))
        elif word == b"calendar":
            call, numbers = self.calendar, fitting(rest, [ENTRY] * POSITIONS)
        elif word == b"coming":
            call, numbers = self.coming, fitting(rest, [COMING_SLOTS])
        elif word == b"show":
            call, numbers = self.show, fitting(rest, [])
        else:
            raise Refusal(19)
        self.calls += 1
        try:
            return call(*numbers)
        except Refusal as refusal:
            return self.line("refused", refusal.args[0])

    def line(self, *values):
        return line(self.calls, *values)

    def offer(self, index, bytes):
        return self.line("offer", self.channel.offer(index, bytes))

    def hold(self, index, bytes):
        return self.line("hold", self.channel.hold(index, bytes))

    def commit(self, index, record):
        return self.line("commit", self.channel.commit(index, record))

    def withdraw(self, index, record):
        return self.line("withdraw", self.channel.withdraw(index, record))

    def slot(self, *picks):
        group = self.channel.group
        turn, *values = self.channel.slot(picks)
        _, _, _, H, N, *rest = self.channel.counters()
        return self.line("slot", group, LETTERS[turn], *values, H, N, rest[group - 1])

    def calendar(self, *entries):
        self.channel.calendar(*entries)
        return self.line("calendar")

    def coming(self, w):
        senders, until = self.channel.coming(w)
        return self.line("coming", until, *senders)

    def show(self):
        channel = self.channel
        m, n, following, H, N, *rest = channel.counters()
        resolution, marks = rest[:8], rest[8:]
        out = [self.line("counters", m, n, following, H, N), self.line("owners", channel.slots % POSITIONS, *channel.entries)]
        out += [self.line("group", g, resolution[g - 1], "yes" if marks[g - 1] else "no") for g in range(1, n + 1)]
        out += [self.line("message", index, *condition) for index, both in zip(channel.indexes, channel.conditions()) for condition in both]
        for g, row in enumerate(channel.wire()[:n], start=1):
            out.append(self.line("wire", g, *[x for minislot in row[:m] for x in minislot]))
        return b"".join(out)


@functools.cache  # since some lists are looked at before they are run
def rehearse(data):
    return printed(data, LONGEST, HEADER, Rehearsal().step)


# ---- what the lists are made of

ARRIVES, KIND, SIZE, PICK, BAD, BAD_KIND, SET, SET_KIND, OWNED, OWNER, SHORTS, LONGS, APART, HELD, RELEASED, RELEASE_KIND, LOOKED, LOOKED_KIND, AHEAD = range(1, 20)


def scrambled(x):
    product = x * 2654435761 % 2**32
    return product // 65536 + product % 65536 * 65536


def draw(s, k, question, bound):
    """A number below the bound: of slot s, station k and a question, the same on every run."""
    x = (s << 16) + (k << 8) + question
    return scrambled(scrambled(scrambled(x))) // 256 % bound


def start(m, n, indexes):
    return ",".join(str(x) for x in [m, n, *indexes])


def slot(picks):
    return ",".join(["slot", *[str(p) for p in picks]])


def calendar(owned):
    """The calendar in which these positions have these owners."""
    return entries_of([owned.get(p, FREE) for p in range(POSITIONS)])


def entries_of(entries):
    return ",".join(["calendar", *[str(x) for x in entries]])


def shown(first, *calls):
    """A list with a show after its start and after each call."""
    return lines(first, "show", *[text for call in calls for text in (call, "show")])


def amid(record):
    """A record with a slot before it and one after it, which shows whether the list goes on."""
    return b"2,1,7,8\r\nslot,1,1\r\n" + record + b"\r\nslot,1,1\r\n"


ONE, TWO = "2,1,7", "2,1,7,8"
CLEARED = calendar({})
# 64 stations, their places in a square of eight by eight: those of a column pick alike in the one, those of a row in the other
MANY = [911 - 13 * k for k in range(64)]
BY_COLUMN = slot(k % 8 + 1 for k in range(64))
BY_ROW = slot(k // 8 + 1 for k in range(64))


def settled(bytes):
    """64 stations that all ask at once: eight collisions of eight, each resolved in one slot."""
    return lines(start(8, 1, MANY), *["offer,%d,%d" % (index, bytes) for index in MANY], BY_COLUMN, "show", BY_ROW, "show", *[BY_ROW] * 8, "show", BY_ROW, "show")


def drawn_calendar(s, indexes):
    """A calendar by the same rule: no owner, few, many, all but one; one in four is refused, by an owner that is no station or with no position free."""
    kind = draw(s, 0, SET_KIND, 8)
    rarity = [1, 12, 4, 2, 1, 4, 1, 2][kind]
    entries = [indexes[draw(s, p, OWNER, len(indexes))] if draw(s, p, OWNED, rarity) == 0 else FREE for p in range(POSITIONS)]
    place = draw(s, 0, OWNER, POSITIONS)
    if kind == 0:
        entries = [FREE] * POSITIONS
    elif kind == 4:
        entries[place] = FREE
    elif kind == 5:
        entries[place] = [924, 65534, 922][place % 3]
    return entries_of(entries)


def drawn_releases(s, indexes, sent):
    """Commits and withdrawals by the same rule: of messages that a hold was sent for, index and kind, which leave that list; and now and then of any record. Where
    nothing is held they are refused."""
    chosen = [pair for k, pair in enumerate(sent) if draw(s, k, RELEASED, 5) == 0]
    sent[:] = [pair for pair in sent if pair not in chosen]
    if draw(s, 0, RELEASE_KIND, 6) == 0:
        chosen.append((indexes[draw(s, 1, RELEASED, len(indexes))], ["short", "long"][s % 2]))
    return ["%s,%d,%s" % ("withdraw" if draw(s, k, RELEASE_KIND, 4) == 0 else "commit", *pair) for k, pair in enumerate(chosen)]


def drawn_coming(s, k):
    """Slots of a call by the same rule, as text: mostly few, sometimes some rounds of the calendar, now and then the most; one in twelve is refused."""
    kind = draw(s, k, LOOKED_KIND, 48)
    if kind < 4:
        return "coming,%d" % [0, 1025, 65535, 1026 + draw(s, k, AHEAD, 60000)][kind]
    return "coming,%d" % (1024 if kind == 4 else 1 + draw(s, k, AHEAD, 1024 if kind == 5 else 120 if kind < 12 else 30))


def driven(stations, m, n, slots, calendars=False, holds=False, coming=False):
    """Offers, bad calls and slots by an arithmetic rule: first seldom an offer, then more of them, then many; often one of each kind to the same station. A show
    now and then, before a slot or after it. With calendars, one is set before some of the slots. With holds, about every second message is held
    and not offered, and there are commits and withdrawals before the slots. With coming, who sends in the
    coming slots is asked before about every second slot, before the other calls there or after them."""
    indexes = [(331 * k + n) % 924 for k in range(stations)]
    calls = [start(m, n, indexes)]
    sent = []
    apart = 24
    for s in range(slots):
        rarity = [8 * stations, 2 * stations, min(stations, 8)][s // 24 % 3]
        if coming and draw(s, 0, LOOKED, 4) == 0:
            calls.append(drawn_coming(s, 0))
        for k in range(stations):
            if draw(s, k, ARRIVES, rarity) == 0:
                short, two_slots, longer = 1 + draw(s, k, SIZE, 48), 49 + draw(s, k, SIZE, 48), 49 + draw(s, k, SIZE, 432)
                sizes = [(short,), (short,), (short,), (two_slots,), (short, two_slots), (two_slots, short), (short, two_slots), (longer, short)][draw(s, k, KIND, 8)]
                which = draw(s, k, HELD, 4) if holds else 0
                calls += ["%s,%d,%d" % ("hold" if which & bit else "offer", indexes[k], size) for bit, size in zip((1, 2), sizes)]
                sent += [(indexes[k], "short" if size <= 48 else "long") for bit, size in zip((1, 2), sizes) if which & bit]
        calls += drawn_releases(s, indexes, sent) if holds else []
        picks = [1 + draw(s, k, PICK, m) for k in range(stations + 1)]
        if draw(s, n, BAD, 6) == 0:
            k = draw(s, n, KIND, stations)
            kind = draw(s, n, BAD_KIND, 7)
            calls.append([
                "offer,923,1", "offer,%d,0" % indexes[k], "offer,%d,12241" % indexes[k], slot(picks), slot(picks[:-2]),
                slot(picks[:k] + [0] + picks[k + 1:-1]), slot(picks[:k] + [m + 1] + picks[k + 1:-1]),
            ][kind])
        if calendars and draw(s, n, SET, 8) == 0:
            calls.append(drawn_calendar(s, indexes))
        if s % apart == 0:
            calls.append("show")
        if coming and draw(s, 1, LOOKED, 3) == 0:
            calls.append(drawn_coming(s, 1))
        calls.append(slot(picks[:-1]))
        if s % apart == apart // 2:
            calls.append("show")
    return lines(*calls)


def by_holds(data):
    """The same list, with a hold and at once its commit for each offer."""
    records = []
    for record in data.split(b"\r\n")[:-1]:
        word, *rest = record.split(b",")
        if word == b"offer":
            records += [b"hold,%s,%s" % tuple(rest), b"commit,%s,%s" % (rest[0], b"short" if int(rest[1]) <= 48 else b"long")]
        else:
            records.append(record)
    return b"".join(record + b"\r\n" for record in records)


def answers(data):
    """What is printed for each call of a list, without the call's number."""
    out = {}
    for text in rehearse(data).split(b"\r\n")[1:-1]:
        call, rest = text.split(b",", 1)
        out.setdefault(call, []).append(rest)
    return list(out.values())


def alike(data, twin):
    """Stops unless two lists, the one with offers and the other `by_holds`, have the same answers: where an offer is taken the hold and the commit say its total,
    where it is refused the hold has its number and the commit finds nothing held; and all other calls print the same."""
    second = iter(answers(twin))
    for first in answers(data):
        held = next(second)
        if first[0].startswith(b"offer,"):
            total = first[0].split(b",")[1]
            assert [held, next(second)] == [[b"hold," + total], [b"commit," + total]]
            continue
        assert held == first, (held, first)
        if first[0] in (b"refused,9", b"refused,10", b"refused,16"):
            assert next(second)[0] in (b"refused,22", b"refused,16")
    assert not list(second)


def bursts(n, slots):
    """Every twelfth slot some of eight stations get a message by the same rule: mostly one of them a short one, and up to seven a long one. No two pick alike,
    or, in about one burst of four, it is left to chance. So a short message is often alone among long ones, after an open slot or another."""
    indexes = [(331 * k + n) % 924 for k in range(8)]
    calls = [start(8, n, indexes)]
    for s in range(slots):
        burst = s // 12
        if s % 12 == 0:
            first, short = draw(burst, n, ARRIVES, 8), [0, 1, 1, 1, 1, 1, 1, 2][draw(burst, n, SHORTS, 8)]
            longs = min([1, 1, 2, 2, 3, 4, 5, 7][draw(burst, n, LONGS, 8)], 8 - short)
            chosen = [indexes[(first + 3 * k) % 8] for k in range(short + longs)]
            calls += ["offer,%d,%d" % (index, 1 + draw(s, n, SIZE, 48) if k < short else 49 + draw(s, k, SIZE, 72)) for k, index in enumerate(chosen)]
        by_chance = draw(burst, n, APART, 4) == 0
        calls.append(slot(1 + draw(s, k, PICK, 8) if by_chance else (5 * k + s) % 8 + 1 for k in range(8)))
        if s % 60 == 1:
            calls.append("show")
    return lines(*calls)


def long(stations, slots, shows=0, looks=0):
    """A busy channel: eight offers after every 24th slot, one of them long; the picks of 251 rows in turn. A show, and a call for the coming slots, every so many slots, if
    at all."""
    indexes = list(range(stations))
    rows = [slot(1 + draw(s, k, PICK, 8) for k in indexes) for s in range(251)]
    offers = 0
    yield start(8, 3, indexes)
    for s in range(slots):
        yield rows[s % 251]
        for _ in range(8 if s % 24 == 23 else 0):
            yield "offer,%d,%d" % (offers * 5 % stations, 480 if offers % 8 == 0 else 1 + offers % 48)
            offers += 1
        if shows and s % shows == 0:
            yield "show"
        if looks and s % looks == 0:
            yield "coming,%d" % (1024 - s % 7)


# ---- the lists

def walks():
    """Each condition and each turn, most with a show after every call."""
    yield "example", lines(
        "2,1,7,8,9", "offer,7,48", "slot,1,1,1", "offer,8,20", "offer,9,97", "offer,7,1", "slot,1,2,2", "slot,1,1,2", "show",
        "slot,1,1,1", "slot,1,1,1", "slot,1,1,1", "slot,1,1,1")
    # the recording of the paper's example, as four stations send it
    yield "example_of_follow", lines(
        "2,1,0,1,2,3", "offer,0,48", "offer,1,144", "slot,1,2,1,1", "offer,2,1", "offer,3,96", "slot,1,1,1,1", "slot,1,1,1,2", "slot,1,1,1,1", "slot,1,1,1,1")
    yield "three_stations_in_two_groups", lines(
        "2,2,7,9,923", "offer,7,48", "slot,1,1,1", "slot,1,1,1", "slot,1,1,1",
        "offer,7,1", "offer,9,100", "slot,1,1,1", "slot,1,1,1", "slot,1,2,1", "slot,1,1,1", "slot,1,1,1",
        "offer,923,1", "slot,1,1,1", "slot,1,1,1", "slot,1,1,1", "slot,1,1,1",
        "offer,7,48", "offer,9,48", "offer,923,48", "slot,1,1,2", "slot,1,1,1", "slot,1,2,1", "slot,1,1,1", "slot,1,1,1", "slot,1,1,1", "slot,1,1,1",
        "offer,7,12240", "offer,7,1", "offer,8,1", "offer,9,0", "offer,9,12241", "slot,1,1", "slot,1,3,1", "slot,0,1,1")
    yield "immediate_success", shown(ONE, "offer,7,48", "slot,2", "slot,1", "offer,7,1", "slot,1", "offer,7,2", "slot,1", "offer,7,2", "slot,1")
    yield "no_success_after_a_long_turn", shown(TWO, "offer,7,96", "slot,1,1", "slot,1,1", "offer,8,1", "slot,1,2", "slot,1,1", "slot,1,1")
    yield "two_singles", shown(TWO, "offer,7,1", "offer,8,48", "slot,2,1", "slot,1,1", "slot,1,1", "slot,1,1")
    yield "a_single_beside_a_longer_one", shown(TWO, "offer,7,1", "offer,8,49", "slot,1,2", "slot,1,1", "slot,1,1", "slot,1,1", "slot,1,1")
    yield "a_collide_beside_a_single", shown("2,1,7,8,9", "offer,7,1", "offer,8,1", "offer,9,1", "slot,1,1,2", "slot,2,1,1", "slot,1,1,1", "slot,1,1,1", "slot,1,1,1")
    yield "collision", shown(TWO, "offer,7,48", "offer,8,20", "slot,1,1", "slot,1,2", "slot,1,1", "slot,1,1", "slot,1,1")
    yield "collision_of_long_ones", shown(TWO, "offer,7,49", "offer,8,240", "slot,2,2", "slot,2,1", "slot,1,1", "slot,1,1", "slot,1,1")
    yield "the_same_collision_again", shown(TWO, "offer,7,48", "offer,8,97", *["slot,2,2"] * 3, "slot,1,2", "slot,1,1", "slot,1,1")
    yield "two_collisions", shown(
        "2,1,7,8,9,10,11", *["offer,%d,1" % i for i in range(7, 12)], "slot,1,2,1,2,2", "slot,1,1,2,1,1", "slot,1,1,1,2,2", "slot,1,1,1,1,2", *["slot,1,1,1,1,1"] * 5)
    yield "a_fresh_message_waits_for_the_resolution", shown(
        "2,1,7,8,9", "offer,7,1", "offer,8,1", "slot,1,1,1", "offer,9,1", "slot,1,2,1", "slot,1,1,1", "slot,1,1,2", "slot,1,1,1", "slot,1,1,1")
    yield "places_of_one_resolution_queue", shown(
        "3,1,0,1,2,3,4,5,6", *["offer,%d,%d" % (i, 1 + 20 * i) for i in range(7)], "slot,1,1,2,2,3,3,3", "slot,2,2,1,1,1,1,1", "slot,1,2,3,3,1,2,3", "slot,1,2,3,1,1,2,3",
        *["slot,1,2,3,1,1,2,3"] * 8)
    yield "a_long_message", shown(ONE, "offer,7,97", *["slot,1"] * 5)
    yield "a_long_message_in_three_groups", shown("2,3,7", "offer,7,145", *["slot,2"] * 9)
    yield "two_long_messages", shown(TWO, "offer,7,97", "offer,8,145", "slot,2,1", *["slot,1,1"] * 8)
    yield "an_urgent_one_before_a_long_one", shown("2,1,7,8,9", "offer,7,240", "slot,1,1,1", "offer,8,1", "slot,1,1,1", "offer,9,48", *["slot,1,1,1"] * 7)
    yield "three_urgent_ones", shown("3,1,7,8,9", "offer,7,1", "offer,8,1", "offer,9,1", "slot,3,1,2", *["slot,1,1,1"] * 4)
    yield "asked_in_two_groups", shown("2,2,7,8", "offer,7,1", "slot,1,1", "offer,8,49", "slot,2,2", "slot,1,1", "slot,1,1", "slot,1,1", "slot,1,1")
    yield "resolving_in_two_groups", shown(
        "2,2,7,8,9,10", "offer,7,1", "offer,8,1", "slot,1,1,1,1", "offer,9,60", "offer,10,1", "slot,1,1,2,2", "slot,2,2,1,1", "slot,1,1,1,2", "slot,1,2,1,1",
        *["slot,1,1,1,1"] * 6)
    yield "the_longest_message", lines("2,8,923", "offer,923,12240", *["slot,1"] * 100, "show", *["slot,1"] * 163, "show", "slot,1", "show", "slot,1", "show")
    yield "one_station_in_eight_groups", shown("8,8,462", "offer,462,48", "slot,8", *["slot,1"] * 9)
    yield "seven_stations_in_three_groups", shown(
        "8,3,6,5,4,3,2,1,0", *["offer,%d,%d" % (i, 48 + i % 3) for i in range(7)], *["slot,8,8,7,7,6,6,5", "slot,1,2,1,2,1,2,1"] * 7)
    yield "sixty_four_urgent", settled(48)
    yield "sixty_four_of_the_longest", settled(12240)
    yield "sixty_four_in_eight_groups", lines(
        start(8, 8, MANY), "show", *["offer,%d,%d" % (index, 1 + 97 * k) for k, index in enumerate(MANY[:16])], BY_ROW, *["offer,%d,1" % index for index in MANY[16:40]],
        BY_ROW, BY_COLUMN, *["offer,%d,255" % index for index in MANY[40:]], BY_COLUMN, "show", *[BY_ROW, BY_COLUMN] * 12, "show")


def paired():
    """Calls on stations 7, 8, 9 and 10 of two groups and two minislots after which station 7's two records are in each pair of conditions that a channel can reach,
    the short one's first. In the second list one of the two is held, or both.

    A message is still urgent after the slot that heard it if another one was before it, and still resolving if another collision was.
    """
    short, long, silent = "offer,7,1", "offer,7,240", "slot,1,1,1,1"
    late = "slot,2,1,1,2"  # 7 after 8; where all four ask, its collision with 10 after that of 8 and 9
    others, other_longs = ["offer,%d,1" % i for i in (8, 9, 10)], ["offer,%d,49" % i for i in (8, 9, 10)]
    queued = [long, silent, silent, silent]
    short_held, long_held = "hold,7,1", "hold,7,240"
    return (
        ("free_free",), ("free_fresh", long), ("free_asked", long, silent), ("free_long", *queued), ("free_resolving", long, *others, late, silent, silent),
        ("fresh_free", short), ("fresh_fresh", long, short), ("fresh_asked", long, silent, short), ("fresh_long", *queued, short),
        ("fresh_resolving", long, *others, late, silent, silent, short),
        ("asked_free", short, silent), ("asked_fresh", long, short, silent), ("asked_asked", long, short, silent, silent), ("asked_long", *queued, short, silent),
        ("asked_resolving", long, *others, late, short, silent, silent),
        ("urgent_free", short, others[0], late, silent, silent), ("urgent_fresh", short, others[0], late, silent, silent, long),
        ("urgent_asked", short, others[0], late, long, silent, silent), ("urgent_long", *queued, short, others[0], late, silent, silent),
        ("urgent_resolving", long, *other_longs, late, short, others[0], late, silent, silent),
        ("resolving_free", short, *others, late, silent, silent), ("resolving_fresh", short, *others, late, silent, silent, long),
        ("resolving_asked", short, *others, late, long, silent, silent), ("resolving_long", short, *others, late, long, silent, silent, silent),
        ("resolving_resolving", short, *others, late, long, *other_longs, late, silent, silent),
    ), (
        ("held_free", short_held), ("held_held", short_held, long_held), ("held_fresh", short_held, long), ("held_asked", short_held, long, silent), ("held_long", short_held, *queued),
        ("held_resolving", short_held, long, *others, late, silent, silent),
        ("free_held", long_held), ("fresh_held", long_held, short), ("asked_held", long_held, short, silent), ("urgent_held", long_held, short, others[0], late, silent, silent),
        ("resolving_held", long_held, short, *others, late, silent, silent),
    )


PARTED = "slot,1,1,2,2"  # 7 and 10 are apart, and so are 8 and 9


def pairs():
    """Station 7 with its two records in each pair of conditions that a channel can reach. It is shown, then offered nothing and a message of each kind, each of which
    is taken or refused by its own record; then slots until all is delivered. What is held is when the slots are over, and is committed then."""
    taken, with_held = paired()
    for name, *calls in taken:
        yield "pair_" + name, lines("2,2,7,8,9,10", *calls, "show", "offer,7,0", "offer,7,48", "offer,7,49", *[PARTED] * 22, "show")
    for name, *calls in with_held:
        yield "pair_" + name, lines(
            "2,2,7,8,9,10", *calls, "show", "offer,7,0", "hold,7,12241", "offer,7,48", "hold,7,48", "hold,7,49", "offer,7,49", *[PARTED] * 22, "show", "commit,7,short", "commit,7,long",
            *[PARTED] * 12, "show")


def two_messages():
    """A short and a long message of one station."""
    yield "a_long_one_held_back_in_one_group", shown(ONE, "offer,7,97", "offer,7,1", *["slot,2"] * 6)
    yield "a_long_one_held_back_asks_in_another_group", shown(
        "2,3,7,8", "offer,7,48", "offer,7,49", "slot,2,1", "slot,1,1", "offer,8,1", "slot,1,1", "slot,1,2", "slot,1,1", "slot,1,1", "slot,1,1")
    yield "a_long_one_held_back_again", shown(
        TWO, "offer,7,97", "offer,7,1", "slot,1,1", "slot,1,1", "offer,7,2", "offer,8,49", "slot,2,2", "offer,7,3", "offer,7,49", "slot,1,2", *["slot,1,1"] * 6)
    yield "a_long_one_held_back_by_a_collision", shown(TWO, "offer,7,97", "offer,7,1", "offer,8,1", "slot,1,1", "slot,1,1", "slot,1,2", *["slot,1,1"] * 6)
    yield "of_two_stations_one_is_held_back", shown(TWO, "offer,7,1", "offer,7,49", "offer,8,50", "slot,1,1", "slot,2,1", "slot,1,1", *["slot,1,2"] * 6)
    yield "offered_long_first_or_short_first", shown(TWO, "offer,7,49", "offer,8,48", "offer,8,49", "offer,7,48", "slot,1,2", *["slot,1,2"] * 8)
    yield "a_short_one_overtakes_a_long_one", shown(
        ONE, "offer,7,240", "slot,1", "slot,1", "offer,7,1", "slot,2", "slot,1", "offer,7,1", "slot,1", "slot,1", "slot,1", "slot,1", "offer,7,1", "slot,1", "slot,1")
    yield "short_ones_overtake_in_turn", shown(
        TWO, "offer,7,97", "offer,8,97", "slot,1,2", "slot,1,1", "offer,7,1", "offer,8,1", "slot,2,1", "slot,1,1", "slot,1,1", *["slot,1,1"] * 6)
    yield "both_asked_in_two_groups", shown("2,2,7,8", "offer,7,1", "offer,7,97", "offer,8,49", "offer,8,1", "slot,1,2", "slot,2,1", "slot,1,1", "slot,1,1", *["slot,1,1"] * 7)
    yield "both_collide_in_two_groups", shown("2,2,7,8", "offer,7,1", "offer,7,97", "offer,8,49", "offer,8,1", "slot,1,1", "slot,2,2", "slot,1,2", "slot,1,2", *["slot,1,1"] * 8)
    yield "a_short_one_collides_with_a_long_one", shown(
        TWO, "offer,7,1", "offer,7,49", "offer,8,97", "slot,1,1", "offer,8,1", "slot,1,2", "slot,1,2", *["slot,1,1"] * 7)
    yield "both_in_two_resolution_queues", lines(
        "3,2,7,8,9,10,11,12", *["offer,%d,%d" % (i, bytes) for bytes in (20, 97) for i in range(7, 13)], "slot,3,1,1,2,2,3", "slot,2,3,1,1,3,2", "show", "slot,1,1,1,1,1,1", "show",
        "slot,1,1,1,1,1,1", "show", "slot,1,2,3,1,2,3", "show", *["slot,1,1,2,1,2,2"] * 4, "show", *["slot,1,1,2,1,2,2"] * 6, "show", *["slot,1,1,2,1,2,2"] * 20, "show")
    yield "an_owner_with_two_messages", shown(
        TWO, calendar({0: 7, 2: 7, 4: 7, 6: 8}), "offer,7,97", "offer,7,1", "slot,1,1", "slot,1,1", "slot,2,1", "offer,8,1", "offer,7,1", *["slot,1,2"] * 8)
    yield "sixty_four_with_two_messages", lines(
        start(8, 2, MANY), *["offer,%d,%d" % (index, 1 + 48 * (k % 2)) for k, index in enumerate(MANY)], *["offer,%d,%d" % (index, 49 - 48 * (k % 2)) for k, index in enumerate(MANY)],
        BY_COLUMN, BY_COLUMN, "show", *[BY_ROW] * 8, "show", *[BY_ROW] * 60, "show", *[BY_ROW] * 130, "show")


def short_among_long():
    """A short request among long ones: alone of its kind in an open slot without a collision, it is delivered as its row is heard; otherwise it is queued."""
    for longs in range(1, 8):
        stations = range(7, 8 + longs)
        short = 7 + longs // 2
        offers = ["offer,%d,%d" % (i, 1 if i == short else 48 * (2 + i % 3)) for i in stations]
        picked, silent = slot((3 * i + longs) % 8 + 1 for i in stations), slot([1] * (1 + longs))
        served = sum(2 + i % 3 for i in stations if i != short)
        yield "a_short_one_among_long_ones_%d" % longs, lines(
            start(8, 1, stations), *offers, picked, "show", silent, "show", *[silent] * (served // 2), "show", *[silent] * (served - served // 2), "show")
    seven = "8,1,7,8,9,10,11,12,13"
    others = ["offer,%d,%d" % (i, 49 + 40 * (i % 2)) for i in (9, 10, 11, 12)]
    for name, calls in (
        ("two_short_ones_among_long_ones", ["offer,7,1", "offer,13,48", *others, "slot,6,5,8,2,3,4,1"]),
        ("a_short_one_among_long_ones_and_a_collision_of_short_ones", ["offer,7,1", "offer,8,1", "offer,13,48", *others, "slot,6,1,8,2,3,4,1"]),
        ("a_short_one_among_long_ones_and_a_collision_of_long_ones", ["offer,7,1", "offer,8,97", "offer,13,50", *others, "slot,6,5,8,2,3,4,5"]),
        ("a_short_one_that_collides_beside_another_among_long_ones", ["offer,7,1", "offer,8,1", *others, "slot,6,2,8,2,3,4,5"]),
        ("a_short_one_that_collides_with_a_long_one_among_long_ones", ["offer,7,1", *others, "slot,3,2,8,2,3,4,5"]),
    ):
        yield name, lines(seven, *calls, "show", *["slot,1,2,3,4,5,6,7", "show"] * 3, *["slot,1,2,3,4,5,6,7"] * 12, "show")
    # asked in a slot that is not open
    apart = "slot,4,1,8,6"
    four, mixed = "8,1,7,8,9,10", ["offer,7,1", "offer,8,97", "offer,9,49"]
    for name, calls in (
        ("after_a_resolve_turn", [*mixed, "slot,1,1,1,1"]), ("after_a_long_turn", ["offer,10,97", "slot,1,1,1,1", *mixed]),
        ("after_an_urgent_turn", ["offer,10,1", "offer,8,1", "slot,1,2,3,4", *mixed]), ("after_an_owned_turn", [calendar({0: 10}), *mixed]),
        ("between_owned_turns", [calendar({0: 10, 1: 7}), *mixed]),
    ):
        yield "a_short_one_among_long_ones_" + name, shown(four, *calls, *[apart] * 10)
    # asked in an open slot, and heard in an owned one
    yield "a_short_one_among_long_ones_before_an_owned_turn", shown(four, calendar({1: 10, 2: 9, 4: 7}), *mixed, *[apart] * 10)
    yield "a_calendar_between_a_short_one_among_long_ones_and_its_row", shown(four, *mixed, apart, calendar({1: 8}), *[apart] * 7)
    # stations with two messages
    yield "a_station_with_two_messages_beside_a_long_one", shown(four, "offer,7,1", "offer,7,145", "offer,8,97", *[apart] * 9)
    yield "two_stations_with_two_messages_beside_a_long_one", shown(four, "offer,7,1", "offer,7,145", "offer,8,97", "offer,10,49", "offer,10,1", *[apart] * 13)
    yield "a_long_one_of_a_station_with_two_messages_beside_a_short_one", shown("8,2,7,8,9,10", "offer,7,1", "offer,7,145", apart, "offer,8,1", "offer,9,49", *[apart] * 10)
    yield "the_same_station_again_among_long_ones", shown(four, *[call for i in (8, 9, 10) for call in ("offer,7,1", "offer,%d,49" % i, apart, apart, "offer,7,2", apart, apart)], apart)
    # groups
    yield "short_ones_among_long_ones_in_two_groups", shown("8,2,7,8,9,10,11,12", *mixed, slot(range(1, 7)), "offer,10,48", "offer,11,49", "offer,12,97", *[slot(range(8, 2, -1))] * 13)
    yield "short_ones_among_long_ones_in_eight_groups", lines(
        start(8, 8, range(24)), *[call for g in range(8) for call in ("offer,%d,49" % (3 * g), "offer,%d,1" % (3 * g + 1), "offer,%d,97" % (3 * g + 2), slot(i % 8 + 1 for i in range(24)))],
        "show", *[slot(i % 8 + 1 for i in range(24))] * 8, "show", *[slot([1] * 24)] * 32, "show", slot([1] * 24), "show")
    for n in (1, 3):
        yield "short_ones_among_long_ones_in_bursts_groups_%d" % n, bursts(n, 720)


def every_turn(data, *conditions):
    """A list whose slots, before any commit or withdrawal, have every turn, and whose shows have station 7's records in each of these pairs of conditions. It
    stops if a turn or a pair is missing."""
    before = data.split(b"commit,")[0].split(b"withdraw,")[0]
    printed_lines = [text.split(",") for text in rehearse(before).decode().split("\r\n")]
    turns = {fields[3] for fields in printed_lines if fields[1:2] == ["slot"]}
    mine = [fields[3] for fields in printed_lines if fields[1:3] == ["message", "7"]]
    assert turns == set("ulrow") and set(conditions) <= set(zip(mine[::2], mine[1::2])), (turns, mine)
    return data


def holds():
    """Held messages: through slots of every turn, beside a message of the other kind, committed, withdrawn and held again."""
    yield "example_of_holds", lines(
        "2,1,7,8,9", "hold,7,48", "hold,9,97", "slot,1,1,1", "offer,8,20", "commit,9,long", "offer,7,1", "slot,1,1,2", "withdraw,7,short", "show", "slot,1,1,1", "commit,7,short",
        "hold,7,30", "slot,1,1,1", "commit,7,short", "slot,1,1,1", "slot,1,1,1", "show", "slot,1,1,1")
    yield "held_then_committed", shown(ONE, "hold,7,48", "slot,1", "slot,2", "commit,7,short", "slot,2", "slot,1")
    yield "held_and_long_then_committed", shown(ONE, "hold,7,97", "slot,1", "slot,2", "commit,7,long", "slot,2", *["slot,1"] * 4)
    yield "held_withdrawn_and_held_again", shown(
        TWO, "hold,7,1", "slot,1,1", "withdraw,7,short", "slot,1,1", "hold,7,48", "slot,1,1", "withdraw,7,short", "hold,7,2", "commit,7,short", "slot,2,1", "slot,1,1")
    yield "held_and_long_withdrawn_and_held_again", shown(
        TWO, "hold,7,97", "slot,1,1", "withdraw,7,long", "slot,1,1", "hold,7,12240", "withdraw,7,long", "hold,7,49", "slot,1,1", "commit,7,long", *["slot,2,1"] * 4)
    yield "held_withdrawn_and_offered", shown(TWO, "hold,7,1", "hold,7,97", "withdraw,7,short", "withdraw,7,long", "offer,7,49", "offer,7,48", *["slot,1,1"] * 5)
    yield "held_and_never_committed", lines(TWO, "hold,7,1", "hold,7,49", "offer,8,1", "show", *["slot,1,1"] * 60, "show")
    yield "both_held_and_committed_long_first", shown(
        TWO, "hold,7,97", "hold,7,1", "slot,1,1", "commit,7,long", "slot,2,1", "commit,7,short", *["slot,1,1"] * 6)
    yield "both_held_and_committed_short_first", shown(TWO, "hold,7,97", "hold,7,1", "commit,7,short", "commit,7,long", *["slot,1,1"] * 7)
    yield "both_held_and_one_withdrawn", shown(TWO, "hold,7,97", "hold,7,1", "withdraw,7,long", "slot,1,1", "commit,7,short", "hold,7,49", *["slot,1,1"] * 3, "withdraw,7,long", "slot,1,1")
    yield "a_held_short_one_beside_a_fresh_long_one", shown(TWO, "hold,7,1", "offer,7,97", "slot,2,1", "slot,1,1", "commit,7,short", *["slot,1,1"] * 5)
    yield "a_held_long_one_beside_a_fresh_short_one", shown(TWO, "offer,7,1", "hold,7,97", "slot,2,1", "slot,1,1", "commit,7,long", *["slot,1,1"] * 6)
    yield "a_committed_short_one_asks_before_a_fresh_long_one", shown(
        "2,1,7,8,9", "hold,7,1", "offer,8,1", "offer,9,1", "slot,1,1,1", "offer,7,97", "slot,1,1,2", "commit,7,short", *["slot,2,1,1"] * 9)
    yield "a_committed_long_one_waits_for_a_fresh_short_one", shown("2,1,7,8,9", "hold,7,97", "offer,7,1", "commit,7,long", *["slot,2,1,1"] * 6)
    yield "a_committed_message_waits_for_the_resolution", shown(
        "2,1,7,8,9", "hold,9,1", "offer,7,1", "offer,8,1", "slot,1,1,1", "commit,9,short", "slot,1,2,1", "slot,1,1,1", "slot,1,1,2", "slot,1,1,1", "slot,1,1,1")
    yield "two_committed_ones_collide", shown(TWO, "hold,7,48", "hold,8,97", "slot,1,1", "commit,8,long", "commit,7,short", "slot,1,1", "slot,1,2", *["slot,1,1"] * 5)
    yield "a_held_one_is_no_part_of_a_collision", shown(TWO, "hold,7,48", "offer,8,1", "slot,1,1", "slot,1,1", "commit,7,short", "slot,1,1", "slot,1,1")
    yield "held_while_the_station_sends", shown(
        ONE, "offer,7,97", "slot,1", "slot,1", "hold,7,1", "slot,1", "withdraw,7,short", "hold,7,2", "slot,1", "slot,1", "commit,7,short", "slot,1", "slot,1")
    yield "held_after_a_success_and_after_a_last_segment", shown(
        ONE, "offer,7,1", "slot,1", "hold,7,2", "slot,1", "hold,7,2", "offer,7,49", *["slot,1"] * 3, "hold,7,50", "slot,1", "hold,7,50", "commit,7,long", *["slot,1"] * 4)
    # between a request and its row
    yield "a_commit_between_a_request_and_its_row", shown(TWO, "offer,7,97", "hold,7,1", "slot,1,1", "commit,7,short", "slot,2,1", *["slot,1,1"] * 5)
    yield "a_commit_between_a_success_and_its_row", shown(TWO, "offer,7,1", "hold,7,49", "hold,8,48", "slot,2,1", "commit,7,long", "commit,8,short", "slot,1,2", *["slot,1,1"] * 4)
    yield "a_commit_between_a_collision_and_its_row", shown(
        "2,1,7,8,9", "hold,7,97", "hold,9,1", "offer,7,1", "offer,8,1", "slot,1,1,1", "commit,7,long", "commit,9,short", "slot,1,2,1", *["slot,1,1,2"] * 8)
    yield "a_withdrawal_between_a_request_and_its_row", shown(
        TWO, "offer,7,1", "hold,7,97", "hold,8,1", "slot,1,1", "withdraw,7,long", "withdraw,8,short", "hold,8,49", "slot,1,1", "slot,1,1")
    yield "commits_in_two_groups", shown("2,2,7,8", "hold,7,1", "hold,7,97", "hold,8,1", "slot,1,2", "commit,7,short", "commit,8,short", "slot,2,2", "commit,7,long", *["slot,1,2"] * 9)
    yield "commits_in_eight_groups", lines(
        "2,8,7,8", "hold,7,1", "hold,7,49", "hold,8,49", "slot,1,1", "commit,7,long", "slot,1,1", "slot,1,1", "commit,7,short", "slot,1,1", "commit,8,long", "slot,2,2", "show",
        *["slot,1,1"] * 8, "show", *["slot,1,1"] * 8, "show")
    # owned slots
    yield "commits_in_owned_slots", shown(
        TWO, calendar({p: 7 + p % 2 for p in range(6)}), "hold,7,1", "hold,8,49", "slot,1,2", "commit,7,short", "slot,1,2", "commit,8,long", *["slot,1,2"] * 7)
    yield "an_owner_that_is_held", shown(TWO, calendar({0: 7, 1: 7, 3: 7}), "hold,7,1", "hold,7,49", *["slot,1,1"] * 3, "commit,7,short", "slot,2,1", "commit,7,long", *["slot,1,1"] * 5)
    yield "a_calendar_between_a_hold_and_its_commit", shown(TWO, "hold,7,1", "slot,1,1", calendar({1: 8, 2: 8}), "slot,1,1", "commit,7,short", "slot,1,1", CLEARED, "slot,1,1", "slot,1,1")
    # every turn
    yield "a_held_short_one_through_every_turn", every_turn(shown(
        "2,1,7,8,9,10", "hold,7,1", "slot,1,1,1,1", "offer,8,1", "offer,9,1", "slot,1,1,1,1", "offer,7,145", "slot,1,1,2,1", "offer,8,49", "offer,9,49", "offer,10,49", "slot,2,1,1,2",
        "slot,1,1,2,1", "slot,1,1,1,2", "slot,1,1,1,1", calendar({6: 7, 7: 9, 9: 7}), *["slot,1,1,1,1"] * 10, "commit,7,short", "slot,2,1,1,1", "slot,1,1,1,1"),
        *[("held", other) for other in ("free", "fresh", "asked", "resolving", "long")])
    yield "a_held_long_one_through_every_turn", every_turn(shown(
        "2,1,7,8,9,10", "hold,7,240", "slot,1,1,1,1", "offer,8,1", "offer,9,1", "slot,1,1,1,1", "offer,7,1", "slot,1,1,2,1", "offer,8,49", "offer,9,49", "offer,10,1", "slot,2,1,1,2",
        "slot,1,1,2,1", "slot,2,1,1,1", "slot,1,1,1,1", calendar({7: 7, 8: 9, 10: 7}), *["slot,1,1,1,1"] * 8, "commit,7,long", "slot,2,1,1,1", *["slot,1,1,1,1"] * 6),
        *[(other, "held") for other in ("free", "fresh", "asked", "resolving", "urgent")])
    yield "both_held_through_every_turn", every_turn(shown(
        "2,1,7,8,9,10", "hold,7,1", "hold,7,240", "slot,1,1,1,1", "offer,8,1", "offer,9,1", "slot,1,1,1,1", "slot,1,1,2,1", "offer,10,49", calendar({4: 7}), *["slot,1,1,1,1"] * 5,
        "withdraw,7,long", "commit,7,short", "slot,1,1,1,1", "slot,1,1,1,1"),
        ("held", "held"))
    # all there can be
    yield "slot_totals_of_holds", lines(start(2, 1, range(9)), *["hold,%d,%d" % (k, bytes) for k, bytes in enumerate((1, 47, 48, 49, 96, 97, 12192, 12193, 12240))], "show")
    yield "hold_with_leading_zeros", lines(TWO, "hold,00007,00048", "hold,08,0097", "show", "commit,00007,short", "withdraw,008,long", "show", "slot,1,1")
    for call in ("hold,8,49", "commit,7,short", "withdraw,7,short"):
        yield "last_%s_without_cr_lf" % call.split(",")[0], lines(TWO, "hold,7,1", "slot,1,1") + call.encode()
    yield "the_longest_message_held", lines("2,8,923", "hold,923,12240", *["slot,1"] * 9, "show", "commit,923,long", *["slot,1"] * 263, "show", "slot,1", "show")
    yield "sixty_four_held", lines(
        start(8, 2, MANY), *["hold,%d,%d" % (index, bytes) for index in MANY for bytes in (48, 12240)], "show", BY_ROW, BY_ROW, "show", *["commit,%d,short" % index for index in MANY],
        BY_COLUMN, *["withdraw,%d,long" % index for index in MANY[:56]], *["commit,%d,long" % index for index in MANY[56:]], "show", *[BY_ROW] * 24, "show", *[BY_ROW] * 80, "show")


def twins():
    """Two lists alike, but that in the second each offer is a hold and at once its commit: all that is printed after is the same, but for the number of the call."""
    silent = "slot,1,1,1,1"
    offers = lines(
        "2,2,7,8,9,10", "offer,7,48", "show", "slot,2,1,1,1", "offer,8,49", "offer,7,97", "offer,7,1", "offer,7,0", "slot,1,2,1,1", "show", "offer,9,1", "offer,10,1", silent, "show",
        "offer,7,1", "offer,8,1", "offer,9,240", "offer,10,12241", "offer,11,1", "slot,1,2,2,2", "show", "slot,1,1,1,2", calendar({p: 8 for p in range(6, 12, 2)}), "offer,8,60",
        "offer,10,1", *["slot,1,2,2,1", "slot,2,1,1,2"] * 3, "show", "offer,7,50", "offer,9,49", *["slot,1,1,2,2"] * 16, "show")
    for name, data in (("offers", offers), ("driven_stations_7_groups_3", driven(7, 2, 3, 432))):
        twin = by_holds(data)
        alike(data, twin)
        if name == "offers":
            yield "twin_of_offers", data
        yield "twin_of_%s_by_holds" % name, twin


def streams():
    """Owned slots: calendars set, changed and cleared, and an owner whose message is in each condition."""
    yield "example_of_streams", lines(
        "2,1,7,8,9", calendar({1: 9, 2: 9, 4: 9}), "offer,7,48", "slot,1,1,1", "slot,1,1,1", "offer,7,1", "offer,8,97", "slot,1,2,1", "show", "slot,1,1,1", "slot,1,1,1", "slot,1,1,1",
        CLEARED, "slot,1,1,1", "slot,1,1,1", "show")
    yield "calendar_of_one_position", shown(TWO, calendar({2: 8}), "offer,7,48", "slot,1,1", "slot,1,1", "offer,7,97", *["slot,1,1"] * 6)
    yield "calendar_of_23_positions", lines(
        TWO, calendar({p: 7 + p % 2 for p in range(POSITIONS) if p != 11}), "offer,7,48", "offer,8,97", "slot,1,2", "slot,1,1", "show",
        *["slot,1,1"] * 10, "show", *["slot,1,1"] * 24, "show", *["slot,1,1"] * 48, "show")
    yield "calendar_of_no_owner", shown(TWO, CLEARED, "offer,7,1", "offer,8,48", "slot,2,1", CLEARED, "slot,1,1", "slot,1,1", "slot,1,1")
    yield "calendar_set_again", shown(
        TWO, calendar({0: 7, 1: 7, 5: 8}), "slot,1,1", calendar({2: 8, 3: 7}), "slot,1,1", "slot,1,1", calendar({3: 8}), "slot,1,1", "slot,1,1", "slot,1,1")
    yield "calendar_set_twice", shown(TWO, calendar({0: 7}), calendar({0: 8}), "slot,1,1", "slot,1,1")
    yield "calendar_cleared", shown(TWO, calendar({0: 7, 1: 7, 2: 7, 3: 7}), "offer,8,1", "slot,1,1", "slot,1,1", CLEARED, "slot,1,1", "offer,8,1", "slot,1,1", "slot,1,1")
    yield "round_the_end_of_the_calendar", lines(TWO, calendar({0: 8, 22: 7, 23: 7}), *["slot,1,1"] * 23, "show", "slot,1,1", "show", "slot,1,1", "show", *["slot,1,1"] * 26, "show")
    yield "a_calendar_set_late", lines(ONE, *["slot,1"] * 60, "show", calendar({11: 7, 12: 7, 13: 7}), "slot,1", "show", "slot,1", "slot,1", *["slot,1"] * 22, "show")
    yield "refused_calls_leave_the_position", shown(
        TWO, calendar({1: 7, 2: 8}), "slot,1,1", "slot,1", "slot,0,1", "slot,1,3", "offer,9,1", "offer,8,0", "slot,1,1", "slot", calendar({2: 9}), "slot,1,1", "slot,1,1")
    yield "an_owner_that_is_free", shown(TWO, calendar({0: 7, 1: 7}), *["slot,1,1"] * 3)
    yield "an_owner_that_is_fresh", shown(TWO, calendar({0: 7}), "offer,7,1", *["slot,1,1"] * 3)
    yield "an_owner_that_is_fresh_and_long", shown(TWO, calendar({0: 7}), "offer,7,97", "slot,2,1", *["slot,1,1"] * 4)
    yield "an_owner_that_must_wait_to_ask", shown("2,1,7,8,9", calendar({1: 9, 2: 9}), "offer,7,1", "offer,8,1", "slot,1,1,1", "offer,9,1", "slot,1,2,1", "slot,1,1,1", *["slot,1,1,2"] * 4)
    yield "an_owner_that_is_asked", shown("2,2,7,8", calendar({1: 7}), "offer,7,49", *["slot,1,1"] * 6)
    yield "an_owner_that_is_heard_alone", shown(TWO, calendar({1: 7}), "offer,7,48", *["slot,1,1"] * 3)
    yield "an_owner_that_is_heard_alone_and_long", shown(TWO, calendar({1: 7}), "offer,7,97", *["slot,1,1"] * 6)
    yield "an_owner_that_is_heard_beside_another", shown(TWO, calendar({1: 7, 2: 8}), "offer,7,48", "offer,8,48", "slot,1,2", *["slot,1,1"] * 5)
    yield "an_owner_that_collides", shown(TWO, calendar({1: 7, 2: 7}), "offer,7,48", "offer,8,97", "slot,1,1", "slot,2,2", "slot,1,2", *["slot,1,1"] * 5)
    yield "an_owner_that_is_resolving", shown(
        "2,1,7,8,9,10", calendar({1: 9, 2: 9}), *["offer,%d,%d" % (i, 10 * i - 50) for i in (7, 8, 9, 10)], "slot,1,1,2,2", "slot,1,2,1,1", "slot,1,1,1,2", *["slot,1,1,1,1"] * 6)
    yield "an_owner_that_is_urgent", shown("3,1,7,8,9", calendar({1: 8, 3: 8}), "offer,7,1", "offer,8,1", "offer,9,1", "slot,3,1,2", *["slot,1,1,1"] * 6)
    yield "an_owner_that_is_long", shown(TWO, calendar({2: 8, 3: 8, 5: 7}), "offer,7,97", "offer,8,145", "slot,2,1", *["slot,1,1"] * 10)
    yield "calendar_between_an_open_slot_and_its_row", shown(TWO, "offer,7,1", "slot,1,1", calendar({1: 8}), "slot,1,1", "slot,1,1")
    yield "calendar_of_the_sender_before_its_row", shown(TWO, "offer,7,48", "slot,2,1", calendar({1: 7, 2: 7}), "offer,8,1", "slot,1,1", "slot,1,1", "slot,1,1")
    yield "calendar_between_a_collision_and_its_row", shown(TWO, "offer,7,48", "offer,8,48", "slot,1,1", calendar({1: 8}), "slot,1,2", "slot,1,1", "slot,1,1", "slot,1,1")
    yield "calendar_cleared_between_an_owned_slot_and_its_row", shown(TWO, calendar({0: 8}), "offer,7,1", "slot,1,1", CLEARED, "slot,1,1", "slot,1,1")
    yield "requests_of_one_slot_in_an_owned_slot", shown("3,1,7,8,9", calendar({0: 9, 1: 7}), "offer,7,1", "offer,8,48", "slot,1,2,1", *["slot,1,1,1"] * 4)
    yield "a_lone_request_in_an_owned_slot", shown(TWO, calendar({0: 7, 2: 8}), "offer,7,48", *["slot,1,1"] * 4)
    yield "a_stream_every_second_slot", lines(
        "2,1,7,8,9", calendar({p: 9 for p in range(0, POSITIONS, 2)}), "offer,7,960", "offer,8,1", "offer,9,48", "slot,1,2,2", "show", *["slot,1,1,2"] * 60, "show")
    yield "owned_slots_in_two_groups", shown("2,2,7,8", calendar({0: 7, 3: 8, 4: 8}), "offer,7,1", "slot,1,1", "offer,8,1", "slot,1,2", *["slot,1,1"] * 6)
    yield "owned_slots_in_eight_groups", lines(
        "8,8,462,0", calendar({p: 462 * (p % 2) for p in range(3, 19)}), "offer,462,48", "slot,8,1", "offer,0,480", *["slot,1,1"] * 12, "show", *["slot,1,1"] * 16, "show")
    yield "index_0_owns_all_but_one", lines("2,1,0,7", calendar({p: 0 for p in range(1, POSITIONS)}), "offer,7,1", "offer,0,1", "show", "slot,1,2", *["slot,1,1"] * 25, "show")
    yield "sixty_four_with_streams", lines(
        start(8, 1, MANY), calendar({p: MANY[11 * p % 64] for p in range(POSITIONS) if p % 4}), *["offer,%d,%d" % (index, 1 + 61 * (k % 3)) for k, index in enumerate(MANY)],
        BY_COLUMN, BY_ROW, "show", *[BY_ROW] * 30, "show", calendar({p: MANY[63 - p] for p in range(1, POSITIONS)}), *[BY_ROW] * 30, "show")


def calendars():
    """What a calendar answers, and in which order it is checked."""
    yield "number_20", lines(
        TWO, calendar({0: 6}), calendar({23: 9}), calendar({3: 0}), calendar({11: 923}), calendar({1: 7, 2: 8, 3: 9}), "show", "slot,1,1", calendar({0: 7, 1: 8}), "show")
    yield "number_20_above_923", lines("2,1,923,8", calendar({0: 924}), calendar({23: 924}), calendar({5: 65534}), calendar({5: 1000, 6: 8}), "show", calendar({5: 923}), "show")
    yield "number_21", lines(TWO, entries_of([7] * 24), entries_of([7, 8] * 12), "show", entries_of([7] * 23 + [FREE]), "show", entries_of([8] * 24), "show", "slot,1,1", "slot,1,1", "show")
    yield "number_21_of_24_stations", lines(start(2, 1, range(24)), entries_of(range(24)), entries_of([FREE, *range(1, 24)]), "show", entries_of(range(23, -1, -1)), slot([1] * 24), "show")
    yield "twenty_before_twenty_one", lines(TWO, entries_of([7] * 23 + [9]), entries_of([924] + [8] * 23), entries_of([7] * 12 + [65534] + [8] * 11), entries_of([7] * 24), "show")
    yield "refused_calendars_between", shown(
        TWO, calendar({0: 7, 2: 8}), calendar({0: 9}), "slot,1,1", entries_of([7] * 24), "slot,1,1", calendar({0: 924}), "slot,1,1", CLEARED, calendar({3: 6}), "slot,1,1")
    yield "calendar_with_leading_zeros", lines(TWO, "calendar,00007,008," + ",".join(["65535"] * 22), "show", "slot,1,1", "slot,1,01", "slot,1,1")
    yield "last_calendar_without_cr_lf", lines(TWO, "slot,1,1") + calendar({1: 7}).encode()
    free = ["65535"] * 24
    for name, fields in (
        ("65536", ["65536", *free[1:]]), ("65536_last", [*free[1:], "65536"]), ("99999", [*free[:12], "99999", *free[13:]]), ("a_letter", [*free[:5], "a", *free[6:]]),
        ("no_number", [*free[:5], "", *free[6:]]), ("six_digits", [*free[:23], "000007"]), ("a_space", [*free[:23], " 7"]), ("a_minus", ["-1", *free[1:]]), ("a_comma_last", [*free, ""]),
        ("23_entries", free[1:]), ("25_entries", [*free, "65535"]), ("25_owners", ["7"] * 25), ("no_entry", []), ("one_entry", ["7"]), ("48_entries", free * 2),
        ("23_that_are_no_station", ["9"] * 23), ("65536_and_924", ["924", *free[2:], "65536"]), ("65536_and_none_free", ["7"] * 23 + ["65536"]),
    ):
        yield "calendar_of_" + name, amid(",".join(["calendar", *fields]).encode())
    for name, word in (("calendars", "calendars"), ("word_too_short_of_a_calendar", "calenda"), ("capital_of_a_calendar", "Calendar"), ("comma_before_a_calendar", ",calendar")):
        yield name, amid(",".join([word, *free]).encode())
    yield "first_is_a_calendar", lines(CLEARED, TWO, "slot,1,1")


def filled(n, sizes, *after):
    """Stations with messages of these bytes, a short one and a long one at most. Each is asked for, heard alone and queued while one of the stations owns every slot, so
    that none is served; eight stations ask at a time. Then other calls, a calendar first."""
    indexes = list(sizes)
    apart = slot(k % 8 + 1 for k in range(len(indexes)))
    calls = [start(8, n, indexes), calendar({p: indexes[0] for p in range(23)})]
    for eight in (indexes[k:k + 8] for k in range(0, len(indexes), 8)):
        for low, high in ((1, 48), (49, 12240)):
            offers = ["offer,%d,%d" % (index, bytes) for index in eight for bytes in sizes[index] if low <= bytes <= high]
            calls += [*offers, apart] if offers else []
    return lines(*calls, *[apart] * n, *after)


def foretold(data):
    """The same list. It stops unless the slots right after each call for the coming ones are what was said, which must be so where no message is outside both queues: the
    senders of those slots, and H and N both 0 after so many of them and not before. The slots go on beyond the list of one of the calls at least."""
    said, slots, beyond = [], 0, False
    for fields in (text.split(",") for text in rehearse(data).decode().split("\r\n")[1:]):
        if fields[1:2] == ["coming"]:
            said.append((slots, int(fields[2]), fields[3:]))
        elif fields[1:2] == ["slot"]:
            empty = fields[-3:-1] == ["0", "0"]
            for at, until, senders in said:
                k = slots - at
                assert empty == (until <= k + 1), (fields, at, until)
                if k < len(senders):
                    assert senders[k] == (fields[5] if fields[4] == "1" else "65535"), (fields, at, senders)
                beyond = beyond or k >= len(senders)
            slots += 1
        elif fields[1:2] in (["calendar"], ["offer"], ["hold"]):
            said = []
    assert beyond
    return data


def unseen(data):
    """The same list. It stops unless all else that is printed is the same without the calls for the coming slots, but for the number of the call."""
    others = b"".join(record + b"\r\n" for record in data.split(b"\r\n")[:-1] if not record.startswith(b"coming"))
    assert [told for told in answers(data) if not told[0].startswith(b"coming,") and told != [b"refused,23"]] == answers(others)
    return data


QUEUED = {
    "nothing": {7: (), 8: (), 9: ()}, "urgent": {7: (1,), 8: (48,), 9: (), 10: (20,)}, "long": {7: (97,), 8: (), 9: (49,), 10: (240,)},
    "both": {7: (1, 97), 8: (48,), 9: (), 10: (240, 20)},
}
CALENDARS = {
    "no_owner": {}, "some_owners": {0: 8, 5: 9, 6: 7, 7: 7, 12: 9, 23: 7}, "every_second_owned": {p: 7 for p in range(0, POSITIONS, 2)},
    "all_owned_but_one": {p: 7 + p % 3 for p in range(POSITIONS) if p != 11}, "all_owned_but_the_coming_one": {p: 9 for p in range(POSITIONS) if p != 3},
    "all_owned_but_the_last_one": {p: 8 for p in range(POSITIONS) if p != 2},
}
PAST = "coming,1024"


def coming():
    """Who sends in the coming slots: all queues and calendars, beside messages that are outside the queues, and the largest numbers."""
    yield "example_of_coming", unseen(lines(
        "3,1,7,8,9", calendar({3: 9}), "offer,7,48", "offer,8,20", "offer,9,97", "slot,1,2,3", "slot,1,1,1", "offer,7,1", "coming,8", "slot,1,1,1", "coming,8", "coming,0", "slot,1,1,1",
        "coming,3", *["slot,1,1,1"] * 3, "coming,1", "show"))
    for queue, sizes in QUEUED.items():
        for name, owned in CALENDARS.items():
            if queue in ("nothing", "both") or name in ("no_owner", "all_owned_but_one"):
                silent = slot([1] * len(sizes))
                watched = [text for w in (26, 9, 2, 1) for text in ("coming,%d" % w, silent)]
                most = [PAST] if name in ("some_owners", "all_owned_but_one") else []
                yield "coming_of_%s_with_%s" % (queue, name), unseen(foretold(filled(
                    1, sizes, calendar(owned), "show", "coming,1", "coming,24", "coming,25", *most, "show", *watched, *[silent] * 30, "coming,24", silent, "coming,300",
                    *[silent] * (12 if len(owned) < 20 else 300), "show")))
    for n in (2, 3, 8):
        yield "coming_in_%d_groups" % n, unseen(foretold(filled(
            n, QUEUED["both"], calendar(CALENDARS["some_owners"]), "show", "coming,30", slot([1] * 4), "coming,1", "coming,24", *[slot([1] * 4)] * 40, "coming,2", slot([1] * 4), "show")))
    for position in (0, 1, 22, 23):
        before = [slot([1] * 4)] * ((position - 3) % POSITIONS)
        yield "coming_from_position_%d" % position, unseen(foretold(filled(
            1, QUEUED["both"], calendar({p: 9 for p in range(POSITIONS) if p != position}), *before, "show", "coming,24", "coming,25", "coming,48", calendar({0: 7, 22: 8, 23: 8}), "show",
            "coming,30", *[slot([1] * 4)] * 30, "coming,60", *[slot([1] * 4)] * 4)))
    silent = slot([1] * 4)
    yield "coming_while_calendars_are_set", unseen(filled(
        1, QUEUED["both"], CLEARED, "coming,26", calendar({4: 9, 5: 7}), "coming,26", silent, calendar({4: 8}), "coming,26", silent, CLEARED, "coming,26", calendar({7: 11}), "coming,26",
        entries_of([7] * 24), "coming,26", *[silent] * 3, calendar({p: 10 for p in range(POSITIONS) if p != 8}), "coming,26", silent, "coming,26", "show"))
    yield "coming_again_and_again", unseen(filled(
        1, QUEUED["both"], calendar({4: 9}), *["show", "coming,12"] * 3, "coming,24", "coming,1", "coming,12", silent, *["coming,12"] * 3, "show", *[silent, "coming,5", "coming,5"] * 12))
    for name, *calls in (pair for both in paired() for pair in both):
        yield "coming_beside_" + name, unseen(lines(
            "2,2,7,8,9,10", *calls, "show", "coming,12", calendar({p: 7 for p in range(0, POSITIONS, 3)}), "coming,12", *[PARTED, "coming,7"] * 3, *[PARTED] * 6, "coming,3"))
    # each condition at once: 7 and 9 urgent, 8 and 9 long; 10 and 11 asked in group 1, 14 in group 2, 12 and 13 resolving; 15 and 16 held and fresh
    ten = range(7, 17)
    picks = slot((1, 2, 3, 1, 1, 2, 2, 1, 1, 1))
    yield "coming_beside_every_condition", unseen(lines(
        start(3, 2, ten), calendar({p: 16 for p in range(23)}), "offer,7,1", "offer,8,240", "offer,9,48", "offer,9,97", *[picks] * 4, "coming,24", *["offer,%d,1" % i for i in range(10, 14)],
        picks, "coming,24", "offer,14,60", picks, picks, "hold,15,1", "offer,15,97", "offer,16,1", "hold,16,240", "show", "coming,24", CLEARED, "coming,24", calendar({9: 16, 10: 9, 12: 14}),
        "show", "coming,24", PAST, "show", *[slot((1, 2, 3, 1, 2, 1, 2, 3, 1, 2)), "coming,24"] * 8, "commit,15,short", "coming,12", "withdraw,16,long", "coming,12", "show",
        *[slot((1, 2, 3, 1, 2, 1, 2, 3, 1, 2))] * 12, "coming,12", "show"))
    yield "coming_between_an_open_slot_and_its_row", unseen(shown(TWO, "offer,7,1", "coming,3", "slot,1,1", "coming,3", "slot,1,1", "coming,3", "slot,1,1"))
    yield "coming_between_a_collision_and_its_row", unseen(shown(TWO, "offer,7,1", "offer,8,97", "slot,1,1", "coming,3", "slot,1,2", "coming,3", "slot,1,1", "coming,3", *["slot,1,1", "coming,3"] * 4))
    yield "coming_while_a_long_message_is_sent", unseen(lines(
        "2,3,7,8", "offer,7,145", *["slot,1,1", "coming,5"] * 3, "offer,8,1", *["slot,1,1", "coming,5"] * 2, calendar({5: 7, 6: 7}), *["slot,1,1", "coming,5"] * 4, "show"))
    # the number beyond the list, beyond a calendar's rounds, and beyond 65,535
    yield "coming_of_the_longest_message", unseen(lines(
        "2,1,923", "offer,923,12240", "slot,1", "slot,1", "coming,1", "coming,24", "coming,253", "coming,254", "coming,255", "coming,256", *["slot,1"] * 250, "show",
        *["coming,6", "slot,1"] * 5))
    few = {7 + k: (12240,) for k in range(8)}
    yield "coming_of_eight_of_the_longest", filled(
        1, few, CLEARED, "coming,24", PAST, calendar({p: 7 for p in range(12)}), "coming,24", calendar({p: 7 + p % 8 for p in range(POSITIONS) if p != 1}), PAST, "show",
        *[slot(range(1, 9))] * 24, "coming,25", "show")
    # 2,731 places and one free position: 65,535 slots and 65,536
    eleven = {7 + k: (12240,) if k < 10 else (8688,) for k in range(11)}
    yield "coming_about_65536", filled(1, eleven, *[text for p in (17, 18) for text in (calendar({q: 7 for q in range(POSITIONS) if q != p}), "coming,16")], "show")
    everyone = {index: (48, 12240) for index in MANY}
    yield "coming_of_full_queues", filled(1, everyone, "show", CLEARED, PAST, "coming,65", "show", BY_ROW, "coming,64")
    yield "coming_of_full_queues_and_23_owned", filled(
        1, everyone, calendar({p: MANY[7 * p % 64] for p in range(POSITIONS) if p != 16}), PAST, calendar({p: MANY[11 * p % 64] for p in range(0, POSITIONS, 2)}), PAST, BY_COLUMN, "coming,24")
    # lines of every length up to the longest, more of them than a buffer holds
    yield "coming_many_times", filled(
        1, {index: (48, 336) for index in MANY}, calendar({p: MANY[13 * p % 64] for p in range(0, POSITIONS, 5)}), *["coming,%d" % w for w in range(1024, 600, -19)], "show")
    yield "coming_with_leading_zeros", lines(TWO, "coming,00001", "coming,002", "coming,00024", "coming,01024", "coming,00000", "coming,01025", "show")
    yield "last_coming_without_cr_lf", lines(TWO, "offer,7,97", "slot,1,1", "slot,1,1") + b"coming,3"


def refused_coming():
    """Number 23, which alters nothing, and records that break the form."""
    yield "number_23", lines(TWO, *["coming,%d" % w for w in (0, 1025, 1026, 2048, 9999, 10000, 65534, 65535)], "show", "coming,1", "coming,1024", "slot,1,1", "coming,1025", "coming,0")
    yield "number_23_beside_queues", unseen(filled(
        1, QUEUED["both"], calendar(CALENDARS["some_owners"]), "show", "coming,0", "show", "coming,3", "coming,1025", "coming,3", "coming,65535", "show", slot([1] * 4), "coming,0", "coming,3",
        slot([1] * 4), "show"))
    for name, record in (
        ("alone", b"coming"), ("with_a_comma", b"coming,"), ("of_two_numbers", b"coming,1,2"), ("of_two_equal_numbers", b"coming,1,1"), ("with_a_comma_last", b"coming,1,"),
        ("with_two_commas", b"coming,,1"), ("of_65536", b"coming,65536"), ("of_65537", b"coming,65537"), ("of_66560", b"coming,66560"), ("of_99999", b"coming,99999"),
        ("of_six_digits", b"coming,000001"), ("of_twenty_digits", b"coming,18446744073709551617"), ("of_a_letter", b"coming,x"), ("of_a_digit_and_a_letter", b"coming,1x"), ("of_hex_digits", b"coming,0x10"),
        ("with_a_minus", b"coming,-1"), ("with_a_plus", b"coming,+1"), ("with_a_point", b"coming,1.0"), ("with_a_space", b"coming, 1"), ("with_a_space_last", b"coming,1 "),
        ("with_a_space_for_a_comma", b"coming 1"), ("with_a_semicolon", b"coming;1"), ("with_a_quote", b'coming,"1"'), ("with_a_nul", b"coming,1\0"), ("with_a_high_byte", b"coming,1\xff"),
        ("of_a_word", b"coming,short"), ("with_a_capital", b"Coming,1"), ("of_capitals", b"COMING,1"), ("with_a_word_too_short", b"comin,1"), ("with_a_word_too_long", b"comings,1"),
        ("with_another_word", b"commit,1"), ("with_a_comma_first", b",coming,1"), ("with_a_number_before", b"1,coming"), ("of_513_bytes", b"coming," + zeros(506)), ("of_512_bytes", b"coming," + zeros(505)),
    ):
        yield "coming_" + name, amid(record)
    yield "first_is_a_coming", lines("coming,1", TWO, "slot,1,1")


def waited(data):
    """The same list. It stops unless each place that it shows waits as waits.py foretells, and some of them are served before the list ends."""
    count = waits.compare(rehearse(data))
    assert count["H places reached"] + count["N places reached"] > 0, count
    return data


def spread(stations, m, s):
    """Picks of slot s: of m stations no two pick alike, and their order is another one from slot to slot."""
    steps = [step for step in range(1, m) if math.gcd(step, m) == 1]
    return slot((steps[s // 3 % len(steps)] * k + s) % m + 1 for k in range(stations))


def watched(silent, slots, apart, w=1):
    """So many slots, with a show and a call for the coming ones before every so many of them, and a show at the end."""
    return [text for s in range(slots) for text in (["show", "coming,%d" % w] if s % apart == 0 else []) + [silent]] + ["show"]


def crowded(stations, m, n, slots, longest, calendars=False, others=False):
    """Bursts by the arithmetic rule: within two slots about eight stations, or all of fewer, get a short message, one of up to `longest` slots, or both; the next burst comes
    when about as much was sent. Between them now and then a short one. No two pick alike, but in every third burst, and where minislots are too few, it is left to
    chance. With calendars, one is set, or refused, before some of the slots. With others, about every second message is held, and there are commits, withdrawals
    and calls that are refused. A show soon after a burst, and before about every 24th slot, often beside a call for the coming ones."""
    indexes = [(331 * k + stations) % 924 for k in range(stations)]
    calls, sent = [start(m, n, indexes)], []
    every, apart = (4 + min(stations, 8) * (longest // 2 + 2) * 3 // 4) * (2 if calendars else 1), stations <= m
    for s in range(slots):
        burst, within = divmod(s, every)
        for k, index in enumerate(indexes):
            kinds = []
            if draw(burst, k, APART, 2) == within and draw(burst, k, ARRIVES, max(1, stations // 8)) == 0:
                kinds = [["short"], ["long"], ["short", "long"], ["long", "short"]][draw(burst, k, KIND, 4)]
            elif within > 2 and draw(s, k, ARRIVES, 9 * stations) == 0:
                kinds = ["short"]
            for kind in kinds:
                bytes = 1 + draw(s, k, SIZE, 48) if kind == "short" else 49 + draw(s, k, SIZE, 48 * (longest - 1))
                held = others and draw(s, k, HELD, 4) % 2 == 0
                calls.append("%s,%d,%d" % ("hold" if held else "offer", index, bytes))
                sent += [(index, kind)] if held else []
        calls += drawn_releases(s, indexes, sent) if others else []
        if others and draw(s, n, BAD, 5) == 0:
            picks, k = [1 + draw(s, k, PICK, m) for k in range(stations)], draw(s, n, KIND, stations)
            calls.append(["offer,923,1", "hold,%d,0" % indexes[k], slot(picks + [1]), slot(picks[:-1]), slot(picks[:k] + [m + 1] + picks[k + 1:])][draw(s, n, BAD_KIND, 5)])
        if calendars and draw(s, n, SET, 16) == 0:
            calls.append(drawn_calendar(s, indexes))
        if within in (n + 2, n + 5) or draw(s, n, LOOKED, 24) == 0:
            calls += ["show", "coming,1"] if draw(s, n, LOOKED_KIND, 2) else ["show"]
        calls.append(spread(stations, m, s) if apart and burst % 3 < 2 else slot(1 + draw(s, k, PICK, m) for k in range(stations)))
    return lines(*calls, "show")


IN_QUEUES = {
    "H": {7 + k: (1 + k,) for k in range(16)}, "N": {7 + k: (96 + 37 * (5 * k % 8),) for k in range(8)}, "H_and_N": {7 + k: (1 + k, 49 + 31 * (3 * k % 8)) for k in range(8)},
}


def waiting():
    """How long a place waits: H alone, N alone and both under calendars with few owners and with many; messages that join in one row; urgent newcomers, collisions, calendars
    and refused calls while others wait; and long lists by the arithmetic rule."""
    yield "waits_example", waited(lines(
        "3,1,7,8,9", calendar({3: 9}), "offer,7,48", "offer,8,20", "offer,9,97", "slot,3,2,1", "slot,1,1,1", "offer,8,1", "show", "coming,5", *["slot,1,1,1"] * 3, "show", *["slot,1,1,1"] * 4))
    for queue, sizes in IN_QUEUES.items():
        silent = slot([1] * len(sizes))
        total = sum((bytes + 47) // 48 for both in sizes.values() for bytes in both)
        for name in ("no_owner", "every_second_owned", "all_owned_but_one") + (("some_owners",) if queue == "H_and_N" else ()):
            owned = CALENDARS[name]
            slots = (total + 2) * POSITIONS // (POSITIONS - len(owned)) + 24 if len(owned) < 20 else 16 * POSITIONS
            yield "waits_in_%s_with_%s" % (queue, name), waited(filled(1, sizes, calendar(owned), *watched(silent, slots, 7 if len(owned) < 20 else 31)))
    # all of eight stations in one row, many times, in another order each time; shown between the requests and their row, and after it
    eight = range(7, 15)
    for name, n, bursts, sizes in (("short_ones", 1, 16, [1] * 8), ("long_ones", 1, 10, [97, 400, 145, 49, 300, 96, 480, 50]), ("both", 3, 10, [1, 97, 48, 145, 2, 60, 3, 49])):
        calls, silent = [start(8, n, eight)], slot([1] * 8)
        for burst in range(bursts):
            calls += ["offer,%d,%d" % (index, sizes[(3 * k + burst) % 8]) for k, index in enumerate(eight)]
            calls += [slot([1, 3, 5, 7][burst % 4] * (k + burst) % 8 + 1 for k in range(8)), "show", *[silent] * n, *watched(silent, sum((bytes + 47) // 48 for bytes in sizes), 12)]
        yield "waits_of_%s_in_one_row" % name, waited(lines(*calls))
    yield "waits_behind_urgent_newcomers", waited(filled(
        2, {index: (720,) for index in eight}, calendar({p: 9 for p in (2, 11, 12)}), *[
            text for s in range(240) for text in (
                ["offer,%d,%d" % (7 + (s * 5 + k) % 8, 1 + s % 48) for k in range([1, 0, 0, 0, 0, 3, 0, 0, 0, 0, 0, 2][s % 12])] + (["show"] if s % 12 in (2, 8) else []) + [spread(8, 8, s)])],
        "show"))
    # nine stations that ask at once in two minislots, then in three, while every third slot is owned
    calls = [start(3, 2, range(9)), calendar({p: p % 9 for p in range(0, POSITIONS, 3)})]
    for s in range(270):
        calls += ["offer,%d,%d" % (k, 1 if (k + s // 27) % 3 else 97 + 13 * s % 300) for k in range(9)] if s % 27 == 0 else []
        calls += ["show"] if s % 27 in (4, 6, 7, 10, 13) else []
        calls.append(slot(1 + draw(s, k, PICK, 2 if s % 27 < 6 else 3) for k in range(9)))
    yield "waits_beside_collisions", waited(lines(*calls, "show"))
    for name, bytes, slots in (("H", 48, 66), ("N", 130, 200)):
        yield "waits_of_64_stations_in_%s" % name, waited(lines(
            start(8, 1, MANY), calendar({p: MANY[4 * p] for p in (1, 6, 7, 15)}), *["offer,%d,%d" % (index, bytes) for index in MANY], BY_COLUMN, *[BY_ROW] * 9, *watched(BY_ROW, slots, 33)))
    for stations, m, n, slots, longest in ((1, 2, 1, 250, 20), (2, 3, 2, 400, 20), (5, 5, 1, 900, 16), (8, 8, 1, 1800, 18), (8, 8, 3, 1000, 18), (64, 4, 2, 180, 10)):
        yield "waits_driven_stations_%d_groups_%d" % (stations, n), waited(crowded(stations, m, n, slots, longest))
    for stations, m, n, slots, longest in ((3, 4, 3, 400, 14), (8, 3, 8, 700, 14), (16, 4, 2, 500, 14)):
        yield "waits_driven_with_calendars_stations_%d_groups_%d" % (stations, n), waited(crowded(stations, m, n, slots, longest, calendars=True))
    for stations, m, n, slots, longest in ((4, 2, 1, 500, 14), (8, 8, 2, 800, 14), (32, 3, 1, 300, 14)):
        yield "waits_driven_with_all_calls_stations_%d_groups_%d" % (stations, n), waited(crowded(stations, m, n, slots, longest, calendars=True, others=True))


def starts():
    """What a start answers, and in which order it is checked."""
    yield "only_the_start", lines(ONE)
    yield "only_the_start_without_cr_lf", b"8,8,923,0"
    yield "last_cr_lf_missing", b"2,1,7\r\noffer,7,1\r\nslot,1"
    yield "last_show_without_cr_lf", b"2,1,7\r\noffer,7,1\r\nslot,1\r\nshow"
    yield "leading_zeros", lines("00002,001,00007,0008", "offer,00007,00048", "slot,00001,02", "offer,08,00097", "slot,1,1", "show")
    for name, m, n in (("m_0", 0, 1), ("m_1", 1, 1), ("m_9", 9, 1), ("m_255", 255, 1), ("n_0", 2, 0), ("n_9", 2, 9), ("n_255", 2, 255)):
        yield "number_5_of_" + name, lines(start(m, n, [7]), "slot,1")
    yield "number_14_of_no_station", lines("2,1", "slot")
    yield "number_14_of_65_stations", lines(start(2, 1, range(65)), "show")
    yield "number_14_of_254_indexes", lines("8,8," + ",".join("1" * 253) + ",10", "show")
    yield "number_8_of_924", lines("2,1,923,924,7", "slot,1,1,1")
    yield "number_8_of_65535", lines("2,1,65535", "slot,1")
    yield "number_15", lines("2,1,7,8,9,7", "slot,1,1,1,1")
    yield "number_15_of_the_last_two", lines("8,8,7,923,923", "show")
    yield "five_before_fourteen_of_none", lines("9,1")
    yield "five_before_fourteen_of_65", lines(start(1, 1, range(65)))
    yield "five_before_eight_and_fifteen", lines("2,9,924,924")
    yield "fourteen_before_eight", lines(start(2, 1, range(900, 965)))
    yield "fourteen_before_fifteen", lines(start(2, 1, [7] * 65))
    yield "eight_before_fifteen", lines("2,1,7,7,924")
    yield "nineteen_before_five", lines("1,0,65536")
    yield "nineteen_before_fourteen", lines(start(2, 1, [*range(64), 65536]))
    yield "nineteen_before_eight", lines("2,1,924,7,65536")
    yield "nineteen_before_fifteen", lines("2,1,7,7,65543")
    for name, first in (
        ("m_256", "256,1,7"), ("m_258", "258,1,7"), ("n_256", "2,256,7"), ("n_257", "2,257,7"), ("m_99999", "99999,1,7"), ("n_99999", "2,99999,7"),
        ("index_65536", "2,1,65536"), ("index_65543", "2,1,65543"), ("index_99999", "2,1,7,99999"),
    ):
        yield "start_of_" + name, lines(first, "slot,1")


def refusals():
    """What offers and slots answer, and in which order they are checked. A refused call alters nothing, and the list goes on."""
    yield "number_16", lines(TWO, "offer,6,1", "offer,9,1", "offer,923,1", "offer,924,1", "offer,65535,1", "offer,0,1", "offer,8,1", "show")
    yield "sixteen_before_ten", lines(TWO, "offer,7,1", "offer,9,0", "offer,9,12241", "offer,9,99999")
    yield "number_9", lines(
        "2,1,7,8,9,10", "offer,7,1", "offer,7,1", "offer,8,1", "slot,1,1,1,1", "offer,7,1", "offer,8,48", "slot,1,1,1,1", "slot,1,2,1,1", "offer,7,1", "offer,9,97",
        "slot,1,1,1,1", "offer,7,1", "offer,8,1", "slot,1,1,1,1", "offer,8,1", "slot,1,1,1,1", "offer,9,49", "slot,1,1,1,1", "offer,9,49", "slot,1,1,1,1", "offer,9,49", "show")
    yield "number_9_while_resolving", shown(
        "2,1,7,8,9,10", *["offer,%d,1" % i for i in (7, 8, 9, 10)], "slot,1,1,2,2", "slot,1,2,1,1", "offer,9,1", "offer,10,0", "slot,1,1,1,2", "offer,10,1")
    yield "ten_before_nine", lines(
        TWO, "offer,7,1", "offer,7,0", "offer,7,12241", "offer,8,0", "offer,7,49", "offer,7,0", "offer,7,12241", "offer,7,99999", "offer,7,1", "offer,7,12240", "show")
    yield "number_10", lines(TWO, "offer,7,0", "offer,7,00000", "offer,7,12241", "offer,7,65535", "offer,7,65536", "offer,7,65584", "offer,7,99999", "show", "offer,7,12240", "show")
    yield "slot_totals", lines(start(2, 1, range(8)), *["offer,%d,%d" % (k, bytes) for k, bytes in enumerate((1, 47, 48, 49, 96, 97, 12192, 12193))], "show")
    yield "number_17", lines(TWO, "slot", "slot,1", "slot,1,1,1", slot([1] * 64), slot([1] * 65), slot([2] * 254), "show", "slot,1,1")
    yield "number_17_of_64_stations", lines(start(8, 8, MANY), slot([8] * 63), slot([8] * 65), slot([8] * 64), "slot", slot([1] * 128))
    yield "number_11", lines(TWO, "slot,0,1", "slot,1,0", "slot,3,1", "slot,1,3", "slot,255,1", "slot,1,255", "show", "slot,2,2")
    yield "number_11_of_the_last_pick", lines(start(8, 3, MANY), slot([8] * 63 + [9]), slot([8] * 63 + [0]), slot([8] * 64))
    yield "number_11_of_unused_picks", shown("3,1,7,8", "offer,7,1", "slot,3,4", "slot,3,0", "slot,3,3", "slot,4,1", "slot,1,1")
    yield "seventeen_before_eleven", lines(TWO, "slot,0", "slot,1,3,1", "slot,0,0,0", "slot,255", "slot,3,3")
    yield "refused_calls_between", shown(
        TWO, "offer,7,1", "offer,7,1", "slot,1,0", "slot,1,1", "slot,1", "offer,7,48", "slot,1,1", "offer,9,1", "offer,8,97", "offer,7,12241", "offer,7,1", "slot,2,2,2", "slot,2,2",
        "slot,2,3", "slot,2,1", "offer,8,0", "slot,1,1", "slot,255,255", "slot,1,1", "slot", "slot,1,1", "slot,1,1")
    for name, record in (
        ("offer_of_index_65536", "offer,65536,1"), ("offer_of_index_65543", "offer,65543,1"), ("offer_of_index_99999", "offer,99999,0"),
        ("nineteen_before_ten", "offer,65536,0"), ("pick_256", "slot,1,256"), ("pick_257", "slot,257,1"), ("pick_99999", "slot,1,99999"),
        ("nineteen_before_seventeen", "slot,1,1,256"), ("nineteen_before_eleven", "slot,0,256"), ("nineteen_of_fewer_picks", "slot,300"),
    ):
        yield name, lines(TWO, "offer,7,1", record, "show")


def refused_holds():
    """What holds, commits and withdrawals answer where they are refused, and in which order they are checked. They alter nothing, and the list goes on."""
    short, long = [["%s,7,%s" % (call, kind) for call in ("commit", "withdraw")] for kind in ("short", "long")]
    silent = "slot,1,1,1,1"
    yield "number_9_of_a_held_record", shown(
        TWO, "hold,7,1", "hold,7,48", "offer,7,1", "hold,7,49", "offer,7,49", "hold,7,12240", "slot,1,1", "hold,7,1", "offer,7,50", "hold,8,1", "offer,8,1")
    yield "number_9_of_a_hold", lines(
        "2,1,7,8,9,10", "offer,7,1", "hold,7,1", "offer,8,1", "slot,1,1,1,1", "hold,7,1", "hold,8,48", "slot,1,1,1,1", "slot,1,2,1,1", "hold,7,1", "offer,9,97", "slot,1,1,1,1",
        "hold,7,1", "hold,8,1", "slot,1,1,1,1", "hold,8,1", "slot,1,1,1,1", "hold,9,49", "slot,1,1,1,1", "hold,9,49", "slot,1,1,1,1", "hold,9,49", "show")
    yield "number_9_of_a_hold_while_resolving", shown(
        "2,1,7,8,9,10", *["offer,%d,1" % i for i in (7, 8, 9)], "offer,10,49", "slot,1,1,2,2", "slot,1,2,1,1", "hold,9,1", "hold,10,49", "hold,9,49", "hold,10,1", "slot,1,1,1,2",
        "hold,10,49")
    yield "number_10_of_a_hold", lines(TWO, *["hold,7,%s" % bytes for bytes in ("0", "00000", "12241", "65535", "65536", "65584", "99999")], "show", "hold,7,12240", "show")
    yield "ten_before_nine_of_a_hold", lines(
        TWO, "hold,7,1", "hold,7,0", "hold,7,12241", "offer,7,0", "offer,7,12241", "hold,7,49", "hold,7,0", "hold,7,12241", "hold,7,99999", "hold,7,48", "hold,7,12240", "show",
        "offer,8,1", "offer,8,49", "hold,8,0", "hold,8,12241", "show")
    yield "number_16_of_holds", lines(
        TWO, "hold,7,1", "hold,7,49", *["%s,%d,%s" % (call, index, what) for index in (6, 9, 0, 923, 924, 65535) for call, what in (
            ("hold", "1"), ("commit", "short"), ("commit", "long"), ("withdraw", "short"), ("withdraw", "long"))], "show", "withdraw,7,short", "show")
    yield "sixteen_before_ten_of_a_hold", lines(TWO, "hold,7,1", "hold,9,0", "hold,9,12241", "hold,9,99999", "hold,7,0")
    yield "sixteen_before_twenty_two", lines(TWO, "commit,9,short", "commit,7,short", "withdraw,9,long", "withdraw,7,long", "show")
    yield "number_22_of_free_records", shown(TWO, *short, *long, "slot,1,1", *short, *long)
    yield "number_22_of_the_other_record", shown(TWO, "hold,7,1", *long, "hold,8,49", "commit,8,short", "withdraw,8,short", "commit,7,short", "withdraw,8,long", *long)
    yield "number_22_of_another_station", shown(TWO, "hold,7,1", "hold,7,49", "commit,8,short", "withdraw,8,short", "commit,8,long", "withdraw,8,long", "slot,1,1")
    yield "number_22_the_second_time", shown(
        TWO, "hold,7,1", "commit,7,short", *short, "hold,7,49", "commit,7,long", *long, "slot,1,1", "hold,8,1", "withdraw,8,short", "withdraw,8,short", "commit,8,short", "slot,1,1")
    # a record that is fresh, asked, in a resolution queue, and in the urgent or the long one; the other one is held
    for name, other, offered_one, mine in (("short", "hold,7,49", "offer,7,1", short), ("long", "hold,7,1", "offer,7,97", long)):
        yield "number_22_of_a_%s_record" % name, shown(
            "2,2,7,8,9,10", other, offered_one, *mine, "slot,2,1,1,1", *mine, "slot,1,1,1,1", "offer,8,1", silent, *mine, silent, *mine, silent, silent, *mine)
        yield "number_22_of_a_%s_record_in_a_collision" % name, shown(
            "2,1,7,8,9,10", other, offered_one, *["offer,%d,1" % i for i in (8, 9, 10)], "slot,2,1,1,2", "slot,1,1,2,1", *mine, "slot,2,1,1,1", *mine, silent, *mine, silent,
            *mine, *[silent] * 4)
    yield "refused_holds_between", shown(
        TWO, "hold,7,1", "hold,7,1", "slot,1,0", "slot,1,1", "commit,7,long", "slot,1", "offer,7,48", "commit,7,short", "slot,1,1", "withdraw,7,short", "hold,9,1", "hold,8,97",
        "commit,8,short", "hold,8,12241", "slot,1,1", calendar({3: 9}), "commit,8,long", "commit,8,long", "slot,2,2,2", "slot,2,2", "hold,8,49", "slot,1,1", "slot,1,1", "slot,1,1")


def broken_holds():
    """Holds, commits and withdrawals that break the form, each where what it may be meant for would go through."""
    def after_holds(record):
        return lines(TWO, "hold,7,1", "hold,7,49", "slot,1,1") + record + b"\r\n" + lines("slot,1,1")

    for name, record in (
        ("alone", b"hold"), ("with_a_comma", b"hold,"), ("of_one_number", b"hold,8"), ("of_three_numbers", b"hold,8,1,1"), ("without_an_index", b"hold,,1"),
        ("without_bytes", b"hold,8,"), ("with_a_comma_last", b"hold,8,1,"), ("of_index_65536", b"hold,65536,1"), ("of_index_99999", b"hold,99999,0"), ("of_six_digits", b"hold,8,000048"),
        ("of_an_index_of_six_digits", b"hold,000008,1"), ("of_a_kind", b"hold,8,short"), ("with_a_minus", b"hold,-8,1"), ("with_a_space", b"hold,8, 1"), ("with_a_capital", b"Hold,8,1"),
        ("with_a_word_too_short", b"hol,8,1"), ("with_a_word_too_long", b"holds,8,1"), ("with_another_word", b"held,8,1"),
    ):
        yield "hold_" + name, after_holds(record)
    for call, short_word, long_word in (("commit", "commi", "commits"), ("withdraw", "withdra", "withdrawn")):
        for name, record in (
            ("alone", call), ("with_a_comma", call + ","), ("of_an_index_alone", call + ",7"), ("without_a_kind", call + ",7,"), ("of_a_kind_alone", call + ",short"),
            ("without_an_index", call + ",,short"), ("with_kind_and_index_exchanged", call + ",short,7"), ("with_a_comma_last", call + ",7,short,"), ("with_two_commas", call + ",7,,short"),
            ("of_both_kinds", call + ",7,short,long"), ("with_a_number_behind", call + ",7,long,1"), ("of_a_number_for_a_kind", call + ",7,1"), ("of_a_capital_kind", call + ",7,Short"),
            ("of_capitals", call + ",7,LONG"), ("of_a_kind_too_long", call + ",7,shorter"), ("of_a_long_kind_too_long", call + ",7,longer"), ("of_a_kind_too_short", call + ",7,shor"),
            ("of_a_long_kind_too_short", call + ",7,lon"), ("of_one_letter", call + ",7,s"), ("of_another_kind", call + ",7,urgent"), ("with_a_space_before_the_kind", call + ",7, short"),
            ("with_a_space_after_the_kind", call + ",7,short "), ("with_a_nul_after_the_kind", call + ",7,long\0"), ("with_a_quote", call + ',7,"short"'),
            ("of_index_65536", call + ",65536,short"), ("of_index_65543", call + ",65543,short"), ("of_index_99999", call + ",99999,long"),
            ("of_an_index_of_six_digits", call + ",000007,short"), ("with_a_minus", call + ",-7,short"),
            ("with_a_letter_in_the_index", call + ",7a,short"), ("with_semicolons", call + ";7;short"), ("with_a_capital", call.capitalize() + ",7,short"),
            ("with_a_word_too_short", short_word + ",7,short"), ("with_a_word_too_long", long_word + ",7,short"),
        ):
            yield call + "_" + name, after_holds(record.encode())
    for first in ("hold,7,1", "commit,7,short", "withdraw,7,long"):
        yield "first_is_a_" + first.split(",")[0], lines(first, TWO, "slot,1,1")


def broken():
    """Records that are no start or no call, each of which ends the output; and, beside those that are too long, some of just the most bytes."""
    yield "empty_input", b""
    yield "cr_lf_alone", b"\r\n"
    yield "first_record_missing", lines("", "2,1,7", "slot,1")
    yield "first_is_a_call", lines("offer,7,1", "2,1,7", "slot,1")
    yield "first_is_show", lines("show")
    yield "first_of_one_field", lines("2", "slot,1")
    yield "first_with_a_comma_last", lines("2,1,7,", "slot,1")
    yield "first_with_a_comma_last_and_no_index", lines("2,1,", "slot,1")
    yield "first_with_a_comma_first", lines(",2,1,7", "slot,1")
    yield "first_with_a_word", lines("start,2,1,7", "slot,1")
    yield "first_with_a_space", lines("2,1, 7", "slot,1")
    yield "first_with_a_sign", lines("2,1,-7", "slot,1")
    yield "first_with_six_digits", lines("2,1,000007", "slot,1")
    yield "first_with_a_lone_lf", b"2,1,7\nslot,1\n"
    yield "first_with_a_lone_cr", b"2,1,7\rslot,1\r\n"
    yield "first_lf", b"\n2,1,7\r\nslot,1\r\n"
    yield "first_cr_cr_lf", b"2,1,7\r\r\nslot,1\r\n"
    yield "first_cr_at_the_end", b"2,1,7\r"
    yield "first_of_512_bytes", b"2,1," + zeros(508) + b"\r\nshow\r\n"
    yield "first_of_513_bytes", b"2,1," + zeros(509) + b"\r\nshow\r\n"
    yield "first_of_512_bytes_at_the_end", b"2,1," + zeros(508)
    yield "first_of_513_bytes_at_the_end", b"2,1," + zeros(509)
    yield "record_of_512_bytes", amid(b"slot," + zeros(507))
    yield "record_of_513_bytes", amid(b"slot," + zeros(508))
    yield "record_of_512_bytes_at_the_end", b"2,1,7\r\nslot," + zeros(507)
    yield "record_of_513_bytes_at_the_end", b"2,1,7\r\nslot," + zeros(508)
    yield "record_of_512_bytes_and_cr_at_the_end", b"2,1,7\r\nslot," + zeros(507) + b"\r"
    yield "record_of_512_bytes_and_lf", b"2,1,7\r\nslot," + zeros(507) + b"\nshow\r\n"
    yield "record_of_2000_bytes", amid(b"slot," + zeros(1995))
    yield "empty_last_record", lines(ONE, "slot,1", "")
    yield "lone_cr_at_the_end", b"2,1,7\r\nslot,1\r"
    yield "a_cr_and_nothing_more", b"2,1,7\r\nslot,1\r\n\r"
    yield "lone_lf_at_the_end", b"2,1,7\r\nslot,1\n"
    for name, record in (
        ("empty_record", b""), ("lone_cr", b"slot,1\r1"), ("lone_lf", b"slot,1,1\nslot,1,1"), ("lf_first", b"\nslot,1,1"), ("cr_first", b"\rslot,1,1"), ("cr_cr_lf", b"slot,1,1\r"),
        ("comma_first", b",slot,1,1"), ("comma_last_of_a_slot", b"slot,1,1,"), ("comma_last_of_an_offer", b"offer,7,1,"), ("comma_alone", b","), ("two_commas", b"slot,1,,1"),
        ("slot_with_a_comma", b"slot,"), ("show_with_a_comma", b"show,"), ("offer_with_a_comma", b"offer,"), ("show_with_a_field", b"show,1"), ("show_with_the_word_again", b"show,show"),
        ("offer_alone", b"offer"), ("offer_of_one_number", b"offer,7"), ("offer_of_three_numbers", b"offer,7,1,1"), ("offer_without_an_index", b"offer,,1"),
        ("space_in_a_number", b"slot,1, 1"), ("space_after_a_word", b"show "), ("space_before_a_word", b" show"), ("space_for_a_comma", b"slot 1,1"), ("tab", b"slot,1\t,1"),
        ("plus", b"slot,+1,1"), ("minus", b"offer,-7,1"), ("quote_at_a_number", b'slot,"1",1'), ("quote_at_a_word", b'"show"'), ("point", b"offer,7,1.0"), ("semicolon", b"slot;1;1"),
        ("nul_in_a_number", b"slot,1,\x001"), ("nul_after_a_word", b"show\x00"), ("high_byte_in_a_number", b"slot,1,1\xff"), ("high_byte_in_a_word", b"sh\xefw"),
        ("letter_in_a_number", b"slot,1,a"), ("underscore_in_a_number", b"offer,7,1_0"), ("slash_and_colon", b"slot,/,:"), ("digit_of_another_script", "slot,1,\u0661".encode()),
        ("six_digits", b"slot,1,000001"), ("six_digits_of_an_offer", b"offer,7,000048"), ("twenty_digits", b"slot,1,18446744073709551617"),
        ("capitals", b"SHOW"), ("a_capital", b"Slot,1,1"), ("capital_of_an_offer", b"offeR,7,1"), ("unknown_word", b"stop"), ("word_too_short", b"slo,1,1"), ("word_too_long", b"slots,1,1"),
        ("offers", b"offers,7,1"), ("shows", b"shows"), ("word_too_short_of_an_offer", b"offe,7,1"), ("word_too_short_of_show", b"sho"), ("no_word", b"1,1"), ("start_again", b"2,1,7,8"),
        ("number_before_the_word", b"1,show"),
    ):
        yield name, amid(record)


def drives():
    """Some hundred calls each, all that can come among them."""
    for stations, m, n, slots in (
        (1, 2, 1, 432), (1, 3, 3, 432), (1, 8, 8, 432), (2, 2, 1, 432), (2, 3, 3, 432), (2, 8, 8, 432),
        (7, 3, 1, 432), (7, 2, 3, 432), (7, 5, 8, 432), (64, 3, 1, 216), (64, 8, 3, 216), (64, 2, 8, 216),
    ):
        yield "driven_stations_%d_groups_%d" % (stations, n), driven(stations, m, n, slots)
    for stations, m, n, slots in ((1, 2, 1, 240), (2, 3, 3, 240), (7, 3, 1, 240), (7, 2, 8, 240), (64, 3, 1, 120), (64, 8, 3, 120)):
        yield "driven_with_calendars_stations_%d_groups_%d" % (stations, n), driven(stations, m, n, slots, calendars=True)
    for stations, m, n, slots in ((1, 2, 2, 240), (7, 3, 1, 240), (64, 8, 3, 120)):
        yield "driven_with_holds_stations_%d_groups_%d" % (stations, n), driven(stations, m, n, slots, holds=True)
    yield "driven_with_calendars_and_holds_stations_7_groups_3", driven(7, 2, 3, 240, calendars=True, holds=True)
    for stations, m, n, slots in ((1, 2, 1, 160), (2, 3, 3, 200), (7, 2, 1, 320), (7, 3, 3, 320), (16, 5, 8, 240), (64, 8, 2, 120)):
        yield "driven_with_coming_stations_%d_groups_%d" % (stations, n), driven(stations, m, n, slots, calendars=True, holds=True, coming=True)


def cases():
    for part in (
        walks, pairs, two_messages, short_among_long, holds, twins, streams, starts, refusals, refused_holds, calendars, broken, broken_holds, drives, coming, refused_coming,
        waiting,
    ):
        yield from part()


def larger():
    """More than a buffer of input, and more than one of output."""
    yield "long_input", lines(*long(64, 3000))
    yield "long_output", lines(*long(64, 900, 4))
    yield "many_calls", lines(*long(2, 15000))
    yield "long_lists_of_coming_slots", lines(*long(64, 400, looks=4))


if __name__ == "__main__":
    if len(sys.argv) == 4 and sys.argv[1] == "long":
        for text in long(int(sys.argv[2]), int(sys.argv[3])):
            sys.stdout.buffer.write(lines(text))
    else:
        sys.exit(command(sys.argv, list(cases()), rehearse, larger()))
