#!/usr/bin/env python3
"""What crates/station_run must write, made from the papers' sentences and not from the Rattle programs.

The box with its two message records, its limits, its slot, its calendar and its numbers are written here once more: queues are counted by walking the
minislots, a message's place is what its queue has grown to when its own minislot has been passed.
"""
import sys

import listener

WORDS = [w for w in range(4096) if format(w, "b").count("1") == 6]
PLACES = {w: i for i, w in enumerate(WORDS)}
LIMIT = {"H": 4095, "N": 65535, "RQ": 4095}
FREE = 65535  # the entry of a position without an owner
RECORDS = ("short", "long")  # a box's two message records; of two fresh ones the first asks
TOTALS = {"short": (1, 1), "long": (2, 255)}
NEVER = {"short": "long", "long": "urgent"}
UNUSED = ("free",)  # the condition of a record without a message


class Refusal(Exception):
    """The number of a refusal."""


# ---- the record

def blank(m, n, index):
    return {
        "m": m, "n": n, "next": 1, "H": 0, "N": 0, "RQ": [0] * 8, "Open": [True] * 8, "calendar": [FREE] * 24, "position": 0,
        "index": index, "short": UNUSED, "long": UNUSED,
    }


def nothing():
    box = blank(0, 0, 0)
    box.update(next=0, Open=[False] * 8, calendar=[0] * 24)
    return box


def in_range(low, x, high):
    return low <= x <= high


INDEXES = set(PLACES.values())


def owners_of(calendar):
    return set(calendar) - {FREE}


def fits_the_kind(name, condition):
    """A short message has one slot and is never long; a long one has more, up to 255, and is never urgent."""
    kind, *v = condition
    if kind in ("free", "urgent"):
        return kind != NEVER[name]
    low, high = TOTALS[name]
    return kind != NEVER[name] and in_range(low, v[-1], high)


def fits_the_queues(box, condition):
    kind, *v = condition
    if kind == "asked":
        return in_range(1, v[0], box["n"]) and in_range(1, v[1], box["m"])
    if kind == "resolving":
        return in_range(1, v[0], box["n"]) and in_range(1, v[1], box["RQ"][v[0] - 1])
    if kind == "urgent":
        return in_range(1, v[0], box["H"])
    if kind == "long":
        first, left, total = v
        return in_range(1, left, total) and first >= 1 and first + left - 1 <= box["N"]
    return True


def share(one, other):
    """The two records share an asked group, or a resolution place."""
    for kind, fields in (("asked", 2), ("resolving", 3)):
        if one[0] == kind and one[:fields] == other[:fields]:
            return True
    return False


def fits(box):
    """The record is within its limits."""
    if not (in_range(2, box["m"], 8) and in_range(1, box["n"], 8) and in_range(1, box["next"], box["n"])):
        return False
    if box["index"] > 923 or box["H"] > LIMIT["H"] or box["N"] > LIMIT["N"]:
        return False
    inside, above = box["RQ"][: box["n"]], box["RQ"][box["n"]:]
    if any(r > LIMIT["RQ"] for r in inside) or any(above) or not all(box["Open"][box["n"]:]):
        return False
    if not in_range(0, box["position"], 23) or FREE not in box["calendar"] or owners_of(box["calendar"]) - INDEXES:
        return False
    if not all(fits_the_kind(name, box[name]) and fits_the_queues(box, box[name]) for name in RECORDS):
        return False
    return not share(box["short"], box["long"])


# ---- reading

def read(word, count):
    number = format(word, "b").count("1")
    if word > 4095:
        raise Refusal(1)
    if number == 6:
        if count == 0:
            raise Refusal(3)
        return ("single", PLACES[word], count)
    if number == 0:
        if count > 0:
            raise Refusal(4)
        return ("empty",)
    return ("collide",)


# ---- the operations

def start(m, n, index):
    if not (in_range(2, m, 8) and in_range(1, n, 8)):
        raise Refusal(5)
    if index > 923:
        raise Refusal(8)
    return blank(m, n, index)


def take(box, size, kind):
    """The slots of a message of so many bytes, and the record after: it is in the message record that its length picks, in a condition of this kind."""
    if not fits(box):
        raise Refusal(18)
    if not in_range(1, size, 12240):
        raise Refusal(10)
    name = "short" if size <= 48 else "long"
    if box[name] != UNUSED:
        raise Refusal(9)
    slots = -(-size // 48)
    return slots, dict(box, **{name: (kind, slots)})


def offer(box, size):
    return take(box, size, "fresh")


def hold(box, size):
    return take(box, size, "held")


def held_in(box, name):
    """The slots of the message that is held in this record."""
    if not fits(box):
        raise Refusal(18)
    if box[name][0] != "held":
        raise Refusal(22)
    return box[name][1]


def commit(box, name):
    slots = held_in(box, name)
    return slots, dict(box, **{name: ("fresh", slots)})


def withdraw(box, name):
    return held_in(box, name), dict(box, **{name: UNUSED})


def asked_here(box):
    """The record that is asked in the group of the slot, at most one by the limits; its minislot and its total."""
    for name in RECORDS:
        kind, *v = box[name]
        if kind == "asked" and v[0] == box["next"]:
            return name, v[1], v[2]
    return None, None, None


def must_hear(box, row, heard):
    """What a box must hear of itself: 12 if it is missing or foreign."""
    own = WORDS[box["index"]]
    _, mine, total = asked_here(box)
    for j, ((word, _), what) in enumerate(zip(row, heard), start=1):
        if j == mine:
            alone = what == ("single", box["index"], total)
            among = what == ("collide",) and (word | own) == word
            if not (alone or among):
                raise Refusal(12)
        elif what[0] == "single" and what[1] == box["index"]:
            raise Refusal(12)


def fallen(condition, g, turn):
    """Step 5: the condition of a message that didn't ask, after the queues fell."""
    kind, *v = condition
    if kind == "resolving" and v[0] == g:
        return ("resolving", g, v[1] - 1, v[2])
    if kind == "urgent" and turn == "urgent":
        return ("urgent", v[0] - 1) if v[0] > 1 else UNUSED
    if kind == "long" and turn == "long":
        first, left, total = v
        if first > 1:
            return ("long", first - 1, left, total)
        return ("long", 1, left - 1, total) if left > 1 else UNUSED
    return condition


def slot(box, row, pick):
    """The answer and the record after."""
    if not fits(box):
        raise Refusal(18)
    if len(row) != box["m"]:
        raise Refusal(6)
    if not in_range(1, pick, box["m"]):
        raise Refusal(11)
    heard = [read(word, count) for word, count in row]
    g = box["next"]
    H, N, RQ = box["H"], box["N"], box["RQ"][g - 1]
    short = [what for what in heard if what[0] == "single" and what[2] == 1]
    success = box["Open"][g - 1] and len(short) == 1 and all(what[0] != "collide" for what in heard)
    after = {name: box[name] for name in RECORDS}
    name, mine, total = asked_here(box)
    for j, what in enumerate(heard, start=1):  # step 1
        if what[0] == "single" and what[2] == 1:
            if not success:
                H += 1
            stands = UNUSED if success else ("urgent", H)
        elif what[0] == "single":
            N += what[2]
            stands = ("long", N - what[2] + 1, total, total)
        elif what[0] == "collide":
            RQ += 1
            stands = ("resolving", g, RQ, total)
        if j == mine and what[0] != "empty":
            after[name] = stands
    if H > LIMIT["H"] or N > LIMIT["N"] or RQ > LIMIT["RQ"]:
        raise Refusal(7)
    must_hear(box, row, heard)
    turn = "urgent" if H else "long" if N else "resolve" if RQ else "open"  # step 2
    owner = box["calendar"][box["position"]]
    if owner != FREE:
        turn = "owned,%d" % owner
    if RQ:  # step 3
        asks = [name for name in RECORDS if after[name][:3] == ("resolving", g, 1)]
        assert len(asks) <= 1  # by the limits
    else:
        asks = [name for name in RECORDS if after[name][0] == "fresh"][:1]
    segment = 0  # step 4
    if turn == "urgent" and after["short"] == ("urgent", 1):
        segment = 1
    if turn == "long" and after["long"][:2] == ("long", 1):
        segment = after["long"][3] - after["long"][2] + 1
    if turn == "open" and asks == ["short"]:
        segment = 1
    for name in RECORDS:
        after[name] = ("asked", g, pick, after[name][-1]) if name in asks else fallen(after[name], g, turn)
    new = dict(box, H=H - (turn == "urgent"), N=N - (turn == "long"), next=g % box["n"] + 1, RQ=list(box["RQ"]), Open=list(box["Open"]))
    new["RQ"][g - 1] = max(RQ - 1, 0)
    new["Open"][g - 1] = turn == "open"
    new["position"] = (box["position"] + 1) % 24
    new.update(after)
    return (turn, pick if asks else 0, segment), new


def calendar(box, entries):
    """The record after: the entries in the place of those it had, and nothing else."""
    if not fits(box):
        raise Refusal(18)
    if owners_of(entries) - INDEXES:
        raise Refusal(20)
    if FREE not in entries:
        raise Refusal(21)
    return dict(box, calendar=list(entries))


# ---- what is written

def put(*parts):
    print(",".join(str(p) for p in parts))


def four(condition):
    """A condition's word and three numbers, 0 where it has fewer."""
    return [*condition, 0, 0, 0][:4]


def put_record(box):
    marks = ["yes" if o else "no" for o in box["Open"]]
    put("record", box["m"], box["n"], box["next"], box["H"], box["N"], *box["RQ"], *marks, box["index"], *four(box["short"]), *four(box["long"]))


def owned_text(position, entries):
    """The coming position and who owns which."""
    return "position,%d " % position + ",".join(["owned"] + ["%d:%d" % x for x in enumerate(entries) if x[1] != FREE])


def show(box):
    print(owned_text(box["position"], box["calendar"]))


def begin(m, n, index):
    put("start", m, n, index)
    try:
        box = start(m, n, index)
        put("ready")
    except Refusal as r:
        box = nothing()
        put("refused", r)
    put_record(box)
    return box


def given(m, n, nxt, H, N, RQ1, RQ2, open1, index, short=UNUSED, long=UNUSED):
    box = blank(m, n, index)
    box.update(next=nxt, H=H, N=N, RQ=[RQ1, RQ2] + [0] * 6, Open=[open1] + [True] * 7, short=short, long=long)
    put("given")
    put_record(box)
    return box


def alone(condition):
    """The two records of a box that has one message: it is in the long record if it is long or has more than one slot."""
    kind, *v = condition
    return (UNUSED, condition) if kind == "long" or kind not in ("free", "urgent") and v[-1] > 1 else (condition, UNUSED)


def written(box, call, argument, answer):
    """An offer, a hold, a commit or a withdrawal; what it answers has this word before it."""
    try:
        slots, box = call(box, argument)
        put(answer, slots)
    except Refusal as r:
        put("refused", r)
    put_record(box)
    return box


def offered(box, size):
    put("offer", size)
    return written(box, offer, size, "taken")


def held(box, size):
    put("hold", size)
    return written(box, hold, size, "held")


def committed(box, name):
    put("commit", RECORDS.index(name) + 1)
    return written(box, commit, name, "committed")


def withdrawn(box, name):
    put("withdraw", RECORDS.index(name) + 1)
    return written(box, withdraw, name, "withdrawn")


def calendared(box, entries):
    put("calendar", *entries)
    return calendar_put(box, entries)


def calendar_put(box, entries):
    try:
        box = calendar(box, entries)
        put("set")
    except Refusal as r:
        put("refused", r)
    put_record(box)
    show(box)
    return box


def at(box, position, entries):
    """The same box with this position and calendar, whatever they are."""
    box = dict(box, position=position, calendar=list(entries))
    show(box)
    return box


def gone(box, row, pick):
    try:
        answer, box = slot(box, row, pick)
        put("went", *answer)
    except Refusal as r:
        put("refused", r)
    put_record(box)
    return box


def slotted(box, row, pick):
    put("slot", *[x for minislot in row for x in minislot], pick)
    return gone(box, row, pick)


def slot_at(box, recording, place, pick):
    put("slot_at", place, pick)
    return gone(box, recording[place:place + box["m"]], pick)


def put_counters(ear):
    put("counters", ear.m, ear.n, ear.group, ear.h, ear.long, *ear.rq.values(), *["yes" if o else "no" for o in ear.open.values()])


def listening(m, n):
    """A listener starts."""
    put("listener", m, n)
    put("ready")
    ear = listener.start(m, n)
    put_counters(ear)
    return ear


def beside(box, ear, recording, place, pick):
    """The box's slot, and then the listener on the same row of the recording."""
    put("beside", place, pick)
    row = recording[place:place + box["m"]]
    box = gone(box, row, pick)
    try:
        letter, *owner = listener.listen(ear, [w for w, _ in row], [c for _, c in row]).split(",")
        put("went", {"u": "urgent", "l": "long", "r": "resolve", "o": "open", "w": "owned"}[letter], *owner)
    except listener.Refusal as r:
        put("refused", r.number)
    put_counters(ear)
    return box


def calendar_beside(box, ear, entries):
    """The box's calendar set, and then the listener's."""
    put("calendar_beside", *entries)
    box = calendar_put(box, entries)
    try:
        listener.set_calendar(ear, entries)
        put("set")
    except listener.Refusal as r:
        put("refused", r.number)
    put_counters(ear)
    print(owned_text(ear.position, ear.calendar))
    return box


EMPTY = (0, 0)


def starts():
    begin(2, 1, 0)
    begin(8, 8, 923)
    begin(1, 1, 0)
    begin(9, 1, 0)
    begin(2, 0, 0)
    begin(2, 9, 0)
    begin(2, 1, 924)
    begin(1, 1, 924)


def offers():
    """10, then 9, by the record that the length picks."""
    for size in (1, 48, 49, 12240, 0, 12241):
        offered(begin(3, 2, 7), size)
    for sizes in ((49, 10, 0, 12241, 1, 49, 48, 12240), (48, 48, 0, 12240, 12241, 1, 49)):
        box = begin(2, 1, 5)
        for size in sizes:
            box = offered(box, size)
    for short in (("fresh", 1), ("asked", 1, 1, 1), ("resolving", 1, 1, 1), ("urgent", 1)):
        box = given(2, 2, 1, 1, 3, 1, 0, True, 5, short, UNUSED)
        for size in (48, 0, 49, 12240):
            box = offered(box, size)
    for long in (("fresh", 2), ("asked", 2, 1, 255), ("resolving", 1, 1, 3), ("long", 1, 3, 3)):
        box = given(2, 2, 1, 1, 3, 1, 0, True, 5, UNUSED, long)
        for size in (49, 12241, 48, 1):
            box = offered(box, size)


def outside(*values):
    """18, tried by an offer of nothing to a box that has a message, and by a slot without a row or a pick."""
    box = given(*values)
    offered(box, 0)
    slotted(box, [EMPTY], 0)


def outside_limits():
    """18 by each limit of the counters, of a message's record and of the two together; and records that are just within."""
    for values in (
        (2, 1, 0, 0, 0, 0, 0, True, 0), (2, 1, 2, 0, 0, 0, 0, True, 0), (2, 1, 1, 4096, 0, 0, 0, True, 0),
        (2, 1, 1, 0, 0, 4096, 0, True, 0), (2, 1, 1, 0, 0, 0, 1, True, 0), (2, 1, 1, 0, 0, 0, 0, True, 924),
    ):
        outside(*values, ("fresh", 1))
    for H, N, RQ1, condition in (
        (0, 0, 0, ("fresh", 0)), (0, 0, 0, ("asked", 2, 1, 1)), (0, 0, 0, ("asked", 1, 3, 1)), (0, 0, 1, ("resolving", 1, 2, 1)), (1, 0, 0, ("urgent", 2)),
        (0, 5, 0, ("long", 4, 3, 3)), (0, 5, 0, ("long", 1, 4, 3)), (0, 5, 0, ("long", 1, 1, 1)),
    ):
        outside(2, 1, 1, H, N, RQ1, 0, True, 0, *alone(condition))
    queues = (2, 2, 1, 1, 5, 2, 1, True, 0)
    # a short message: its total is 1
    for short in (
        ("fresh", 0), ("fresh", 2), ("fresh", 255),
        ("asked", 0, 1, 1), ("asked", 3, 1, 1), ("asked", 1, 0, 1), ("asked", 1, 3, 1), ("asked", 1, 1, 0), ("asked", 1, 1, 2),
        ("resolving", 0, 1, 1), ("resolving", 3, 1, 1), ("resolving", 255, 1, 1),
        ("resolving", 1, 0, 1), ("resolving", 1, 3, 1), ("resolving", 2, 2, 1), ("resolving", 1, 1, 0), ("resolving", 1, 1, 2),
        ("urgent", 0), ("urgent", 2), ("long", 1, 1, 1),
    ):
        outside(*queues, short, ("fresh", 2))
    # a long one: its total is above 1
    for long in (
        ("fresh", 0), ("fresh", 1),
        ("asked", 0, 1, 5), ("asked", 3, 1, 5), ("asked", 1, 0, 5), ("asked", 1, 3, 5), ("asked", 1, 1, 0), ("asked", 1, 1, 1),
        ("resolving", 0, 1, 5), ("resolving", 3, 1, 5), ("resolving", 9, 1, 5),
        ("resolving", 1, 0, 5), ("resolving", 1, 3, 5), ("resolving", 2, 2, 5), ("resolving", 1, 1, 0), ("resolving", 1, 1, 1),
        ("long", 0, 3, 3), ("long", 4, 3, 3), ("long", 6, 1, 2), ("long", 65535, 255, 255), ("long", 1, 0, 3), ("long", 1, 4, 3), ("long", 1, 1, 1), ("long", 1, 0, 0),
    ):
        outside(*queues, ("fresh", 1), long)
    # the eleven pairs of conditions that cannot be: a short message is never long, a long one never urgent
    for long in (UNUSED, ("fresh", 2), ("asked", 1, 1, 2), ("resolving", 1, 1, 2), ("urgent", 1), ("long", 4, 2, 2)):
        outside(*queues, ("long", 1, 3, 3), long)
    for short in (UNUSED, ("fresh", 1), ("asked", 1, 1, 1), ("resolving", 1, 1, 1), ("urgent", 1)):
        outside(*queues, short, ("urgent", 1))
    # the two share an asked group or a resolution place; then those that do not
    for short, long in (
        (("asked", 1, 1, 1), ("asked", 1, 2, 5)), (("asked", 2, 1, 1), ("asked", 2, 1, 2)),
        (("resolving", 1, 2, 1), ("resolving", 1, 2, 5)), (("resolving", 2, 1, 1), ("resolving", 2, 1, 2)),
        (("asked", 1, 1, 1), ("asked", 2, 1, 5)), (("resolving", 1, 1, 1), ("resolving", 1, 2, 5)), (("resolving", 2, 1, 1), ("resolving", 1, 1, 2)),
        (("asked", 1, 1, 1), ("resolving", 1, 1, 5)), (("resolving", 1, 2, 1), ("asked", 1, 2, 255)), (("urgent", 1), ("long", 1, 5, 5)), (("fresh", 1), ("long", 5, 1, 2)),
    ):
        outside(*queues, short, long)


def rows_refused():
    """6, 11, and 1, 3 and 4, each also where a later one would come."""
    box = begin(2, 1, 0)
    slotted(box, [(4096, 0)], 0)
    slotted(box, [EMPTY, EMPTY, EMPTY], 1)
    slotted(box, [EMPTY, EMPTY], 0)
    slotted(box, [(4096, 0), EMPTY], 3)
    slotted(box, [(4096, 0), (95, 0)], 1)
    slotted(box, [(31, 1), (4096, 0)], 1)
    slotted(box, [(95, 0), EMPTY], 2)
    slotted(box, [EMPTY, (0, 1)], 2)


def limits_passed():
    """7 at each limit, and not one below it; 7 before 12."""
    for before, row in (
        ((2, 1, 1, 4095, 0, 0, 0, True, 0), [(95, 1), (111, 1)]),
        ((2, 1, 1, 4094, 0, 0, 0, False, 0), [(95, 1), EMPTY]),
        ((2, 1, 1, 4095, 0, 0, 0, True, 0), [(95, 1), EMPTY]),
        ((2, 1, 1, 0, 65535, 0, 0, True, 0), [EMPTY, (95, 2)]),
        ((2, 1, 1, 0, 65533, 0, 0, True, 0), [EMPTY, (95, 2)]),
        ((2, 1, 1, 0, 0, 4095, 0, True, 0), [(127, 0), EMPTY]),
        ((2, 1, 1, 0, 0, 4094, 0, True, 0), [(127, 0), EMPTY]),
        ((2, 1, 1, 4095, 0, 0, 0, False, 0, ("asked", 1, 1, 1)), [(95, 1), EMPTY]),
    ):
        slotted(given(*before), row, 1)


def own_hearing():
    """12: missing or foreign in its own minislot, or itself elsewhere; and each row that a box must take."""
    asked = (2, 2, 1, 0, 0, 0, 0, True, 0, UNUSED, ("asked", 1, 2, 3))
    for row in ([EMPTY, EMPTY], [EMPTY, (95, 3)], [EMPTY, (63, 2)], [EMPTY, (4032, 3)], [EMPTY, (223, 0)], [EMPTY, (4064, 1)],
                [EMPTY, (254, 3)], [(63, 3), (63, 3)], [(63, 3), EMPTY], [EMPTY, (63, 3)], [EMPTY, (127, 255)], [(95, 1), (63, 3)]):
        slotted(given(*asked), row, 1)
    # clicks: too few ones, or none of them its own; over its word; and beside it
    for row in ([EMPTY, (31, 3)], [EMPTY, (62, 0)], [EMPTY, (1, 255)], [EMPTY, (64, 3)], [EMPTY, (4095, 3)], [(31, 0), (63, 3)], [(62, 255), (2111, 0)],
                [(1, 0), (31, 3)]):
        slotted(given(*asked), row, 1)
    for row in ([EMPTY, EMPTY], [(63, 3), EMPTY], [EMPTY, (127, 0)], [EMPTY, (31, 0)]):
        slotted(given(2, 2, 2, 0, 0, 0, 0, True, 0, UNUSED, ("asked", 1, 2, 3)), row, 1)
    for row in ([(63, 1), EMPTY], [(127, 1), (95, 1)]):
        slotted(begin(2, 1, 0), row, 1)


def immediate_success():
    box = offered(begin(2, 1, 0), 10)
    box = slotted(box, [EMPTY, EMPTY], 2)
    slotted(box, [EMPTY, (63, 1)], 1)


def collision_then_urgent():
    box = offered(begin(2, 1, 0), 48)
    box = slotted(box, [EMPTY, EMPTY], 1)
    box = slotted(box, [(127, 1), EMPTY], 2)
    box = slotted(box, [(95, 1), (63, 1)], 1)
    slotted(box, [EMPTY, EMPTY], 1)


def long_preempted():
    box = offered(begin(2, 1, 0), 100)
    box = slotted(box, [EMPTY, EMPTY], 1)
    box = slotted(box, [(63, 3), EMPTY], 1)
    box = slotted(box, [(95, 1), EMPTY], 1)
    box = slotted(box, [EMPTY, EMPTY], 1)
    slotted(box, [EMPTY, EMPTY], 1)


def second_in_line():
    """Two groups: behind another stretch, behind another place of a resolution queue, and a fresh message that must wait."""
    box = offered(begin(2, 2, 1), 97)
    box = slotted(box, [EMPTY, EMPTY], 2)
    box = slotted(box, [(127, 0), EMPTY], 1)
    box = slotted(box, [(63, 2), (95, 3)], 1)
    box = slotted(box, [EMPTY, EMPTY], 1)
    box = slotted(box, [EMPTY, EMPTY], 1)
    box = slotted(given(2, 2, 1, 0, 0, 2, 0, False, 1, ("resolving", 1, 2, 1)), [EMPTY, EMPTY], 2)
    box = slotted(box, [EMPTY, EMPTY], 2)
    box = slotted(box, [EMPTY, EMPTY], 2)
    slotted(given(2, 1, 1, 0, 0, 1, 0, False, 1, ("fresh", 1)), [EMPTY, EMPTY], 1)


def recordings():
    recording = [(0, 0), (0, 0), (63, 1), (95, 3), (127, 1), (0, 0), (63, 0)]
    box = slot_at(offered(begin(2, 1, 0), 10), recording, 0, 1)
    for place, pick in ((2, 1), (3, 1), (4, 2), (5, 1), (6, 1), (7, 1), (18446744073709551615, 1), (5, 3)):
        slot_at(box, recording, place, pick)


def lone_request_clicked():
    """A lone request under a click: the box asks again, alone at its resolution place, and is queued when it is heard alone. A listener hears the same rows."""
    for n, size, recording, picks in (
        (1, 10, [EMPTY, EMPTY, (127, 1), EMPTY, EMPTY, (63, 1)], (1, 2, 1)),
        (1, 100, [EMPTY, EMPTY, (319, 3), (31, 255), (63, 3), (1, 0)], (1, 1, 1)),
        (1, 10, [EMPTY, EMPTY, (2111, 1), EMPTY, (127, 1), EMPTY, (63, 1), EMPTY], (1, 1, 1, 1)),
        (2, 48, [EMPTY, EMPTY, EMPTY, (62, 0), (127, 1), EMPTY, EMPTY, EMPTY, (63, 1), EMPTY], (1, 1, 1, 1, 1)),
    ):
        box = offered(begin(2, n, 0), size)
        ear = listening(2, n)
        for k, pick in enumerate(picks):
            box = beside(box, ear, recording, 2 * k, pick)


# ---- calendars

SILENT = [EMPTY, EMPTY]
MOST = listener.entries({p: 900 + p for p in range(24) if p != 11})
FULL = [7] * 24


def owning(**owners):
    """The calendar in which these positions have these owners: p5=7 for position 5 and index 7."""
    return listener.entries({int(name[1:]): index for name, index in owners.items()})


NOBODY = owning()


def settings():
    """A calendar set: 1, 23 and 0 owned positions, again, and at a position that is not the first; 20 and 21."""
    box = begin(2, 1, 7)
    show(box)
    for entries in (owning(p5=7), MOST, NOBODY, owning(p0=0, p23=923)):
        box = calendared(box, entries)
    box = slotted(box, SILENT, 1)
    for entries in (
        owning(p0=924), owning(p23=924), owning(p11=65534), owning(p4=4096, p5=7), FULL[:12] + [924] + FULL[13:], FULL[:23] + [65534],
        FULL, list(range(24)), [923] * 24, owning(p1=8, p2=7), NOBODY,
    ):
        box = calendared(box, entries)
    box = offered(box, 49)
    calendared(box, owning(p1=7))


def outside_calendar_limits():
    """18 by the calendar or the position, tried by each call where a later number would come; and 18 by other limits, of a calendar set."""
    for position, entries in ((24, NOBODY), (255, owning(p5=7)), (0, owning(p23=924)), (3, owning(p0=65534)), (0, FULL), (23, list(range(24)))):
        box = at(given(2, 1, 1, 0, 0, 0, 0, True, 7, ("fresh", 1)), position, entries)
        offered(box, 0)
        slotted(box, [EMPTY], 0)
        calendared(box, owning(p0=924))
        calendared(box, NOBODY)
    for position, entries in ((23, owning(p23=7)), (23, owning(p0=923)), (11, MOST)):
        box = at(given(2, 1, 1, 0, 0, 0, 0, True, 7, ("fresh", 1)), position, entries)
        show(slotted(box, SILENT, 2))
    for values in (
        (2, 1, 2, 0, 0, 0, 0, True, 0), (2, 1, 1, 0, 0, 0, 0, True, 924), (2, 1, 1, 1, 0, 0, 0, True, 0, ("urgent", 2)), (2, 1, 1, 0, 0, 0, 0, True, 0, ("fresh", 2)),
        (2, 1, 1, 1, 0, 0, 0, True, 0, UNUSED, ("urgent", 1)), (2, 2, 1, 0, 0, 0, 0, True, 0, ("asked", 2, 1, 1), ("asked", 2, 2, 3)),
        (2, 1, 1, 0, 0, 2, 0, True, 0, ("resolving", 1, 2, 1), ("resolving", 1, 2, 3)),
    ):
        calendared(given(*values), FULL)
    calendared(begin(1, 1, 0), owning(p0=924))


def owner_in_every_condition():
    """A slot at a position that the box owns, and the next one, which nobody does; then some where another box is the owner."""
    mine, other = (63, 1), (95, 1)
    for H, N, RQ, is_open, condition, row, following in (
        (0, 0, 0, True, UNUSED, SILENT, SILENT),
        (1, 0, 1, True, UNUSED, [other, EMPTY], SILENT),
        (0, 0, 0, True, ("fresh", 1), SILENT, SILENT),
        (1, 2, 0, False, ("fresh", 3), SILENT, SILENT),
        (0, 0, 1, False, ("fresh", 1), SILENT, SILENT),
        (0, 0, 0, True, ("asked", 1, 2, 1), [EMPTY, mine], SILENT),
        (2, 0, 0, True, ("asked", 1, 2, 1), [EMPTY, mine], SILENT),
        (0, 0, 0, False, ("asked", 1, 2, 1), [EMPTY, mine], SILENT),
        (0, 0, 0, True, ("asked", 1, 2, 1), [other, mine], SILENT),
        (0, 0, 0, True, ("asked", 1, 2, 3), [other, (63, 3)], SILENT),
        (0, 4, 0, True, ("asked", 1, 2, 3), [EMPTY, (63, 3)], SILENT),
        (0, 0, 0, True, ("asked", 1, 2, 1), [EMPTY, (127, 1)], SILENT),
        (0, 0, 2, False, ("asked", 1, 2, 3), [(127, 0), (127, 3)], SILENT),
        (0, 0, 0, True, ("asked", 2, 1, 1), SILENT, [mine, EMPTY]),
        (0, 0, 1, False, ("resolving", 1, 1, 1), SILENT, SILENT),
        (0, 0, 2, False, ("resolving", 1, 2, 5), [other, EMPTY], SILENT),
        (0, 0, 2, False, ("resolving", 2, 1, 1), SILENT, SILENT),
        (1, 0, 0, False, ("urgent", 1), SILENT, SILENT),
        (2, 3, 1, False, ("urgent", 2), [other, EMPTY], SILENT),
        (0, 3, 0, False, ("long", 1, 3, 3), SILENT, SILENT),
        (0, 1, 0, False, ("long", 1, 1, 255), SILENT, SILENT),
        (0, 5, 1, False, ("long", 4, 2, 7), SILENT, SILENT),
        (1, 2, 0, False, ("long", 1, 2, 2), SILENT, SILENT),
    ):
        RQ2 = 1 if condition[:2] == ("resolving", 2) else 0
        box = at(given(2, 2, 1, H, N, RQ, RQ2, is_open, 0, *alone(condition)), 5, owning(p5=0, p7=8))
        slotted(slotted(box, row, 1), following, 2)
    for H, N, condition in ((0, 0, ("fresh", 1)), (1, 0, ("urgent", 1)), (0, 2, ("long", 1, 2, 2)), (0, 0, UNUSED)):
        box = at(given(2, 2, 1, H, N, 0, 0, True, 0, *alone(condition)), 5, owning(p5=923))
        slotted(slotted(box, SILENT, 1), SILENT, 2)


def streams():
    """A calendar set between an open slot and its row; requests made in an owned slot; refused slots; the end of the calendar."""
    for entries in (owning(p1=9), owning(p1=0), owning(p0=0)):
        box = slotted(offered(begin(2, 1, 0), 10), SILENT, 2)
        box = calendared(box, entries)
        box = slotted(box, [EMPTY, (63, 1)], 1)
        box = slotted(offered(box, 1), SILENT, 1)
        slotted(box, [(63, 1), EMPTY], 1)
    for after in (owning(p0=0), NOBODY):
        box = offered(calendared(begin(2, 1, 0), owning(p0=0)), 10)
        box = slotted(box, SILENT, 2)
        box = calendared(box, after)
        slotted(box, [EMPTY, (63, 1)], 1)
    for position in (23, 5):
        box = at(given(2, 1, 1, 4095, 0, 0, 0, False, 0, ("asked", 1, 1, 1)), position, owning(p23=0))
        for row, pick in (([EMPTY], 1), (SILENT, 0), ([(4096, 0), EMPTY], 1), ([(95, 0), EMPTY], 1), ([EMPTY, (0, 1)], 1), ([(95, 1), EMPTY], 1), (SILENT, 1), ([(127, 0), EMPTY], 2)):
            box = slotted(box, row, pick)
        show(box)
    box = offered(calendared(begin(2, 1, 0), listener.entries({p: 0 for p in range(24) if p != 11})), 10)
    box = slotted(box, SILENT, 1)
    box = slotted(box, [(63, 1), EMPTY], 1)
    for _ in range(24):
        box = slotted(box, SILENT, 1)
    show(box)


def streams_beside():
    """A box and a listener hear the same rows under the same calendar, set and cleared on the way."""
    recording = [EMPTY, EMPTY, (127, 1), EMPTY, EMPTY, (63, 1), (95, 2), (111, 1), EMPTY, EMPTY]
    box = offered(begin(2, 1, 0), 10)
    ear = listening(2, 1)
    box = calendar_beside(box, ear, owning(p1=0, p2=923))
    for place, pick in ((0, 1), (2, 2), (4, 1), (6, 1), (9, 1)):
        box = beside(box, ear, recording, place, pick)
    box = calendar_beside(box, ear, FULL)
    box = calendar_beside(box, ear, owning(p4=8))
    box = beside(box, ear, recording, 8, 1)
    box = calendar_beside(box, ear, NOBODY)
    box = beside(box, ear, recording, 8, 1)
    beside(box, ear, recording, 8, 1)


# ---- both records in use

def having(short, long, H=0, N=0, RQ1=0, RQ2=0):
    """Box 0 of two groups with these records, group 1 coming; each queue as long as its places need, or longer."""
    if short[0] == "urgent":
        H = max(H, short[1])
    if long[0] == "long":
        N = max(N, long[1] + long[2] - 1)
    RQ1, RQ2 = (max([RQ] + [c[2] for c in (short, long) if c[:2] == ("resolving", g)]) for g, RQ in ((1, RQ1), (2, RQ2)))
    return given(2, 2, 1, H, N, RQ1, RQ2, True, 0, short, long)


def heard_alone(box, pick):
    """A slot whose row is what the box itself asked, or silence."""
    _, mine, total = asked_here(box)
    return slotted(box, [(WORDS[box["index"]], total) if j == mine else EMPTY for j in range(1, box["m"] + 1)], pick)


def every_pair():
    """A slot of group 1 and one of group 2, of a box whose records are in any two conditions that can be together."""
    for short in (
        UNUSED, ("fresh", 1), ("asked", 1, 2, 1), ("asked", 2, 1, 1), ("resolving", 1, 1, 1), ("resolving", 1, 2, 1), ("resolving", 2, 1, 1), ("urgent", 1), ("urgent", 2),
    ):
        for long in (
            UNUSED, ("fresh", 3), ("asked", 1, 2, 3), ("asked", 2, 1, 3), ("resolving", 1, 1, 3), ("resolving", 1, 2, 3), ("resolving", 2, 1, 3), ("long", 1, 2, 3), ("long", 3, 3, 3),
        ):
            if not share(short, long):
                heard_alone(heard_alone(having(short, long), 1), 2)


def pairs_heard_otherwise():
    """What was asked is heard in a Collide, or beside another box, while the other record is in each condition."""
    mine, reel, other = ("asked", 1, 2, 1), ("asked", 1, 2, 3), (95, 1)
    for row in ([EMPTY, (127, 1)], [(127, 0), (127, 1)], [other, (63, 1)]):
        for long in (("fresh", 3), ("asked", 2, 1, 3), ("resolving", 1, 1, 3), ("resolving", 2, 1, 3), ("long", 1, 3, 3)):
            slotted(having(mine, long), row, 1)
    for row in ([EMPTY, (127, 3)], [(127, 0), (127, 3)], [other, (63, 3)]):
        for short in (("fresh", 1), ("asked", 2, 1, 1), ("resolving", 1, 1, 1), ("resolving", 2, 1, 1), ("urgent", 1)):
            slotted(having(short, reel), row, 1)


def own_hearing_of_two():
    """12 by the record that is asked in the slot's group, whatever the other one is."""
    mine, reel = (63, 1), (63, 3)
    for short, long, rows in (
        (("asked", 1, 2, 1), ("asked", 2, 1, 3), (
            [EMPTY, mine], [EMPTY, reel], [reel, EMPTY], [mine, EMPTY], [reel, mine], SILENT, [EMPTY, (127, 3)], [EMPTY, (254, 1)], [(127, 3), mine], [(127, 3), EMPTY])),
        (("asked", 2, 2, 1), ("asked", 1, 1, 3), ([reel, EMPTY], [mine, EMPTY], [EMPTY, mine], [reel, mine], SILENT, [(127, 1), EMPTY], [(254, 3), EMPTY])),
        (("asked", 1, 2, 1), ("fresh", 3), ([EMPTY, reel], [reel, EMPTY])),
        (("asked", 1, 2, 1), ("resolving", 1, 1, 3), ([EMPTY, reel], [reel, mine])),
        (("asked", 1, 2, 1), ("long", 1, 3, 3), ([EMPTY, reel], [reel, mine])),
        (("fresh", 1), ("asked", 1, 2, 3), ([EMPTY, mine], [mine, EMPTY])),
        (("resolving", 1, 1, 1), ("asked", 1, 2, 3), ([EMPTY, mine], [mine, reel])),
        (("urgent", 1), ("asked", 1, 2, 3), ([EMPTY, mine], [mine, reel])),
        (("fresh", 1), ("asked", 2, 2, 3), (SILENT, [EMPTY, reel], [mine, EMPTY])),
        (("urgent", 1), ("long", 1, 3, 3), ([EMPTY, reel], [mine, EMPTY])),
    ):
        for row in rows:
            slotted(having(short, long), row, 1)


def data_of_two():
    """Whose data goes by each turn: on another box's urgent and long turn, a resolve turn that is not its own, and owned ones."""
    for H, N, RQ1, short, long in (
        (2, 0, 0, ("fresh", 1), ("long", 1, 3, 3)), (1, 5, 0, ("fresh", 1), ("fresh", 3)), (0, 2, 0, ("fresh", 1), ("fresh", 3)), (0, 2, 1, ("fresh", 1), ("long", 2, 1, 3)),
        (0, 0, 1, ("fresh", 1), ("fresh", 3)), (0, 0, 3, ("resolving", 1, 2, 1), ("resolving", 1, 3, 3)), (2, 4, 2, ("urgent", 2), ("long", 1, 1, 255)),
    ):
        box = having(short, long, H, N, RQ1)
        for pick in (1, 2, 1):
            box = heard_alone(box, pick)
    for short, long in (
        (("fresh", 1), ("fresh", 3)), (("fresh", 1), ("long", 1, 3, 3)), (("urgent", 1), ("fresh", 3)), (("urgent", 1), ("long", 1, 3, 3)), (("asked", 1, 2, 1), ("fresh", 3)),
        (("resolving", 1, 1, 1), ("resolving", 1, 2, 3)),
    ):
        for owner in (0, 923):
            heard_alone(heard_alone(at(having(short, long), 5, owning(p5=owner)), 1), 2)


def lives_of_two():
    """Both messages from their offers on."""
    # one group: the long one stays fresh while the short one asks, and asks in the slot that hears the short one's success
    box = offered(offered(begin(2, 1, 0), 100), 10)
    for pick in (2, 1, 1, 2, 1):
        box = heard_alone(box, pick)
    # two groups: it asks in the next slot, of the other group; both are asked, in different groups
    box = offered(offered(begin(2, 2, 0), 10), 49)
    for pick in (2, 1, 1, 2):
        box = heard_alone(box, pick)
    # the short one overtakes: it asks while the long one sends, is queued and leaves before the rest; then another one does
    box = heard_alone(heard_alone(offered(begin(2, 1, 0), 200), 1), 1)
    box = heard_alone(heard_alone(offered(box, 48), 2), 1)
    box = heard_alone(offered(box, 1), 1)
    for pick in (1, 1, 2):
        box = heard_alone(box, pick)
    # collisions: the short one in group 1's resolution queue, the long one in group 2's, each at a second place
    box = slotted(offered(begin(2, 2, 0), 20), SILENT, 2)
    box = slotted(offered(box, 97), SILENT, 2)
    for row, pick in (
        ([(127, 0), (127, 1)], 1), ([(127, 0), (127, 3)], 1), ([(95, 1), (111, 1)], 1), ([EMPTY, (95, 1)], 2), ([(63, 1), EMPTY], 1), ([EMPTY, (63, 3)], 1),
        (SILENT, 1), (SILENT, 1), (SILENT, 1), (SILENT, 1), (SILENT, 1),
    ):
        box = slotted(box, row, pick)


def lives_of_two_beside():
    """Both messages in the rows of a recording; a listener hears the same rows."""
    recording = [EMPTY, EMPTY, (127, 1), EMPTY, (63, 1), EMPTY, EMPTY, (63, 3), (63, 1), EMPTY, EMPTY]
    box = offered(offered(begin(2, 1, 0), 100), 10)
    ear = listening(2, 1)
    for place, pick in ((0, 1), (2, 1), (4, 2), (6, 1)):
        box = beside(box, ear, recording, place, pick)
    box = offered(box, 1)
    for place, pick in ((0, 1), (8, 1), (9, 1), (9, 1)):
        box = beside(box, ear, recording, place, pick)


# ---- one short request among long ones

OWN, OTHERS = WORDS[0], WORDS[1:13]
LENGTHS = (255, 2, 3, 7, 16, 4, 9)
LONGEST = 12  # minislots of a recording: a line of the program's cases has 24 numbers at most


def in_step(box, ear, recording, place, pick):
    """A row of the recording that both hear; their counters must be the same after it."""
    box = beside(box, ear, recording, place, pick)
    assert [box["H"], box["N"], box["RQ"], box["Open"]] == [ear.h, ear.long, list(ear.rq.values()), list(ear.open.values())]
    return box


def passed_along(m, short, collide, most, fewest):
    """A recording and places in it, the first one's row having the most long ones: at each further place one has left the row at one end, and an Empty come in at
    the other. The short ones and the Collide, if there is one, are in all rows. For an odd m the rows go from the recording's end to its start."""
    leaving = most - fewest
    counts = [*LENGTHS[:leaving], *[1] * (short > 0), *LENGTHS[leaving:most], *[1] * (short > 1)]
    minislots = [*zip(OTHERS, counts), *[collide] * (collide != EMPTY)]
    minislots += [EMPTY] * (m + leaving - len(minislots))
    places = range(leaving + 1)
    return (minislots[::-1], places[::-1]) if m % 2 else (minislots, places)


def mix_of(box, row):
    """What the box is to hear: m, how many Singles of 1, long ones and Collides the row has, and whether the last slot of its group was open."""
    heard = [read(word, count) for word, count in row]
    counts = [what[2] for what in heard if what[0] == "single"]
    return box["m"], counts.count(1), len(counts) - counts.count(1), heard.count(("collide",)), box["Open"][box["next"] - 1]


def short_among_long():
    """Rows with up to two short requests, up to seven long ones and a Collide or none: each after an open slot and after another. There are as many groups as a
    recording has rows, all of them open at first; when the rows come again none is."""
    seen = set()
    for m in range(2, 9):
        for collides in (0, 1):
            for short in range(min(2, m - collides) + 1):
                longs = min(7, m - short - collides)
                for most, fewest in ((longs, 0),) if longs <= LONGEST - m else ((longs, 4), (3, 0)):
                    clicked = (m + short + fewest // 4) % 2 == 0
                    collide = EMPTY if not collides else (2 ** ((m + short) % 5 + 1) - 1, most) if clicked else (OWN | OTHERS[-1 - short], 3)
                    rows_heard_twice(m, collide, clicked, passed_along(m, short, collide, most, fewest), seen)
    assert seen == {(m, *mix, is_open) for m in range(2, 9) for mix in listener.mixes(m) for is_open in (True, False)}


def rows_heard_twice(m, collide, clicked, rows, seen):
    """The rows of a recording, and then once more, by a box and a listener."""
    recording, places = rows
    n, pick = len(places), 1
    if collide == EMPTY:
        box = begin(m, n, 0)  # free the first time; then fresh, it asks, and is not heard any more
    elif clicked:
        box = offered(offered(begin(m, n, 0), 1), 49)  # fresh, and waits for the resolution of each group
    else:
        pick = recording.index(collide) - places[0] + 1  # in the Collide, both times: it asks again in the same minislot
        box = given(m, n, 1, 0, 0, 0, 0, True, 0, *alone(("asked", 1, pick, m // 2 % 2 + 1)))
    ear = listening(m, n)
    for again in (False, True):
        if again and collide == EMPTY:
            box = offered(offered(box, 1), 49)
        for place in places:
            seen.add(mix_of(box, recording[place:place + m]))
            box = in_step(box, ear, recording, place, pick)


def own_among_long():
    """The box made the short request of a row, or a long one of another, and has the other message fresh: it asks for that in the slot that hears the first, so
    that the second row has it. The short one is heard after an open slot and the long one after another, then the other way round. The two rows are from one
    recording, and may share minislots."""
    for m in range(2, 9):
        further = min(m, LONGEST - m)
        first, total = m // 2 % further, LENGTHS[m - 2]
        second, other = (m, m + further - 1) if m % 2 else (m + further - 1, m)
        recording = [*zip(OTHERS, (LENGTHS * 2)[:m + further])]
        recording[first], recording[second], recording[other] = (OWN, 1), (OWN, total), (OTHERS[other], 1)
        short, long = first + 1, second - further + 1
        for conditions, places, picks in (
            ((("asked", 1, short, 1), ("fresh", total)), (0, further), (long, 1)), ((("fresh", 1), ("asked", 1, long, total)), (further, 0), (short, 1)),
        ):
            box = given(m, 1, 1, 0, 0, 0, 0, True, 0, *conditions)
            ear = listening(m, 1)
            for place, pick in zip(places, picks):
                box = in_step(box, ear, recording, place, pick)


def own_not_alone():
    """The box's short request after an open slot, beside long ones and another short one, a click or a Collide: it is queued."""
    for m in (4, 8):
        box = given(m, 1, 1, 0, 0, 0, 0, True, 0, ("asked", 1, m // 2, 1))
        for last in ((OTHERS[-1], 1), (16, 255), (OTHERS[-1] | OTHERS[-2], 3)):
            row = [*zip(OTHERS, (LENGTHS * 2)[:m - 1]), last]
            row[m // 2 - 1] = (OWN, 1)
            in_step(box, listening(m, 1), row, 0, 1)


# ---- held messages

# each condition that a short and a long record can be in; any two of them are within the limits of the queues below
SHORT_ONES = (UNUSED, ("held", 1), ("fresh", 1), ("asked", 1, 1, 1), ("resolving", 1, 1, 1), ("urgent", 1))
LONG_ONES = (UNUSED, ("held", 4), ("fresh", 3), ("asked", 2, 2, 5), ("resolving", 2, 1, 255), ("long", 1, 3, 3))
QUEUES = (2, 2, 1, 1, 3, 1, 1, True, 0)


def holds():
    """A hold's total, 10, then 9, by the record that the length picks; offers to a record that is held, and holds of one that was offered."""
    for size in (1, 48, 49, 96, 97, 12192, 12193, 12240, 0, 12241):
        held(begin(3, 2, 7), size)
    for calls in (
        ((held, 49), (held, 10), (held, 0), (held, 12241), (held, 1), (held, 49), (offered, 48), (offered, 12240), (offered, 0), (offered, 12241)),
        ((held, 48), (held, 48), (offered, 48), (held, 0), (offered, 12240), (held, 12241), (held, 1), (held, 49)),
        ((offered, 48), (held, 48), (held, 0), (held, 12240), (held, 12241), (offered, 1), (offered, 49)),
    ):
        box = begin(2, 1, 5)
        for call, size in calls:
            box = call(box, size)


def calls_in_every_pair():
    """Offer, hold, commit and withdrawal on either record, whatever the two are: 10 before 9, 9 of a record in use, 22 of one that isn't held."""
    for short in SHORT_ONES:
        for long in LONG_ONES:
            box = given(*QUEUES, short, long)
            for size in (48, 49):
                offered(box, size)
                held(box, size)
            for size in (0, 12241):
                held(box, size)
            for name in RECORDS:
                committed(box, name)
                withdrawn(box, name)


def tried_outside(box):
    """18 by each call on a message record: where 10 and 9 would come too, or 9, or 22, and where none would."""
    for size in (0, 48, 49):
        held(box, size)
    for name in RECORDS:
        committed(box, name)
        withdrawn(box, name)


def outside_limits_of_holds():
    """18 by a held message's total, tried by every call; then 18 by the other limits; and held messages that are just within."""
    for short, long in (
        (("held", 0), UNUSED), (("held", 2), UNUSED), (("held", 255), UNUSED), (UNUSED, ("held", 0)), (UNUSED, ("held", 1)),
        (("held", 1), ("held", 1)), (("held", 2), ("held", 2)), (("held", 2), ("held", 1)), (("held", 2), ("fresh", 2)), (("urgent", 1), ("held", 1)),
        (("long", 1, 3, 3), ("held", 3)), (("held", 1), ("urgent", 1)),
    ):
        box = given(*QUEUES, short, long)
        tried_outside(box)
        offered(box, 0)
        slotted(box, [EMPTY], 0)
        calendared(box, FULL)
    for values in (
        (1, 1, 1, 0, 0, 0, 0, True, 0), (2, 9, 1, 0, 0, 0, 0, True, 0), (2, 1, 2, 0, 0, 0, 0, True, 0), (2, 1, 1, 4096, 0, 0, 0, True, 0),
        (2, 1, 1, 0, 0, 4096, 0, True, 0), (2, 1, 1, 0, 0, 0, 1, True, 0), (2, 1, 1, 0, 0, 0, 0, True, 924),
    ):
        tried_outside(given(*values, ("held", 1), ("held", 2)))
    for short, long in (
        (("held", 1), ("fresh", 1)), (("held", 1), ("asked", 3, 1, 5)), (("held", 1), ("resolving", 1, 2, 5)), (("held", 1), ("long", 2, 3, 3)),
        (("fresh", 2), ("held", 2)), (("asked", 1, 3, 1), ("held", 2)), (("resolving", 2, 2, 1), ("held", 2)), (("urgent", 2), ("held", 2)),
        (("asked", 1, 1, 1), ("asked", 1, 2, 5)), (("resolving", 1, 1, 1), ("resolving", 1, 1, 5)),
    ):
        tried_outside(given(*QUEUES, short, long))
    for position, entries in ((24, NOBODY), (0, owning(p23=924)), (0, FULL)):
        tried_outside(at(given(*QUEUES, ("held", 1), ("held", 2)), position, entries))
    for total in (2, 255):
        tried_outside(given(*QUEUES, ("held", 1), ("held", total)))


def own_hearing_of_held():
    """A held message listens for nothing: its box must hear itself as Single nowhere, or only where its other message is asked."""
    mine, reel = (63, 1), (63, 3)
    for short, long, rows in (
        (("held", 1), UNUSED, ([mine, EMPTY], [EMPTY, reel], [(127, 1), EMPTY], [EMPTY, (95, 1)])),
        (UNUSED, ("held", 3), ([mine, EMPTY], [EMPTY, reel], [(127, 3), EMPTY], [EMPTY, (95, 3)])),
        (("held", 1), ("held", 3), ([mine, EMPTY], [EMPTY, reel], SILENT)),
        (("held", 1), ("asked", 1, 2, 3), ([EMPTY, reel], [EMPTY, mine], [mine, reel], [mine, EMPTY], SILENT, [EMPTY, (127, 3)])),
        (("asked", 1, 2, 1), ("held", 3), ([EMPTY, mine], [EMPTY, reel], [reel, mine], [reel, EMPTY], SILENT, [EMPTY, (127, 1)])),
    ):
        for row in rows:
            slotted(having(short, long), row, 1)


def held_in_every_turn():
    """Slots of every turn while one record is held and the other is in each condition: the queues are its own or longer, and a position may be owned."""
    for H, N, RQ1, owner in ((0, 0, 0, FREE), (0, 0, 1, FREE), (2, 0, 0, FREE), (1, 4, 1, FREE), (0, 4, 0, FREE), (0, 0, 0, 0), (1, 2, 1, 923)):
        for short, long in (
            *[(("held", 1), long) for long in (
                UNUSED, ("fresh", 3), ("asked", 1, 2, 3), ("asked", 2, 1, 3), ("resolving", 1, 1, 3), ("resolving", 1, 2, 3), ("resolving", 2, 1, 3), ("long", 1, 2, 3), ("long", 3, 3, 3))],
            *[(short, ("held", 3)) for short in (
                UNUSED, ("fresh", 1), ("asked", 1, 2, 1), ("asked", 2, 1, 1), ("resolving", 1, 1, 1), ("resolving", 1, 2, 1), ("resolving", 2, 1, 1), ("urgent", 1), ("urgent", 2))],
            (("held", 1), ("held", 3)),
        ):
            box = having(short, long, H, N, RQ1)
            if owner != FREE:
                box = at(box, 5, owning(p5=owner))
            heard_alone(heard_alone(box, 1), 2)


def held_beside_fresh():
    """A held short message keeps no fresh long one from asking, nor a held long one a fresh short one; once committed, the short one asks first."""
    for first, second, name in ((10, 100, "short"), (100, 10, "long")):
        for hold_first in (True, False):
            box = begin(2, 1, 0)
            box = offered(held(box, first), second) if hold_first else held(offered(box, second), first)
            for pick in (2, 1, 1):
                box = heard_alone(box, pick)
            box = committed(box, name)
            for pick in (1, 2, 1, 1):
                box = heard_alone(box, pick)
    for order in (RECORDS, RECORDS[::-1]):
        box = held(held(begin(2, 2, 0), 100), 10)
        for name in order:
            box = committed(box, name)
        for pick in (2, 1, 1, 2):
            box = heard_alone(box, pick)
    # the long one is fresh and waits for a resolution; the short one is committed meanwhile, and asks first
    box = heard_alone(having(("held", 1), ("fresh", 3), RQ1=2), 1)
    box = committed(box, "short")
    for pick in (1, 2, 1, 2):
        box = heard_alone(box, pick)


def other_record_lives():
    """One record is held from the first slot on, through every turn, while a message of the other lives through all its conditions; then it is committed."""
    word, collide, twice = WORDS[0], (127, 0), [(95, 1), (111, 1)]
    for first, second, name, total in ((48, 97, "short", 3), (97, 48, "long", 1)):
        box = offered(held(begin(2, 1, 0), first), second)
        for row, pick in (
            ([collide, collide], 1), (SILENT, 1), (SILENT, 2), ([collide, (127, total)], 1), (twice, 1), ([(word, total), EMPTY], 1), ([(95, 2), EMPTY], 1),
        ):
            box = slotted(box, row, pick)
        box = calendared(box, owning(p7=0, p8=923))
        for _ in range(7):
            box = slotted(box, SILENT, 1)
        box = committed(box, name)
        for pick in (2, 1, 1, 1, 1):
            box = heard_alone(box, pick)


def lives_of_held():
    """Held, then slots, then committed; withdrawn and held again; committed or withdrawn a second time; committed in a slot that is owned."""
    for size, name in ((48, "short"), (100, "long")):
        box = slotted(slotted(held(begin(2, 1, 0), size), SILENT, 1), [(95, 1), EMPTY], 2)
        box = committed(box, name)
        for call in (committed, withdrawn):
            box = call(box, name)
        for pick in (2, 1, 1, 1, 1):
            box = heard_alone(box, pick)
        box = held(committed(box, name), size)
        box = slotted(withdrawn(box, name), SILENT, 1)
        for call in (withdrawn, committed):
            box = call(box, name)
        box = withdrawn(held(box, size), name)
        box = committed(held(box, size - 1), name)
        for pick in (1, 2, 1, 1, 1):
            box = heard_alone(box, pick)
        offered(withdrawn(held(box, size), name), size)
    for size, name in ((10, "short"), (49, "long")):
        box = calendared(held(begin(2, 1, 0), size), owning(p0=0, p1=0, p2=9, p3=0))
        box = committed(slotted(box, SILENT, 1), name)
        for pick in (2, 1, 1, 1, 1):
            box = heard_alone(box, pick)
    # a refused slot and a refused calendar leave it
    box = held(held(begin(2, 1, 0), 1), 49)
    for row, pick in (([EMPTY], 1), (SILENT, 3), ([(4096, 0), EMPTY], 1), ([(95, 0), EMPTY], 1), ([EMPTY, (0, 1)], 1), ([(63, 1), EMPTY], 1)):
        box = slotted(box, row, pick)
    for entries in (owning(p0=924), FULL):
        box = calendared(box, entries)


def held_and_committed_at_once():
    """A hold followed by its commit, and an offer in its place: the same slots, and the same record."""
    for size, name, boxes in ((48, "short", [(UNUSED, long) for long in LONG_ONES]), (49, "long", [(short, UNUSED) for short in SHORT_ONES])):
        for short, long in boxes:
            box = given(*QUEUES, short, long)
            one, other = offered(box, size), committed(held(box, size), name)
            assert one == other


def held_beside_a_listener():
    """Holds, commits and a withdrawal between the rows of a recording; a listener hears the same rows."""
    recording = [EMPTY, EMPTY, (127, 1), EMPTY, (63, 1), EMPTY, EMPTY, (63, 3), (95, 1), EMPTY, EMPTY]
    box = held(offered(begin(2, 1, 0), 10), 100)
    ear = listening(2, 1)
    for place, pick in ((0, 1), (2, 1), (4, 2)):
        box = in_step(box, ear, recording, place, pick)
    box = held(committed(box, "long"), 1)
    for place, pick in ((0, 2), (6, 1)):
        box = in_step(box, ear, recording, place, pick)
    box = withdrawn(box, "short")
    for place, pick in ((8, 1), (9, 1), (9, 1), (9, 1)):
        box = in_step(box, ear, recording, place, pick)


def main():
    starts()
    offers()
    outside_limits()
    rows_refused()
    limits_passed()
    own_hearing()
    immediate_success()
    collision_then_urgent()
    long_preempted()
    second_in_line()
    recordings()
    lone_request_clicked()
    settings()
    outside_calendar_limits()
    owner_in_every_condition()
    streams()
    streams_beside()
    every_pair()
    pairs_heard_otherwise()
    own_hearing_of_two()
    data_of_two()
    lives_of_two()
    lives_of_two_beside()
    short_among_long()
    own_among_long()
    own_not_alone()
    holds()
    calls_in_every_pair()
    outside_limits_of_holds()
    own_hearing_of_held()
    held_in_every_turn()
    held_beside_fresh()
    other_record_lives()
    lives_of_held()
    held_and_committed_at_once()
    held_beside_a_listener()


if __name__ == "__main__":
    sys.exit(main())
