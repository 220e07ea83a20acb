#!/usr/bin/env python3
"""What crates/channel_run must write, made from the papers' sentences and not from the Rattle programs.

A table is a list of boxes (station.py) beside a wire. It is sound if what the paper says of it holds place by place. A slot is each box's own slot on
the row that the wire has; the requests that the boxes answer make the new row. In an owned slot the box that the turn names sends its stream. Who sends in the coming
slots comes of such slots, on records from which all but the messages in the urgent and the long queue is gone.
"""
import copy
import itertools

from station import (
    FREE, NOBODY, RECORDS, UNUSED, WORDS, Refusal, alone, blank, commit, fits, hold, nothing, offer, owned_text, owners_of, owning, put, put_record, read, slot, withdraw,
)


# ---- sound tables

def messages(boxes):
    """Each message record of each box: the box's index and the condition."""
    return [(box["index"], box[name]) for box in boxes for name in RECORDS]


def places_of(boxes, kind):
    """The places that messages of a kind stand at."""
    found = []
    for _, condition in messages(boxes):
        if condition[0] == kind == "urgent":
            found.append(condition[1])
        if condition[0] == kind == "long":
            found += range(condition[1], condition[1] + condition[2])
    return sorted(found)


def minislot_of(boxes, g, j):
    word = count = 0
    for index, condition in messages(boxes):
        if condition[:3] == ("asked", g, j):
            word |= WORDS[index]
            count |= condition[3]
    return (word, count)


def sound(boxes, wire):
    if len({box["index"] for box in boxes}) < len(boxes) or not all(fits(box) for box in boxes):
        return False
    first = boxes[0]
    if any(box[name] != first[name] for box in boxes for name in ("m", "n", "next", "H", "N", "RQ", "Open", "calendar", "position")):
        return False
    if any(owner not in [box["index"] for box in boxes] for owner in owners_of(first["calendar"])):
        return False
    if places_of(boxes, "urgent") != list(range(1, first["H"] + 1)) or places_of(boxes, "long") != list(range(1, first["N"] + 1)):
        return False
    for g in range(1, first["n"] + 1):
        for place in range(1, first["RQ"][g - 1] + 1):
            if len({index for index, condition in messages(boxes) if condition[:3] == ("resolving", g, place)}) < 2:
                return False
    return all(wire[g - 1][j - 1] == minislot_of(boxes, g, j) for g in range(1, 9) for j in range(1, 9))


# ---- the calls

class Channel:
    def __init__(self, boxes, wire):
        self.boxes, self.wire = boxes, wire

    def with_box(self, k, box):
        other = copy.deepcopy(self)
        other.boxes[k] = box
        return other

    def with_minislot(self, g, j, word, count):
        other = copy.deepcopy(self)
        other.wire[g][j] = (word, count)
        return other

    def with_count(self, count):
        """A table of another number of records: those that it has first, then unused ones."""
        return Channel(copy.deepcopy(self.boxes[:count]) + [nothing() for _ in range(count - len(self.boxes))], copy.deepcopy(self.wire))

    def check(self):
        if not 1 <= len(self.boxes) <= 64:
            raise Refusal(14)
        if not sound(self.boxes, self.wire):
            raise Refusal(18)


def silent():
    return [[(0, 0)] * 8 for _ in range(8)]


def channel_start(ch, m, n, indexes):
    if not (2 <= m <= 8 and 1 <= n <= 8):
        raise Refusal(5)
    if not 1 <= len(ch.boxes) <= 64 or len(indexes) != len(ch.boxes):
        raise Refusal(14)
    if any(index > 923 for index in indexes):
        raise Refusal(8)
    if len(set(indexes)) < len(indexes):
        raise Refusal(15)
    return Channel([blank(m, n, index) for index in indexes], silent())


def channel_write(ch, call, index, argument):
    """A box's own offer, hold, commit or withdrawal, on the box of this index."""
    ch.check()
    for k, box in enumerate(ch.boxes):
        if box["index"] == index:
            total, after = call(box, argument)
            return total, ch.with_box(k, after)
    raise Refusal(16)


def channel_slot(ch, picks):
    ch.check()
    first = ch.boxes[0]
    if len(picks) != len(ch.boxes):
        raise Refusal(17)
    if any(not 1 <= pick <= first["m"] for pick in picks):
        raise Refusal(11)
    return stepped(ch, picks)


def stepped(ch, picks):
    """A slot of a sound table, with picks that are as they should."""
    first = ch.boxes[0]
    g = first["next"]
    row = ch.wire[g - 1][: first["m"]]
    results = [slot(box, row, pick) for box, pick in zip(ch.boxes, picks)]
    after = Channel([box for _, box in results], copy.deepcopy(ch.wire))
    after.wire[g - 1] = [minislot_of(after.boxes, g, j) for j in range(1, 9)]
    for (answer, box), pick in zip(results, picks):
        assert answer[1] in (0, pick)
    turn = results[0][0][0]
    sent = [(box["index"], answer[2]) for answer, box in results if answer[2] or turn == "owned,%d" % box["index"]]
    heard = [read(word, count) for word, count in row]
    of_one_slot = sum(what[0] == "single" and what[2] == 1 for what in heard)
    delivered = 1 if first["Open"][g - 1] and of_one_slot == 1 and ("collide",) not in heard else 0
    if turn in ("urgent", "long"):
        delivered += len(sent)
    lone = sent[0] if len(sent) == 1 else (0, 0)
    return (turn, len(sent), *lone, delivered), after


def channel_calendar(ch, entries):
    ch.check()
    if any(entry not in [FREE] + [box["index"] for box in ch.boxes] for entry in entries):
        raise Refusal(20)
    if FREE not in entries:
        raise Refusal(21)
    return Channel([dict(box, calendar=list(entries)) for box in ch.boxes], copy.deepcopy(ch.wire))


def quieted(ch):
    """The table without the messages outside H and N, which leave their records free, their resolution places gone and the wire silent."""
    def kept(condition):
        return condition if condition[0] in ("urgent", "long") else UNUSED

    return Channel([dict(box, RQ=[0] * 8, **{name: kept(box[name]) for name in RECORDS}) for box in ch.boxes], silent())


def channel_coming(ch, w):
    """Who sends in each of the next w slots, 65,535 for nobody, and the number of slots until H and N are 0: slots of the quieted table, whose picks go round m."""
    ch.check()
    if not 1 <= w <= 1024:
        raise Refusal(23)
    run, senders, until = quieted(ch), [], None
    for k in itertools.count():
        if k % 64 == 0 or k == w:
            run.check()
        if until is None and run.boxes[0]["H"] == 0 and run.boxes[0]["N"] == 0:
            until = k
        if until is not None and k >= w:
            return senders[:w], until
        answer, run = stepped(run, [(7 * k + i * i) % run.boxes[0]["m"] + 1 for i in range(len(run.boxes))])
        assert answer[1] <= 1
        senders.append(answer[2] if answer[1] == 1 else 65535)


# ---- what is written

def put_table(ch):
    put("table", len(ch.boxes))
    for box in ch.boxes:
        put_record(box)
    for g, row in enumerate(ch.wire, start=1):
        if row != [(0, 0)] * 8:
            put("row", g, *[x for minislot in row for x in minislot])


def begun(ch, m, n, indexes):
    put("start", m, n, len(indexes))
    try:
        ch = channel_start(ch, m, n, indexes)
        put("ready")
    except Refusal as refused:
        put("refused", refused)
    put_table(ch)
    return ch


def written(ch, call, index, argument, answer):
    """An offer, a hold, a commit or a withdrawal; what it answers has this word before it."""
    try:
        total, ch = channel_write(ch, call, index, argument)
        put(answer, total)
    except Refusal as refused:
        put("refused", refused)
    put_table(ch)
    return ch


def offered(ch, index, size):
    put("offer", index, size)
    return written(ch, offer, index, size, "taken")


def held(ch, index, size):
    put("hold", index, size)
    return written(ch, hold, index, size, "held")


def committed(ch, index, name):
    put("commit", index, RECORDS.index(name) + 1)
    return written(ch, commit, index, name, "committed")


def withdrawn(ch, index, name):
    put("withdraw", index, RECORDS.index(name) + 1)
    return written(ch, withdraw, index, name, "withdrawn")


def slotted(ch, *picks):
    put("slot", len(picks))
    try:
        answer, ch = channel_slot(ch, picks)
        put("went", *answer)
    except Refusal as refused:
        put("refused", refused)
    put_table(ch)
    return ch


def foreseen(ch, w):
    """Who sends in the next w slots; then the list that was lent, which a refusal leaves with the numbers that it had."""
    put("coming", w)
    entries = upward(1000, w)
    try:
        entries, until = channel_coming(ch, w)
        put("until", until)
    except Refusal as refused:
        put("refused", refused)
    put("list", *entries)


def show(ch):
    """The position and the calendar of each box."""
    for box in ch.boxes:
        print(owned_text(box["position"], box["calendar"]))


def calendared(ch, entries):
    put("calendar", *entries)
    try:
        ch = channel_calendar(ch, entries)
        put("set")
    except Refusal as refused:
        put("refused", refused)
    put_table(ch)
    return ch


def slot6(ch, p, q, r):
    return slotted(ch, p, q, r, p, q, r)


# ---- tables that calls are tried on

def box_of(index, short=UNUSED, long=UNUSED, H=1, N=3, RQ1=1, RQ2=0, m=2, nxt=1, open1=True):
    box = blank(m, 2, index)
    box.update(next=nxt, H=H, N=N, RQ=[RQ1, RQ2] + [0] * 6, Open=[open1] + [True] * 7, short=short, long=long)
    return box


def base():
    """Six boxes with at most one message each, in every condition but fresh."""
    conditions = (("urgent", 1), ("long", 1, 3, 3), ("resolving", 1, 1, 1), ("resolving", 1, 1, 2), ("asked", 2, 1, 5), UNUSED)
    return Channel([box_of(100 * k, *alone(condition)) for k, condition in enumerate(conditions, start=1)], silent()).with_minislot(1, 0, WORDS[500], 5)


def upward(first, count):
    return list(range(first, first + count))


EMPTY_TABLE = Channel([], silent())


def starts_refused():
    ch = base()
    put_table(ch)
    for m, n in ((1, 1), (9, 1), (2, 0), (2, 9)):
        begun(ch, m, n, upward(900, 65))
    begun(ch, 2, 1, upward(921, 5))
    begun(ch, 2, 1, upward(921, 7))
    begun(ch.with_count(0), 2, 1, [])
    begun(ch, 2, 1, upward(919, 6))
    begun(ch, 2, 1, [1, 2, 3, 4, 2, 5])
    begun(ch, 2, 1, [1, 2, 3, 924, 2, 5])


def starts():
    begun(base(), 3, 2, upward(918, 6))
    begun(EMPTY_TABLE.with_count(64), 8, 8, upward(100, 64))
    begun(EMPTY_TABLE.with_count(65), 8, 8, upward(100, 65))
    begun(EMPTY_TABLE.with_count(65), 8, 8, upward(100, 64))
    begun(EMPTY_TABLE.with_count(1), 2, 1, [923])


def offers():
    """14, 16, 10, and 9 by the record that the length picks."""
    ch = base()
    offered(ch, 500, 0)
    offered(ch, 50, 49)
    offered(ch, 100, 0)
    offered(ch, 600, 0)
    offered(ch, 600, 12241)
    offered(offered(ch, 600, 12240), 600, 1)
    offered(ch.with_count(0), 50, 0)
    offered(ch.with_count(65), 50, 0)
    for index in (100, 200, 300, 400, 500):
        offered(offered(ch, index, 48), index, 49)


def slots_refused():
    ch = base()
    slotted(ch)
    slotted(ch, 0, 1, 1, 1, 1)
    slotted(ch, 1, 1, 1, 1, 1, 1, 1)
    slot6(ch, 1, 2, 3)
    slot6(ch, 0, 1, 1)
    slotted(ch.with_count(0))
    slotted(ch.with_count(65), 0, 1, 1, 1, 1)


def slotted_unsound(ch):
    """18 by a slot that would be refused by 17, and of the coming slots, none of them and two."""
    slotted(ch)
    foreseen(ch, 0)
    foreseen(ch, 2)


def unsound(ch):
    put_table(ch)
    offered(ch, 50, 0)
    slotted_unsound(ch)


def unsound_tables():
    """18, by one clause at a time: records and their queues, a record's kind, what two records share, the wire."""
    ch = base()
    for box in (
        box_of(200), box_of(924), box_of(600, H=2), box_of(600, N=4), box_of(600, RQ1=2), box_of(600, RQ2=1), box_of(600, m=3), box_of(600, nxt=2), box_of(600, open1=False),
    ):
        unsound(ch.with_box(5, box))
    for k, index, condition in (
        (0, 100, UNUSED), (5, 600, ("urgent", 1)),
        (5, 600, ("long", 3, 1, 2)), (1, 200, ("long", 1, 2, 3)), (1, 200, ("long", 2, 2, 3)),
        (3, 400, UNUSED), (3, 400, ("resolving", 2, 1, 1)),
        (4, 500, ("asked", 1, 1, 5)), (4, 500, ("asked", 2, 2, 5)), (4, 500, ("asked", 2, 1, 4)), (5, 600, ("asked", 2, 1, 5)),
    ):
        unsound(ch.with_box(k, box_of(index, *alone(condition))))
    # a message in a record of the other kind, its queue and the wire being as they should
    for k, index, short, long in (
        (5, 600, ("fresh", 2), UNUSED), (5, 600, UNUSED, ("fresh", 1)), (0, 100, UNUSED, ("urgent", 1)), (1, 200, ("long", 1, 3, 3), UNUSED),
        (2, 300, UNUSED, ("resolving", 1, 1, 1)), (3, 400, ("resolving", 1, 1, 2), UNUSED), (4, 500, ("asked", 2, 1, 5), UNUSED),
    ):
        unsound(ch.with_box(k, box_of(index, short, long)))
    unsound(ch.with_box(4, box_of(500, UNUSED, ("asked", 2, 1, 1))).with_minislot(1, 0, WORDS[500], 1))
    # a second message at a place that its queue has not, or asked in a group or minislot that the channel has not
    for k, index, short, long in (
        (1, 200, ("urgent", 2), ("long", 1, 3, 3)), (1, 200, ("resolving", 1, 2, 1), ("long", 1, 3, 3)),
        (0, 100, ("urgent", 1), ("resolving", 3, 1, 2)), (0, 100, ("urgent", 1), ("long", 4, 1, 2)),
    ):
        unsound(ch.with_box(k, box_of(index, short, long)))
    unsound(ch.with_box(1, box_of(200, ("asked", 3, 1, 1), ("long", 1, 3, 3))).with_minislot(2, 0, WORDS[200], 1))
    unsound(ch.with_box(0, box_of(100, ("urgent", 1), ("asked", 1, 3, 2))).with_minislot(0, 2, WORDS[100], 2))
    # the two of a box at one resolution place, with another box and without; and asked in one group, in two minislots and in one
    both = ch.with_box(2, box_of(300, ("resolving", 1, 1, 1), ("resolving", 1, 1, 2)))
    unsound(both)
    unsound(both.with_box(3, box_of(400)))
    unsound(ch.with_box(4, box_of(500, ("asked", 2, 2, 1), ("asked", 2, 1, 5))).with_minislot(1, 1, WORDS[500], 1))
    unsound(ch.with_box(4, box_of(500, ("asked", 2, 1, 1), ("asked", 2, 1, 5))))
    # asked in two groups: the wire has one of the two, or the one's total where the other was asked
    both = ch.with_box(4, box_of(500, ("asked", 1, 2, 1), ("asked", 2, 1, 5)))
    unsound(both)
    unsound(both.with_minislot(0, 1, WORDS[500], 5))
    unsound(both.with_minislot(0, 1, WORDS[500], 1).with_minislot(1, 0, 0, 0))
    for minislot in ((1, 0, 0, 0), (1, 0, 63, 5), (0, 1, 63, 1), (0, 1, 0, 1), (1, 2, 63, 1), (2, 0, 63, 1), (7, 7, 65535, 255)):
        unsound(ch.with_minislot(*minislot))


def served():
    ch = slot6(base(), 1, 2, 1)
    ch = slot6(ch, 2, 1, 1)
    ch = offered(ch, 600, 48)
    for picks in ((1, 1, 2), (2, 2, 1), (1, 2, 2), (1, 1, 1), (2, 1, 2), (1, 2, 1), (2, 1, 1), (1, 1, 2), (1, 1, 2)):
        ch = slot6(ch, *picks)


def from_the_start():
    ch = begun(EMPTY_TABLE.with_count(2), 2, 1, [7, 8])
    ch = offered(ch, 7, 1)
    ch = slotted(ch, 1, 1)
    ch = slotted(ch, 1, 1)
    ch = offered(ch, 7, 1)
    ch = offered(ch, 8, 97)
    for picks in ((2, 2), (1, 2), (1, 1), (1, 1), (1, 1), (1, 1), (1, 1)):
        ch = slotted(ch, *picks)


# ---- calendars

EACH = [100 * (p % 6 + 1) for p in range(24)]  # no position free
MOST = EACH[:11] + [FREE] + EACH[12:]


def everywhere(ch, position, entries):
    """The same boxes, all with this position and calendar, whatever they are."""
    return Channel([dict(box, position=position, calendar=list(entries)) for box in ch.boxes], ch.wire)


def calendars_set():
    """1, 23 and 0 owned positions, again, and at a position that is not the first; of 64 boxes."""
    ch = base()
    show(ch)
    for entries in (owning(p5=600), MOST, NOBODY, owning(p0=100, p23=600)):
        ch = calendared(ch, entries)
        show(ch)
    ch = slot6(ch, 1, 2, 1)
    show(ch)
    ch = calendared(ch, owning(p0=600, p1=200))
    show(ch)
    ch = slot6(ch, 2, 1, 1)
    show(ch)
    ch = begun(EMPTY_TABLE.with_count(64), 8, 8, upward(100, 64))
    ch = calendared(ch, owning(p0=100, p23=163))
    show(ch)
    calendared(ch, owning(p0=99))


def calendars_refused():
    """14, 20 and 21, each where a later number would come."""
    ch = everywhere(base(), 9, owning(p5=600))
    for entries in (
        owning(p0=50), owning(p23=50), owning(p3=0), owning(p4=924), owning(p5=65534), owning(p5=600, p6=601), EACH[:23] + [50], [924] + EACH[1:],
        EACH, [600] * 24,
    ):
        calendared(ch, entries)
    show(ch)
    calendared(ch.with_count(0), EACH[:23] + [50])
    calendared(ch.with_count(65), EACH[:23] + [50])


def unsound_calendars():
    """18 by the calendar or the position, tried by each call where a later number would come; and 18 by other clauses, of a calendar set."""
    def tried(ch):
        show(ch)
        offered(ch, 50, 0)
        slotted_unsound(ch)
        calendared(ch, EACH[:23] + [50])

    for position, entries in ((24, NOBODY), (255, NOBODY), (0, owning(p7=50)), (7, owning(p23=0)), (0, owning(p7=924)), (3, EACH)):
        tried(everywhere(base(), position, entries))
    shared = owning(p7=600, p9=100)
    ch = everywhere(base(), 7, shared)
    for k, position, entries in (
        (5, 7, NOBODY), (0, 7, NOBODY), (5, 7, owning(p7=600, p9=200)), (3, 7, owning(p7=600, p10=100)), (5, 7, owning(p7=600, p9=100, p23=50)),
        (5, 8, shared), (0, 6, shared), (5, 24, shared), (2, 7, owning(p7=600, p9=924)), (4, 7, EACH),
    ):
        tried(ch.with_box(k, dict(ch.boxes[k], position=position, calendar=entries)))
    ch = base()
    for other in (
        ch.with_box(5, box_of(200)), ch.with_box(5, box_of(600, H=2)), ch.with_box(0, box_of(100)), ch.with_box(3, box_of(400)), ch.with_minislot(1, 0, 0, 0),
        ch.with_box(5, box_of(600, ("fresh", 2))), ch.with_box(0, box_of(100, UNUSED, ("urgent", 1))), ch.with_box(2, box_of(300, ("resolving", 1, 1, 1), ("resolving", 1, 1, 2))),
        ch.with_box(4, box_of(500, ("asked", 2, 1, 1), ("asked", 2, 1, 5))),
    ):
        calendared(other, NOBODY)


def streams_served():
    """Each box's stream in its turn, round the end of the calendar, while the messages go on; then the calendar is changed, and cleared."""
    ch = everywhere(base(), 21, owning(p21=100, p22=200, p23=300, p0=400, p1=500, p2=600))
    for picks in ((1, 2, 1), (2, 1, 1), (1, 1, 2)):
        ch = slot6(ch, *picks)
    ch = offered(ch, 600, 48)
    for picks in ((2, 2, 1), (1, 2, 2), (1, 1, 1), (2, 1, 2)):
        ch = slot6(ch, *picks)
    show(ch)
    ch = calendared(ch, owning(p4=600, p6=600, p8=600))
    for picks in ((1, 2, 1), (2, 1, 1), (1, 1, 2), (1, 1, 2)):
        ch = slot6(ch, *picks)
    ch = slot6(ch, 0, 1, 1)
    ch = slotted(ch, 1)
    ch = slot6(ch, 1, 2, 2)
    show(ch)
    ch = calendared(ch, NOBODY)
    for picks in ((1, 1, 1), (2, 1, 2), (1, 1, 1), (2, 2, 2), (1, 1, 1), (1, 1, 1)):
        ch = slot6(ch, *picks)
    show(ch)


def streams_from_the_start():
    """A calendar set between an open slot and its row, whose success stays; requests made in an owned slot, which send no data and have no success."""
    ch = begun(EMPTY_TABLE.with_count(2), 2, 1, [7, 8])
    ch = offered(ch, 7, 1)
    ch = slotted(ch, 1, 1)
    ch = calendared(ch, owning(p1=8, p2=7, p4=7))
    ch = slotted(ch, 1, 1)
    ch = offered(ch, 7, 1)
    ch = slotted(ch, 1, 1)
    ch = offered(ch, 8, 97)
    ch = slotted(ch, 1, 2)
    for picks in ((1, 1), (1, 1), (1, 1), (1, 1)):
        ch = slotted(ch, *picks)
    ch = calendared(ch, owning(p8=8, p9=8))
    ch = offered(ch, 7, 1)
    ch = offered(ch, 8, 1)
    ch = slotted(ch, 2, 1)
    ch = calendared(ch, NOBODY)
    for picks in ((1, 1), (1, 1), (1, 1)):
        ch = slotted(ch, *picks)
    show(ch)


# ---- two messages a box

def doubled():
    """Eight boxes, seven of them with two messages: in an urgent and the long queue, in two resolution queues, at two places of one, asked in two groups, fresh."""
    conditions = (
        (("urgent", 1), ("long", 1, 3, 3)), (("urgent", 2), ("resolving", 1, 1, 4)), (("resolving", 1, 1, 1), ("resolving", 1, 2, 2)),
        (("resolving", 1, 2, 1), ("resolving", 2, 1, 3)), (("asked", 1, 1, 1), ("asked", 2, 1, 5)), (("resolving", 2, 1, 1), ("long", 4, 2, 7)),
        (("fresh", 1), ("fresh", 2)), (("asked", 2, 2, 1), UNUSED),
    )
    ch = Channel([doubled_box(k, *both) for k, both in enumerate(conditions)], silent())
    return ch.with_minislot(0, 0, WORDS[500], 1).with_minislot(1, 0, WORDS[500], 5).with_minislot(1, 1, WORDS[800], 1)


def doubled_box(k, short, long):
    return box_of(100 * k + 100, short, long, H=2, N=5, RQ1=2, RQ2=1)


def offers_to_two():
    """16, 10, and 9 of each kind, on that table; then the box that has a short message takes a long one."""
    ch = doubled()
    put_table(ch)
    for index, size in ((50, 0), (100, 0), (300, 12241), (100, 1), (100, 49), (700, 48), (700, 12240), (800, 48)):
        offered(ch, index, size)
    offered(offered(ch, 800, 49), 800, 50)


def unsound_with_two():
    """18: a resolution place of one box alone, an urgent place of two messages, the two of a box at one place."""
    ch = doubled()
    for k, short, long in (
        (3, UNUSED, ("resolving", 2, 1, 3)), (5, UNUSED, ("long", 4, 2, 7)), (5, ("urgent", 2), ("long", 4, 2, 7)), (2, ("resolving", 1, 2, 1), ("resolving", 1, 2, 2)),
    ):
        unsound(ch.with_box(k, doubled_box(k, short, long)))


def served_doubled():
    """Two messages a box: in one resolution queue one after the other; one that leaves by the urgent queue while the other asks, or waits in the long queue."""
    ch = doubled()
    for picks in ((1, 1, 1, 1, 1, 1, 2, 2), (1, 2, 1, 1, 1, 2, 1, 1), (1, 1, 1, 2, 1, 1, 2, 2), (1, 2, 1, 2, 1, 1, 1, 1)):
        ch = slotted(ch, *picks)
    ch = offered(ch, 800, 97)
    ch = offered(ch, 100, 1)
    for picks in ((1, 2, 1, 2, 1, 2, 1, 2), (2, 2, 1, 1, 1, 2, 1, 1), (1, 1, 2, 2, 1, 1, 2, 2), (1, 2, 1, 2, 1, 2, 1, 2), *[[1] * 8] * 3):
        ch = slotted(ch, *picks)


def both_from_the_start():
    """Two boxes with two messages each: the short ones ask in group 1 and collide, the long ones in group 2; the short ones overtake in the urgent queue."""
    ch = begun(EMPTY_TABLE.with_count(2), 2, 2, [7, 8])
    for index, size in ((7, 97), (7, 1), (8, 49), (8, 48)):
        ch = offered(ch, index, size)
    ch = slotted(ch, 1, 1)
    ch = slotted(ch, 1, 2)
    for index, size in ((7, 48), (8, 50), (7, 0), (8, 12241)):
        ch = offered(ch, index, size)
    for picks in ((1, 2), (1, 1), (1, 1), (1, 1)):
        ch = slotted(ch, *picks)
    ch = offered(ch, 7, 20)
    for picks in ((2, 1), (1, 1), (1, 1), (1, 1), (1, 1), (1, 1), (1, 1)):
        ch = slotted(ch, *picks)


def streams_beside_two_messages():
    """Owned slots of boxes with two messages: nothing of either is sent, and the requests go on."""
    ch = everywhere(doubled(), 5, owning(p5=100, p6=700, p8=300))
    for picks in ((1, 1, 1, 1, 1, 1, 2, 2), (1, 2, 1, 1, 1, 2, 1, 1), (1, 1, 1, 2, 1, 1, 2, 2), (1, 2, 1, 2, 1, 1, 1, 1), (1, 2, 1, 2, 1, 2, 1, 2)):
        ch = slotted(ch, *picks)
    show(ch)


# ---- one short request among long ones

def short_among_long():
    """Five boxes. A short request among long ones is delivered as its row is heard; then there are two short ones, which are queued, as is one beside a collision,
    and one of that collision, among long ones again, after the slot that resolved it."""
    ch = begun(EMPTY_TABLE.with_count(5), 4, 1, upward(7, 5))
    for offers, first, others in (
        (((7, 1), (8, 49), (9, 97)), (2, 1, 4, 3, 3), [(1, 1, 1, 1, 1)] * 6),
        (((7, 48), (8, 50), (9, 1)), (1, 2, 3, 4, 4), [(1, 1, 1, 1, 1)] * 4),
        (((7, 1), (8, 49), (9, 96), (10, 1), (11, 60)), (4, 3, 2, 2, 2), [(1, 1, 4, 2, 3)] * 9),
    ):
        for index, size in offers:
            ch = offered(ch, index, size)
        for picks in (first, *others):
            ch = slotted(ch, *picks)


# ---- held messages

def with_held():
    """Nine boxes with a held message or two, beside a message in each condition of either record; two of them are on the wire."""
    conditions = (
        (("urgent", 1), ("held", 5)), (("held", 1), ("long", 1, 3, 3)), (("resolving", 1, 1, 1), ("held", 2)), (("held", 1), ("resolving", 1, 1, 2)),
        (("held", 1), ("asked", 2, 1, 5)), (("held", 1), ("held", 255)), (("fresh", 1), ("held", 3)), (("held", 1), ("fresh", 2)), (("asked", 1, 2, 1), ("held", 4)),
    )
    ch = Channel([box_of(100 * k, *both) for k, both in enumerate(conditions, start=1)], silent())
    return ch.with_minislot(1, 0, WORDS[500], 5).with_minislot(0, 1, WORDS[900], 1)


HELD = ((100, "long"), (200, "short"), (300, "long"), (400, "short"), (500, "short"), (600, "short"), (600, "long"), (700, "long"), (800, "short"), (900, "long"))


def holds():
    """14, 16, 10, and 9 by the record that the length picks, each where later numbers would come; then a box whose two records are free holds a message in each."""
    ch = base()
    for index, size in ((50, 0), (50, 49), (50, 12241), (100, 0), (200, 12241), (500, 0), (600, 0), (600, 12241), (100, 48), (200, 49), (300, 1), (400, 12240), (500, 50)):
        held(ch, index, size)
    for count in (0, 65):
        held(ch.with_count(count), 50, 0)
    ch = held(ch, 600, 12240)
    for call, size in ((held, 49), (offered, 49), (held, 12241), (held, 48), (held, 1), (offered, 1), (held, 0)):
        ch = call(ch, 600, size)
    for index in (100, 200, 300, 400, 500):
        held(held(base(), index, 48), index, 49)


def commits_refused():
    """14, 16, and 22 of each record that isn't held, by a commit and by a withdrawal."""
    ch = base()
    for count in (0, 65):
        for call in (committed, withdrawn):
            call(ch.with_count(count), 50, "short")
    for name in RECORDS:
        for call in (committed, withdrawn):
            for index in (50, 100, 200, 300, 400, 500, 600):
                call(ch, index, name)


def calls_beside_held():
    """On a sound table with held messages: 9 by a hold and by an offer, 22 of the other records, and each held message committed, and withdrawn. The wire stays."""
    ch = with_held()
    put_table(ch)
    for index, name in HELD:
        for call in (held, offered):
            call(ch, index, 48 if name == "short" else 49)
        for call in (committed, withdrawn):
            call(ch, index, name)
        if index != 600:
            other = RECORDS[1 - RECORDS.index(name)]
            for call in (committed, withdrawn):
                call(ch, index, other)
    for call in (committed, withdrawn):
        call(call(ch, 600, "short"), 600, "short")
        call(call(ch, 600, "long"), 600, "short")


def tried_unsound(ch):
    """18 by each call, where a later number would come: 16 and 10 or 22, 17, 20."""
    put_table(ch)
    held(ch, 50, 0)
    for name in RECORDS:
        committed(ch, 50, name)
        withdrawn(ch, 50, name)
    offered(ch, 50, 0)
    slotted_unsound(ch)
    calendared(ch, EACH[:23] + [50])


def unsound_by_held():
    """18 by a held message: its total is not its kind's, or a message in a queue or on the wire has become held; then 18 by other clauses, where the calls on a
    held message would go through; and a table that is sound since a held message has no place anywhere."""
    ch = base()
    for short, long in (
        (("held", 0), UNUSED), (("held", 2), UNUSED), (("held", 255), UNUSED), (UNUSED, ("held", 0)), (UNUSED, ("held", 1)), (("held", 1), ("held", 1)), (("held", 2), ("held", 2)),
    ):
        tried_unsound(ch.with_box(5, box_of(600, short, long)))
    for k, index, short, long in (
        (0, 100, ("held", 1), UNUSED), (1, 200, UNUSED, ("held", 3)), (2, 300, ("held", 1), UNUSED), (3, 400, UNUSED, ("held", 2)), (4, 500, UNUSED, ("held", 5)),
        (0, 100, ("held", 1), ("urgent", 1)), (1, 200, ("long", 1, 3, 3), ("held", 3)),
    ):
        tried_unsound(ch.with_box(k, box_of(index, short, long)))
    ch = ch.with_box(5, box_of(600, ("held", 1), ("held", 5)))
    tried_unsound(ch.with_minislot(0, 0, WORDS[600], 1))
    tried_unsound(ch.with_minislot(1, 0, WORDS[500] | WORDS[600], 5))
    for other in (
        ch.with_box(4, box_of(600, UNUSED, ("asked", 2, 1, 5))), ch.with_box(0, box_of(100)), ch.with_box(3, box_of(400)), ch.with_box(0, box_of(100, ("urgent", 1), H=2)),
        ch.with_minislot(1, 0, 0, 0), everywhere(ch, 0, owning(p7=50)), everywhere(ch, 24, NOBODY),
    ):
        held(other, 100, 49)
        for name in RECORDS:
            committed(other, 600, name)
            withdrawn(other, 600, name)
    ch = base().with_box(4, box_of(500, UNUSED, ("held", 5))).with_minislot(1, 0, 0, 0)
    put_table(ch)
    for call in (committed, withdrawn):
        slotted(call(ch, 500, "long"), 1, 2, 1, 1, 2, 1)


def served_with_held():
    """That table in slots: the held messages stay while the others go on, and are committed or withdrawn on the way, between a request and its row too."""
    ch = with_held()
    for picks in ((1, 1, 1, 2, 1, 1, 2, 2, 2), (1, 2, 1, 1, 1, 2, 1, 1, 2)):
        ch = slotted(ch, *picks)
    ch = committed(ch, 500, "short")
    ch = committed(ch, 100, "long")
    for picks in ((2, 1, 2, 2, 1, 1, 1, 1, 1), (1, 2, 1, 1, 2, 2, 2, 1, 2)):
        ch = slotted(ch, *picks)
    ch = withdrawn(ch, 300, "long")
    ch = committed(ch, 900, "long")
    ch = offered(ch, 300, 49)
    for picks in ((1, 1, 2, 1, 1, 2, 2, 1, 2), (2, 1, 1, 2, 1, 1, 2, 1, 1), (1, 1, 1, 2, 2, 2, 1, 2, 2)):
        ch = slotted(ch, *picks)
    for index, name in ((600, "short"), (800, "short"), (200, "short")):
        ch = committed(ch, index, name)
    for picks in ((1, 2, 1, 1, 1, 1, 1, 1, 1), (2, 2, 1, 1, 1, 2, 1, 1, 2), (1, 2, 1, 2, 1, 2, 1, 1, 2), *[(1, 2) * 4 + (1,)] * 4):
        ch = slotted(ch, *picks)
    ch = withdrawn(ch, 600, "long")
    ch = withdrawn(ch, 400, "short")
    for picks in [(2, 1) * 4 + (2,)] * 6:
        ch = slotted(ch, *picks)


def held_from_the_start():
    """Two boxes: held through slots, a collision and its resolution among them, committed, withdrawn and held again. Then the same calls with offers, and with each
    hold committed at once, leave the same."""
    ch = begun(EMPTY_TABLE.with_count(2), 2, 1, [7, 8])
    for call, index, argument in ((held, 7, 1), (held, 8, 97), (held, 7, 2), (offered, 7, 49), (offered, 8, 1)):
        ch = call(ch, index, argument)
    for picks in ((1, 1), (1, 2), (1, 1), (1, 1), (1, 1)):
        ch = slotted(ch, *picks)
    ch = committed(ch, 7, "short")
    ch = withdrawn(ch, 8, "long")
    for picks in ((2, 1), (1, 1)):
        ch = slotted(ch, *picks)
    ch = committed(held(ch, 8, 145), 8, "long")
    for picks in ((1, 2), (1, 1), (1, 1), (1, 1), (1, 1)):
        ch = slotted(ch, *picks)
    left = []
    for at_once in (False, True):
        ch = begun(EMPTY_TABLE.with_count(2), 2, 2, [7, 8])
        for step in ((7, 10), (8, 97), (1, 1), (7, 100), (2, 2), (8, 1), (1, 2), (2, 1), (1, 1), (1, 1), (1, 1)):
            if step[0] < 7:
                ch = slotted(ch, *step)
            elif at_once:
                ch = committed(held(ch, *step), step[0], "short" if step[1] <= 48 else "long")
            else:
                ch = offered(ch, *step)
            left.append((ch.boxes, ch.wire))
    assert left[:11] == left[11:]


def streams_beside_held():
    """Owned slots of boxes with held messages; a commit in between asks in the next one, without data."""
    ch = everywhere(with_held(), 22, owning(p22=600, p23=500, p0=900, p2=100))
    ch = slotted(ch, 1, 1, 1, 2, 1, 1, 2, 2, 2)
    ch = committed(ch, 600, "short")
    ch = committed(ch, 100, "long")
    for picks in ((1, 2, 1, 1, 1, 2, 1, 1, 2), (2, 1, 2, 2, 1, 1, 1, 1, 1)):
        ch = slotted(ch, *picks)
    ch = calendared(ch, owning(p1=600, p3=600))
    ch = withdrawn(ch, 600, "long")
    for picks in ((1, 2, 1, 1, 2, 2, 2, 1, 2), (1, 1, 2, 1, 1, 2, 2, 1, 2), (2, 1, 1, 2, 1, 1, 2, 1, 1)):
        ch = slotted(ch, *picks)
    show(ch)


# ---- who sends in the coming slots

def coming_refused():
    """14, 18 and 23, each where a later number would come; and 65 records of which the first 64 are sound."""
    def tried(ch):
        for w in (0, 3, 1025):
            foreseen(ch, w)

    ch = base()
    tried(ch.with_count(0))
    tried(ch.with_count(65))
    tried(begun(EMPTY_TABLE.with_count(64), 8, 8, upward(100, 64)).with_count(65))
    foreseen(ch.with_box(0, box_of(100)), 1025)
    for w in (0, 1025, 1030):
        foreseen(ch, w)


def coming_of_sound_tables():
    """Tables of the runs before: free and with owners, at the ends of the calendar; after slots of them too."""
    for w in (1, 2, 12, 24, 25, 1024):
        foreseen(base(), w)
    for position, entries in ((21, owning(p21=100, p22=200, p23=300, p0=400, p1=500, p2=600)), (11, MOST), (12, MOST), (23, owning(p23=200))):
        foreseen(everywhere(base(), position, entries), 27)
    for position, entries in ((0, NOBODY), (22, owning(p22=600, p23=500, p0=200, p2=100))):
        foreseen(everywhere(with_held(), position, entries), 30)
    foreseen(everywhere(doubled(), 12, MOST), 30)
    ch = everywhere(doubled(), 5, owning(p5=100, p6=700, p8=300))
    foreseen(ch, 1024)
    for picks in ((1, 1, 1, 1, 1, 1, 2, 2), (1, 2, 1, 1, 1, 2, 1, 1), (1, 1, 1, 2, 1, 1, 2, 2), (1, 2, 1, 2, 1, 1, 1, 1)):
        ch = slotted(ch, *picks)
        foreseen(ch, 26)
    ch = calendared(offered(ch, 800, 97), owning(p9=800))
    foreseen(ch, 26)


def scattered(count, n, nxt, lefts):
    """A table that no start leads to: so many boxes, whose urgent places and long stretches stand in an order of their own; a stretch that is not the first has fewer
    slots left than its total. Of these lefts those that are 0 are no message; every fourth box has no short one."""
    boxes = [blank(8, n, (37 * k + 5) % 924) for k in range(count)]
    urgent, first = 0, 1
    for k in range(count):
        box = boxes[(13 * k + 7) % count]
        if k % 4:
            urgent += 1
            box["short"] = ("urgent", urgent)
        box = boxes[(29 * k + 3) % count]
        if lefts[k % len(lefts)]:
            box["long"] = ("long", first, lefts[k % len(lefts)], min(lefts[k % len(lefts)] + k % 5 + 1, 255))
            first += lefts[k % len(lefts)]
    return Channel([dict(box, next=nxt, H=urgent, N=first - 1, Open=[g == 1 for g in range(n)] + [True] * (8 - n)) for box in boxes], silent())


def coming_of_scattered_tables():
    ch = scattered(8, 3, 3, (4, 1, 0, 7))
    put_table(ch)
    for position, entries in ((0, NOBODY), (7, owning(p7=5, p8=42, p9=264, p20=5)), (23, [5] * 23 + [FREE]), (0, [5] * 23 + [FREE])):
        foreseen(everywhere(ch, position, entries), 40)
    foreseen(everywhere(ch, 3, [FREE] + [42, 79] * 11 + [5]), 1024)
    ch = slotted(ch, *[1] * 8)
    for index, size in ((116, 1), (42, 12240), (190, 49)):
        ch = offered(ch, index, size)
    foreseen(ch, 40)
    ch = scattered(64, 1, 1, (1, 3, 0, 2, 5))
    foreseen(ch, 300)
    foreseen(calendared(ch, [5, FREE, FREE] * 8), 1024)


def main():
    starts_refused()
    starts()
    offers()
    slots_refused()
    unsound_tables()
    served()
    from_the_start()
    calendars_set()
    calendars_refused()
    unsound_calendars()
    streams_served()
    streams_from_the_start()
    offers_to_two()
    unsound_with_two()
    served_doubled()
    both_from_the_start()
    streams_beside_two_messages()
    short_among_long()
    holds()
    commits_refused()
    calls_beside_held()
    unsound_by_held()
    served_with_held()
    held_from_the_start()
    streams_beside_held()
    coming_refused()
    coming_of_sound_tables()
    coming_of_scattered_tables()


if __name__ == "__main__":
    main()
