#!/usr/bin/env python3
"""What crates/listener_run must write: the listener of paper 01, with the calendar of paper 02's T-02 and the success of its T-05, written from the papers' text alone.

    python3 independent/listener.py > crates/listener_run/stdout
"""

LIMIT_H, LIMIT_N, LIMIT_RQ = 4095, 65535, 4095
POSITIONS = 24
FREE = 65535  # the entry of a position without an owner


class Refusal(Exception):
    def __init__(self, number):
        self.number = number


def owners_number(entries):
    """What refuses a calendar's entries: 20, an owner that is no index; 21, no position free; 0, nothing."""
    owners = [entry for entry in entries if entry != FREE]
    if any(owner > 923 for owner in owners):
        return 20
    return 21 if len(owners) == POSITIONS else 0


class Record:
    """The counters: m, n, the next group, H, N, and RQ and Open for groups 1 to 8; the calendar's entries and the position of the coming slot.

    Where the calendar was given, what is written of the record has its position and who owns which (`shown`).
    """

    def __init__(self, m, n, group, h, long, rq, is_open):
        self.m, self.n, self.group, self.h, self.long = m, n, group, h, long
        self.rq = dict(zip(range(1, 9), rq))
        self.open = dict(zip(range(1, 9), is_open))
        self.calendar, self.position, self.shown = [FREE] * POSITIONS, 0, False

    def copy(self):
        other = Record(self.m, self.n, self.group, self.h, self.long, self.rq.values(), self.open.values())
        other.calendar, other.position, other.shown = list(self.calendar), self.position, self.shown
        return other

    def at(self, position, entries):
        """The same with this position and calendar, whatever they are."""
        other = self.copy()
        other.calendar, other.position, other.shown = list(entries), position, True
        return other

    def within_limits(self):
        if not (2 <= self.m <= 8 and 1 <= self.n <= 8 and 1 <= self.group <= self.n):
            return False
        if self.h > LIMIT_H or self.long > LIMIT_N:
            return False
        for g in range(1, 9):
            if g <= self.n:
                if self.rq[g] > LIMIT_RQ:
                    return False
            elif self.rq[g] != 0 or not self.open[g]:
                return False
        return self.position < POSITIONS and owners_number(self.calendar) == 0

    def counters(self):
        return ' m,%d n,%d next,%d H,%d N,%d RQ,%s Open,%s' % (
            self.m, self.n, self.group, self.h, self.long,
            ','.join(str(x) for x in self.rq.values()), ','.join('1' if x else '0' for x in self.open.values()))

    def owned(self):
        owners = ['%d:%d' % (place, owner) for place, owner in enumerate(self.calendar) if owner != FREE]
        return ' position,%d %s' % (self.position, ','.join(['owned', *owners]))

    def __str__(self):
        return self.counters() + (self.owned() if self.shown else '')


def start(m, n):
    if m not in range(2, 9) or n not in range(1, 9):
        raise Refusal(5)
    return Record(m, n, 1, 0, 0, [0] * 8, [True] * 8)


def read(word, count):
    """A minislot: ('empty',), ('single', count) or ('collide',)."""
    if word >> 12:
        raise Refusal(1)
    ones = bin(word).count('1')
    if ones == 6:
        if count == 0:
            raise Refusal(3)
        return ('single', count)
    if ones == 0:
        if count > 0:
            raise Refusal(4)
        return ('empty',)
    return ('collide',)


def listen(record, words, counts):
    """The turn; the record is changed unless the row is refused."""
    if not record.within_limits():
        raise Refusal(18)
    if len(words) != record.m or len(counts) != record.m:
        raise Refusal(6)
    heard = [read(w, c) for w, c in zip(words, counts)]
    g = record.group
    # step 1
    success = record.open[g] and ('collide',) not in heard and heard.count(('single', 1)) == 1
    h, long, rq = record.h, record.long, record.rq[g]
    for f in heard:
        if f == ('single', 1):
            if not success:
                h += 1
        elif f[0] == 'single':
            long += f[1]
        elif f[0] == 'collide':
            rq += 1
    if h > LIMIT_H or long > LIMIT_N or rq > LIMIT_RQ:
        raise Refusal(7)
    # step 2
    owner = record.calendar[record.position]
    if owner != FREE:
        turn = 'w,%d' % owner
    else:
        turn = 'u' if h > 0 else 'l' if long > 0 else 'r' if rq > 0 else 'o'
    record.open[g] = turn == 'o'
    # steps 4 and 5
    record.h = h - 1 if turn == 'u' else h
    record.long = long - 1 if turn == 'l' else long
    record.rq[g] = rq - 1 if rq > 0 else 0
    record.group = g % record.n + 1
    record.position = (record.position + 1) % POSITIONS
    return turn


def set_calendar(record, entries):
    """The calendar is replaced whole, unless it is refused; the position is not touched."""
    number = 18 if not record.within_limits() else owners_number(entries)
    if number:
        raise Refusal(number)
    record.calendar = list(entries)


def listened(record, words, counts):
    """The answer's text, and the record after."""
    after = record.copy()
    try:
        return ' ' + listen(after, words, counts), after
    except Refusal as refusal:
        return ' refused,%d' % refusal.number, record


def listened_at(record, words, counts, place):
    return listened(record, words[place:place + record.m], counts[place:place + record.m])


# ---- what the program writes

def start_line(m, n):
    try:
        record, answer = start(m, n), ' ready'
    except Refusal as refusal:
        record, answer = Record(0, 0, 0, 0, 0, [0] * 8, [False] * 8), ' refused,%d' % refusal.number
    print('start,%d,%d%s%s' % (m, n, answer, record))


def listed(word, numbers):
    return ','.join([word, *[str(x) for x in numbers]])


def begins(record):
    print('before%s' % record.counters())
    if record.shown:
        print('position,%d %s' % (record.position, listed('owners', record.calendar)))


def row(words, counts):
    print('row words%s counts%s' % (''.join(',%d' % w for w in words), ''.join(',%d' % c for c in counts)))


def case(record, words, counts):
    begins(record)
    return heard(record, words, counts)


def heard(record, words, counts):
    row(words, counts)
    answer, after = listened(record, words, counts)
    for way in ('value', 'lent'):
        print('%s%s%s' % (way, answer, after))
    return after


def case_at(record, words, counts, place):
    begins(record)
    return heard_at(record, words, counts, place)


def heard_at(record, words, counts, place):
    row(words, counts)
    answer, after = listened_at(record, words, counts, place)
    print('place,%d%s%s' % (place, answer, after))
    return after


def minislot(x):
    if x < 64:
        return [63, 95, 111, 119, 1365, 2730, 3087, 4032][x % 8], x // 8 % 4 + 1
    if x < 128:
        return [127, 255, 2047, 4095][x % 4], x % 4 + 1
    return {128: (62, 1), 129: (4096, 0), 130: (63, 0), 131: (0, 1)}.get(x, (0, 0))


def recording(p):
    x, minislots = 1, []
    for _ in range(480):
        minislots.append(minislot(x))
        x = (181 * x + 59) % p
    return [w for w, _ in minislots], [c for _, c in minislots]


def rows(way, record, words, counts, place):
    record, m = record.copy(), record.m
    for i in range(40):
        at = place + i * m
        answer, record = listened(record, words[at:at + m], counts[at:at + m])
        print('%s%s%s' % (way, answer, record))


def ways(record, words, counts):
    rows('value', record, words, counts, 0)
    rows('place', record, words, counts, 7)
    rows('lent', record, words, counts, 160)


def plain(m, n, g, h, long):
    return Record(m, n, g, h, long, [0] * 8, [True] * 8)


def arrays(n, rq, is_open):
    return Record(2, n, 1, 0, 0, rq, is_open)


def good_row(record):
    case(record, [63, 95], [1, 3])
    case_at(record, [63, 63, 95, 4096], [0, 1, 3, 0], 1)


# ---- calendars

def entries(owned):
    """The calendar in which these positions have these owners."""
    return [owned.get(position, FREE) for position in range(POSITIONS)]


ONE, MOST, NONE = entries({5: 7}), entries({p: 900 + p for p in range(POSITIONS) if p != 11}), entries({})
SOME = entries({0: 0, 5: 7, 6: 7, 22: 41, 23: 923})
FULL = [7] * POSITIONS


def calendar_case(record, calendar):
    begins(record)
    return calendar_set(record, calendar)


def calendar_set(record, calendar):
    """A calendar set: its entries, the answer and the record after."""
    after = record.at(record.position, record.calendar)
    try:
        set_calendar(after, calendar)
        answer = ' set'
    except Refusal as refusal:
        answer = ' refused,%d' % refusal.number
    print(listed('calendar', calendar) + answer + str(after))
    return after


def in_two_groups(g, h, long, rq, is_open):
    """A record with these lengths and marks."""
    return Record(2, 2, g, h, long, rq + [0] * 6, is_open + [True] * 6)


def settings():
    """A calendar set: what goes through, 20, 21, and 18 before them."""
    record = start(2, 1)
    for calendar in (ONE, MOST, NONE, SOME, ONE):
        record = calendar_case(record, calendar)
    record = in_two_groups(2, 5, 7, [1, 2], [False, True])
    calendar_case(record, MOST)
    record = record.at(17, SOME)
    begins(record)
    for calendar in (
        NONE, ONE, MOST, SOME, entries({0: 923, 17: 0}),
        entries({0: 924}), entries({23: 924}), entries({11: 65534}), entries({4: 4096, 5: 7}), FULL[:12] + [924] + FULL[13:], FULL[:23] + [65534],
        FULL, list(range(POSITIONS)), [923] * POSITIONS,
    ):
        calendar_set(record, calendar)
    idle = start(2, 1)
    for outside in (
        plain(2, 1, 1, 4096, 0).at(3, ONE), idle.at(24, ONE), idle.at(255, NONE), idle.at(0, entries({23: 924})), idle.at(7, entries({0: 65534})),
        idle.at(0, FULL), idle.at(23, list(range(POSITIONS))),
    ):
        begins(outside)
        for calendar in (ONE, entries({0: 924}), FULL):
            calendar_set(outside, calendar)
        heard(outside, [63, 95], [1, 3])
        heard_at(outside, [63, 63, 95, 4096], [0, 1, 3, 0], 1)
    for inside in (idle.at(23, ONE), idle.at(23, SOME), idle.at(0, entries({23: 923})), idle.at(11, MOST)):
        begins(inside)
        calendar_set(inside, NONE)
        heard(inside, [63, 95], [1, 3])
        heard_at(inside, [63, 63, 95, 4096], [0, 1, 3, 0], 1)


def owned_slots():
    """Rows heard at a position that has an owner, with each queue empty and not, after an open slot and another."""
    for h, long, rq in ((0, 0, 0), (2, 0, 0), (0, 5, 0), (0, 0, 2), (2, 5, 2)):
        for is_open in (True, False):
            record = in_two_groups(1, h, long, [rq, 1], [is_open, True]).at(5, SOME)
            begins(record)
            for words, counts in (([0, 0], [0, 0]), ([0, 63], [0, 1]), ([63, 127], [1, 0])):
                heard(record, words, counts)
            heard_at(record, [4096, 0, 95, 0], [0, 0, 3, 0], 1)
    # the last position and the first, in each group; a free one beside them
    for position in (22, 23, 0, 1):
        for group in (1, 2):
            case(in_two_groups(group, 1, 1, [1, 1], [True, True]).at(position, SOME), [63, 0], [1, 0])
    # at the limits: 7 as ever; what is just within does not fall, but RQ does
    for h, long, rq, rows_heard in (
        (4095, 0, 0, (([63, 0], [1, 0]), ([63, 95], [1, 1]))), (4093, 0, 0, (([63, 95], [1, 1]),)), (0, 65533, 0, (([63, 0], [2, 0]), ([63, 0], [3, 0]))),
        (0, 0, 4095, (([127, 0], [0, 0]), ([0, 0], [0, 0]))), (0, 0, 4094, (([127, 0], [0, 0]),)),
    ):
        record = in_two_groups(1, h, long, [rq, 0], [True, True]).at(6, SOME)
        begins(record)
        for words, counts in rows_heard:
            heard(record, words, counts)
    # a refused row leaves the position, whatever refuses it
    for position in (5, 7, 23):
        record = in_two_groups(1, 4095, 0, [0, 0], [True, True]).at(position, SOME)
        begins(record)
        for words, counts in (([0], [0]), ([4096, 0], [0, 0]), ([0, 63], [0, 0]), ([0, 0], [0, 1]), ([63, 95], [1, 1])):
            heard(record, words, counts)
        heard_at(record, [63, 95, 0], [1, 1, 0], 2)


def streams():
    """Rows one after the other under calendars."""
    # round the end of the calendar, a refused row on the way
    record = start(2, 1).at(21, SOME)
    for words, counts in (([63, 95], [1, 1]), ([0, 0], [0, 0]), ([4096, 0], [0, 0]), ([63, 0], [1, 0]), ([127, 0], [3, 0]), ([63, 95], [1, 2]), ([0, 0], [0, 0])):
        record = case(record, words, counts)
    # a request of one slot made in an owned slot is no immediate success: its row is heard with Open no
    record = case(start(2, 1).at(6, SOME), [0, 0], [0, 0])
    record = case(record, [63, 0], [1, 0])
    case(record, [0, 0], [0, 0])
    # a calendar set between an open slot and its row leaves the immediate success of that row; the owned slot after it has none
    record = case(start(2, 1).at(0, NONE), [0, 0], [0, 0])
    record = calendar_case(record, entries({1: 7, 2: 8}))
    record = case(record, [0, 95], [0, 1])
    record = case(record, [0, 95], [0, 1])
    record = calendar_case(record, NONE)
    record = case(record, [0, 0], [0, 0])
    case(record, [63, 0], [1, 0])
    # an owned slot leaves the other group's mark
    record = start(2, 2).at(4, ONE)
    for words, counts in (([0, 0], [0, 0]), ([0, 0], [0, 0]), ([63, 0], [1, 0]), ([95, 0], [1, 0]), ([0, 0], [0, 0])):
        record = case(record, words, counts)
    # long ones
    busy, sparse = recording(503), recording(1499)
    for record, tape in ((start(2, 1).at(0, MOST), busy), (start(3, 2).at(0, SOME), busy), (start(8, 8).at(0, entries({p: 13 * p for p in range(0, 24, 3)})), sparse)):
        begins(record)
        ways(record, *tape)


# ---- one short request among long ones

PATTERNS = (63, 95, 111, 119, 123, 125, 126, 159)
TOTALS = (2, 3, 255, 7, 4, 16, 9)
COLLIDES = ((127, 0), (1, 0), (255, 3), (3, 1), (4095, 255), (31, 0))  # every second one a click


def mixes(m):
    """How many Singles of 1, long Singles and Collides a row of m minislots has: up to two, seven and one."""
    for collides in (0, 1):
        for short in (0, 1, 2):
            for long in range(min(7, m - short - collides) + 1):
                yield short, long, collides


def turned(items, by):
    """The items, so many of the last ones moved to the front."""
    cut = len(items) - by % len(items)
    return [*items[cut:], *items[:cut]]


def mixed(m, short, long, collides):
    """Such a row: a Single of 1, the long ones, the second Single of 1, a Collide and Empty; the whole of it is turned, so that each stands anywhere."""
    counts = [1] * (short > 0) + turned(TOTALS, m + short)[:long] + [1] * (short > 1)
    minislots = list(zip(turned(PATTERNS, m + long), counts)) + [COLLIDES[(m + short + long) % 6]] * collides
    minislots = turned(minislots + [(0, 0)] * (m - len(minislots)), m + long + 2 * short + 3 * collides)
    return [w for w, _ in minislots], [c for _, c in minislots]


def brief_row(words, counts):
    """A row, with a letter for the name of each list."""
    print('%s %s' % (listed('row w', words), listed('c', counts)))


def among_long_ones():
    """Each such row after an open slot and after another; H at its limit, which a Single of 1 passes unless its success is immediate."""
    for is_open in (True, False):
        for m in range(2, 9):
            record = Record(m, 1, 1, 0, 0, [0] * 8, [is_open] + [True] * 7)
            begins(record)
            for short, long, collides in mixes(m):
                words, counts = mixed(m, short, long, collides)
                brief_row(words, counts)
                answer, after = listened(record, words, counts)
                # without a Single of 1 the mark does not matter, and one way of listening is enough for each
                for way in ('value', 'lent') if short else ('value',) if is_open else ('lent',):
                    print('%s%s%s' % (way, answer, after))
    for is_open in (True, False):
        case(Record(3, 1, 1, 4095, 0, [0] * 8, [is_open] + [True] * 7), [95, 63, 111], [2, 1, 255])


def main():
    for m in (0, 1, 2, 3, 7, 8, 9, 255):
        for n in (0, 1, 2, 7, 8, 9, 255):
            start_line(m, n)

    # the paper's five rows
    words, counts = [0, 0, 63, 95, 127, 0, 111, 119, 0, 0], [0, 0, 1, 3, 3, 0, 1, 2, 0, 0]
    record = start(2, 1)
    for k in range(0, 10, 2):
        record = case(record, words[k:k + 2], counts[k:k + 2])
    record = start(2, 1)
    for k in range(0, 10, 2):
        record = case_at(record, words, counts, k)

    busy, sparse = recording(503), recording(1499)
    ways(start(2, 1), *busy)
    ways(start(3, 2), *busy)
    ways(start(8, 8), *sparse)

    # 18
    for m, n, g, h in ((0, 1, 1, 0), (1, 1, 1, 0), (9, 1, 1, 0), (255, 1, 1, 0), (2, 0, 1, 0), (2, 0, 0, 0), (2, 9, 1, 0), (2, 255, 1, 0),
                       (2, 2, 0, 0), (2, 2, 3, 0), (2, 8, 9, 0), (2, 1, 1, 4096), (2, 1, 1, 65535)):
        good_row(plain(m, n, g, h, 0))
    good_row(Record(0, 0, 0, 0, 0, [0] * 8, [False] * 8))

    def resolution(n, group, r):
        record = arrays(n, [0] * 8, [True] * 8)
        record.rq[group] = r
        good_row(record)

    def shut(n, group):
        record = arrays(n, [0] * 8, [True] * 8)
        record.open[group] = False
        good_row(record)

    resolution(1, 1, 4096)
    resolution(2, 2, 4096)
    resolution(8, 8, 65535)
    resolution(1, 2, 1)
    resolution(7, 8, 1)
    shut(1, 2)
    shut(7, 8)
    resolution(1, 1, 4095)
    resolution(8, 8, 4095)
    shut(1, 1)
    shut(8, 8)

    # the order of checking
    case(plain(1, 1, 1, 0, 0), [4096], [1])
    case(plain(2, 1, 2, 0, 0), [4096, 0, 0], [1])
    case(plain(3, 1, 1, 4095, 0), [4096, 0], [1, 1])
    for words in ([4096, 127, 63], [63, 127, 4096], [63, 127, 63], [62, 127, 63], [63, 127, 62]):
        case(plain(3, 1, 1, 4095, 0), words, [1, 0, 1])

    # 6
    record = plain(3, 2, 2, 5, 7)
    for words, counts in (([63, 95], [1, 3]), ([63, 95, 0, 0], [1, 3, 0, 0]), ([63, 95, 0], [1, 3]), ([63, 95], [1, 3, 0]), ([63], [1, 3, 0])):
        case(record, words, counts)
    words, counts = [63, 95, 0, 127], [1, 3, 0, 2]
    for place in (0, 1, 2, 4):
        case_at(record, words, counts, place)
    case_at(record, words, counts[:3], 1)
    case_at(record, words[:3], counts, 1)
    case_at(record, words, counts, 2 ** 64 - 1)

    # 1, 3 and 4
    for words, counts in (([4096, 62, 63], [0, 1, 0]), ([63, 62, 4096], [1, 1, 0]), ([63, 63, 0], [1, 0, 1]), ([63, 127, 0], [1, 1, 1]), ([0, 4096, 0], [1, 0, 0])):
        case(record, words, counts)
    for words, counts in (([63, 63, 95, 0, 4096], [0, 1, 3, 0, 0]), ([127, 63, 0, 0, 95], [1, 0, 0, 1, 1])):
        for place in (0, 1, 2):
            case_at(record, words, counts, place)

    # clicks: each is a Collide, and a lone Single of 1 beside one is queued
    for words, counts in (([62, 0, 0], [1, 0, 0]), ([63, 1, 0], [1, 0, 0]), ([31, 0, 2048], [255, 0, 0]), ([1, 3, 7], [0, 1, 255]), ([95, 15, 127], [3, 0, 0])):
        case(plain(3, 1, 1, 0, 0), words, counts)
    for place in (0, 1, 2):
        case_at(plain(3, 1, 1, 0, 0), [62, 63, 31, 0, 95], [0, 1, 255, 0, 2], place)

    # the heaviest rows, in an open slot: eight Collides, weight 16; and 15, seven of them and a Single of 1, which is queued
    for words, counts in (([4095] * 8, [0] * 8), ([127, 1] * 4, [0] * 8), ([63] + [127] * 7, [1] + [0] * 7), ([31] * 7 + [63], [0] * 7 + [1])):
        case(plain(8, 1, 1, 0, 0), words, counts)
    for place in (0, 1):
        case_at(plain(8, 1, 1, 0, 0), [63] + [127] * 8, [1] + [0] * 8, place)

    # 7, and what is just within: H, N, RQ
    def places(record, words, counts):
        for place in (0, 2):
            case_at(record, [0, 0] + words, [0, 0] + counts, place)

    for h, words, counts in ((4095, [0, 0], [0, 0]), (4095, [63, 0], [1, 0]), (4095, [63, 95], [1, 1]), (4095, [63, 127], [1, 0]), (4095, [63, 127], [2, 0]),
                             (4094, [63, 127], [1, 0]), (4094, [63, 95], [1, 1]), (4093, [63, 95], [1, 1])):
        case(plain(2, 1, 1, h, 0), words, counts)
    places(plain(2, 1, 1, 4095, 0), [63, 95], [1, 1])
    for h, long, words, counts in ((0, 65535, [0, 0], [0, 0]), (1, 65535, [0, 0], [0, 0]), (0, 65535, [63, 0], [1, 0]), (0, 65535, [63, 0], [2, 0]),
                                   (0, 65533, [63, 0], [2, 0]), (0, 65533, [63, 0], [3, 0]), (0, 65280, [63, 95], [255, 1]), (0, 65280, [63, 0], [255, 0]),
                                   (0, 65281, [63, 0], [255, 0]), (0, 65025, [63, 95], [255, 255]), (0, 65026, [63, 95], [255, 255])):
        case(plain(2, 1, 1, h, long), words, counts)
    places(plain(2, 1, 1, 0, 65535), [63, 0], [2, 0])
    for r1, r2, words, counts in ((4095, 0, [0, 0], [0, 0]), (4095, 0, [63, 0], [1, 0]), (4095, 0, [127, 0], [0, 0]), (4094, 0, [127, 0], [0, 0]),
                                  (4094, 0, [127, 4095], [0, 0]), (0, 4095, [127, 4095], [0, 0]), (4095, 0, [1, 0], [0, 0]), (4094, 0, [1, 0], [0, 0])):
        record = arrays(2, [r1, r2] + [0] * 6, [True] * 8)
        case(record, words, counts)
        places(record, words, counts)

    settings()
    owned_slots()
    streams()
    among_long_ones()


if __name__ == '__main__':
    main()
