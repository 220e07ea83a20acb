"""The plain channel of the papers, from their sentences and not from the Rattle programs: queues of messages, fed only a start and each call's arguments.

A message is a dict with its box, its slots and how many of them were delivered. Its slots say which of the box's two records it has: a message of one slot
the short one, any other the long one. Conditions, counters and the wire are read off the queues. A held message is kept apart: it is in no queue, and no total
counts it before its commit. The calendar is kept as it was set, and beside it how many slots there were since the start: their remainder by 24 is the position.
Who sends in the coming slots is found by running a copy, from which all messages outside the urgent and the long queue have been taken.
"""
import copy
import random
from collections import deque

WORDS = [w for w in range(4096) if format(w, "b").count("1") == 6]
FREE = 65535  # the entry of a position without an owner
NOBODY = 65535  # stands for an index where no box sends
SHORT, LONG = 0, 1  # a box's two records


class Refusal(Exception):
    """The number of a refusal."""


def record_of(message):
    """Which of its box's records a message has."""
    return SHORT if message["slots"] == 1 else LONG


class Plain:
    def __init__(self, boxes, m, n, indexes):
        if not (2 <= m <= 8 and 1 <= n <= 8):
            raise Refusal(5)
        if not 1 <= boxes <= 64 or len(indexes) != boxes:
            raise Refusal(14)
        if any(i > 923 for i in indexes):
            raise Refusal(8)
        if len(set(indexes)) != boxes:
            raise Refusal(15)
        self.m, self.n, self.indexes = m, n, list(indexes)
        self.urgent, self.long = deque(), deque()
        self.have_no_others()
        self.group = 1
        self.open = {g: True for g in range(1, n + 1)}
        self.history = []
        self.mine = [[None, None] for _ in range(boxes)]  # the message of each box's record that was taken and is not all delivered
        self.entries, self.slots = [FREE] * 24, 0

    def have_no_others(self):
        """No message outside the urgent and the long queue: none held, none fresh, none asking, none to resolve."""
        self.held, self.fresh = [], []
        self.asking = {g: {j: [] for j in range(1, self.m + 1)} for g in range(1, self.n + 1)}
        self.resolution = {g: [] for g in range(1, self.n + 1)}

    def deliver(self, message, segment):
        self.history.append((message, segment))
        message["delivered"] += 1
        if message["delivered"] == message["slots"]:
            self.mine[message["box"]][record_of(message)] = None

    def box_of(self, index):
        if index not in self.indexes:
            raise Refusal(16)
        return self.indexes.index(index)

    def brought(self, index, size):
        """A message that an offer or a hold brings, not yet kept anywhere."""
        message = {"box": self.box_of(index), "slots": (size + 47) // 48, "delivered": 0}
        if not 1 <= size <= 12240:
            raise Refusal(10)
        if self.mine[message["box"]][record_of(message)] is not None or self.held_by(message["box"], record_of(message)):
            raise Refusal(9)
        return message

    def taken(self, message):
        self.fresh.append(message)
        self.mine[message["box"]][record_of(message)] = message

    def held_by(self, box, record):
        """The message that a box holds for this record, if any: a list of one or none."""
        return [message for message in self.held if message["box"] == box and record_of(message) == record]

    def let_go(self, index, record):
        """The message that was held for this record; it is held no more."""
        found = self.held_by(self.box_of(index), record)
        if not found:
            raise Refusal(22)
        self.held = [message for message in self.held if message is not found[0]]
        return found[0]

    def offer(self, index, size):
        message = self.brought(index, size)
        self.taken(message)
        return message["slots"]

    def hold(self, index, size):
        message = self.brought(index, size)
        self.held.append(message)
        return message["slots"]

    def commit(self, index, record):
        message = self.let_go(index, record)
        self.taken(message)
        return message["slots"]

    def withdraw(self, index, record):
        return self.let_go(index, record)["slots"]

    def calendar(self, *entries):
        if any(entry != FREE and entry not in self.indexes for entry in entries):
            raise Refusal(20)
        if FREE not in entries:
            raise Refusal(21)
        self.entries = list(entries)

    def slot(self, picks):
        """The turn, the data senders, a lone one's index and segment, the slots delivered."""
        if len(picks) != len(self.indexes):
            raise Refusal(17)
        if min(picks) < 1 or max(picks) > self.m:
            raise Refusal(11)
        before, g = len(self.history), self.group
        row, self.asking[g] = self.asking[g], {j: [] for j in range(1, self.m + 1)}
        singles = [messages[0]["slots"] for messages in row.values() if len(messages) == 1]
        collides = [messages for messages in row.values() if len(messages) > 1]
        success = self.open[g] and not collides and singles.count(1) == 1
        H, N, RQ = self.urgent, self.long, self.resolution[g]
        at_once, to_urgent, to_long, to_resolution = [], [], [], []
        for j in range(1, self.m + 1):
            if len(row[j]) == 1:
                message = row[j][0]
                if message["slots"] > 1:
                    to_long += [(message, k) for k in range(1, message["slots"] + 1)]
                elif success:
                    at_once.append(message)
                else:
                    to_urgent.append(message)
            elif row[j]:
                to_resolution.append(row[j])
        if len(H) + len(to_urgent) > 4095 or len(N) + len(to_long) > 65535 or len(RQ) + len(to_resolution) > 4095:
            self.asking[g] = row
            raise Refusal(7)
        H += to_urgent
        N += to_long
        RQ += to_resolution
        for message in at_once:
            self.deliver(message, 1)
        owner = self.entries[self.slots % 24]
        turn = "owned" if owner != FREE else "urgent" if H else "long" if N else "resolve" if RQ else "open"
        self.open[g] = turn == "open"
        if RQ:
            ask = RQ.pop(0)
        else:
            ask, self.fresh = self.first_of_each_box()
        for message in ask:
            self.asking[g][picks[message["box"]]].append(message)
        sent = []
        if turn == "urgent":
            sent = [(H.popleft(), 1)]
        elif turn == "long":
            sent = [N.popleft()]
        for message, segment in sent:
            self.deliver(message, segment)
        if turn == "open":
            sent = [(message, 1) for message in ask if message["slots"] == 1]
        self.group = g % self.n + 1
        self.slots += 1
        if turn == "owned":  # the owner's stream, and no message
            return (turn, 1, owner, 0, len(self.history) - before)
        lone = (self.indexes[sent[0][0]["box"]], sent[0][1]) if len(sent) == 1 else (0, 0)
        return (turn, len(sent)) + lone + (len(self.history) - before,)

    def first_of_each_box(self):
        """The fresh messages that ask, and those that stay fresh: of two of one box only the short one asks."""
        with_short = {message["box"] for message in self.fresh if record_of(message) == SHORT}
        ask, stay = [], []
        for message in self.fresh:
            (stay if record_of(message) == LONG and message["box"] in with_short else ask).append(message)
        return ask, stay

    # ---- who sends in the coming slots

    def quieted(self):
        """A copy without a message outside the urgent and the long queue, and without a history."""
        other = copy.copy(self)
        other.have_no_others()
        other.open, other.history = dict(self.open), []
        other.urgent, other.long = copy.deepcopy((self.urgent, self.long))
        other.mine = [[None, None] for _ in self.indexes]
        for message in [*other.urgent, *[message for message, _ in other.long]]:
            other.mine[message["box"]][record_of(message)] = message
        return other

    def coming(self, w):
        """The index that sends in each of the next w slots, and how many slots there are until the urgent and the long queue are empty: that copy is run, with picks by
        chance, for w slots and until then."""
        if not 1 <= w <= 1024:
            raise Refusal(23)
        chance = random.Random(w)
        rows = [[chance.randint(1, self.m) for _ in self.indexes] for _ in range(8)]
        run, senders, until = self.quieted(), [], None
        while until is None or len(senders) < w:
            if until is None and not run.urgent and not run.long:
                until = len(senders)
                continue
            turn, count, index, _, _ = run.slot(chance.choice(rows))
            assert turn != "resolve" and count == (0 if turn == "open" else 1)
            senders.append(index if count else NOBODY)
        return senders[:w], until

    # ---- what the boxes and the wire must show of it

    def counters(self):
        groups = range(1, 9)
        lengths = [len(self.resolution.get(g, [])) for g in groups]
        return [self.m, self.n, self.group, len(self.urgent), len(self.long)] + lengths + [int(self.open.get(g, True)) for g in groups]

    def conditions(self):
        """Two conditions for each box, the short record's and the long one's: held, or where its message stands in the queues; free if it has none."""
        found = [[("free",), ("free",)] for _ in self.indexes]

        def stands(message, *condition):
            found[message["box"]][record_of(message)] = condition

        for message in self.held:
            stands(message, "held", message["slots"])
        for message in self.fresh:
            stands(message, "fresh", message["slots"])
        for place, message in enumerate(self.urgent, start=1):
            stands(message, "urgent", place)
        for place, (message, _) in reversed(list(enumerate(self.long, start=1))):
            stands(message, "long", place, message["slots"] - message["delivered"], message["slots"])
        for g in range(1, self.n + 1):
            for j, messages in self.asking[g].items():
                for message in messages:
                    stands(message, "asked", g, j, message["slots"])
            for place, messages in enumerate(self.resolution[g], start=1):
                for message in messages:
                    stands(message, "resolving", g, place, message["slots"])
        return found

    def wire(self):
        """Eight rows of eight minislots: word and count, each the OR over the messages asking there."""
        rows = [[(0, 0)] * 8 for _ in range(8)]
        for g, minislots in self.asking.items():
            for j, messages in minislots.items():
                word = count = 0
                for message in messages:
                    word |= WORDS[self.indexes[message["box"]]]
                    count |= message["slots"]
                rows[g - 1][j - 1] = (word, count)
        return rows

    def waiting(self):
        return sum(m["slots"] - m["delivered"] for records in self.mine for m in records if m is not None)
