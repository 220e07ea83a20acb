#!/usr/bin/env python3
"""What crates/readings_run must write, made from the paper's sentences and not from the Rattle programs.

Reading: no ones is Empty; six ones is Single, which carries the pattern's index and the count; any other number of ones,
clicks of one to five among them, is Collide, count ignored. 1: a one above bit 11. 3: Single with count 0. 4: Empty with
count above 0. 2 is retired, and the digests count that none come.
A row is m minislots, m from 2 to 8; 6: it has not m minislots; then the first bad minislot's number. Weight = number of
Singles plus twice the number of Collides. An answer has eight places, Empty where nothing is heard.
"""
import sys

LARGEST = 2**64 - 1


def ones(word):
    """The ones of a word, as its binary digits are written."""
    return format(word, "b").count("1")


TABLE = sorted((word for word in range(2**12) if ones(word) == 6))
INDEX = {word: place for place, word in enumerate(TABLE)}


def read(word, count):
    """The number of the refusal, or the feedback."""
    if any(word & (1 << bit) for bit in range(12, 16)):
        return 1
    if ones(word) == 6:
        return ("single", INDEX[word], count) if count else 3
    if ones(word) == 0:
        return 4 if count else ("empty",)
    return ("collide",)


def text(answer):
    return f"refused,{answer}" if isinstance(answer, int) else ",".join(map(str, answer))


def read_row(words, counts, m):
    """The number, the weight and the feedback of each minislot."""
    if not 2 <= m <= 8 or len(words) != m or len(counts) != m:
        return 6, 0, []
    answers = [read(word, count) for word, count in zip(words, counts)]
    bad = [answer for answer in answers if isinstance(answer, int)]
    if bad:
        return bad[0], 0, []
    kinds = [answer[0] for answer in answers]
    return 0, kinds.count("single") + 2 * kinds.count("collide"), answers


def row_text(words, counts, answer):
    number, weight, heard = answer
    places = heard + [("empty",)] * (8 - len(heard))
    return " ".join(
        [",".join(map(str, ["words", *words])), ",".join(map(str, ["counts", *counts]))]
        + [f"number,{number}", f"weight,{weight}"]
        + [text(place) for place in places]
    )


def row(words, counts, m):
    return f"row,{m} " + row_text(words, counts, read_row(words, counts, m))


def row_at(words, counts, start, m):
    part = read_row(words[start : start + m], counts[start : start + m], m)
    return f"row_at,{start},{m} " + row_text(words, counts, part)


def minislots():
    for word, count in (
        (62, 1), (62, 0), (1, 0), (31, 255), (63, 1), (127, 9), (4032, 255), (4096, 0), (63, 0), (0, 1),
        (0, 0), (0, 255), (2048, 255), (31, 3), (3968, 0), (95, 255), (1365, 12), (2730, 128),
        (4032, 0), (4032, 1), (127, 0), (4064, 255), (4095, 0), (4095, 255), (4096, 1), (4159, 1), (8128, 7),
        (32768, 0), (65535, 255),
    ):
        yield f"minislot,{word},{count} {text(read(word, count))}"
    for many in range(13):
        for word in sorted({2**many - 1, 4096 - 2 ** (12 - many)}):
            for count in (0, 1, 255):
                yield f"minislot,{word},{count} {text(read(word, count))}"


def digests():
    for first, end, count in ((0, 4096, 1), (0, 4096, 0), (0, 4096, 255), (4096, 65536, 0), (4096, 65536, 1)):
        answers = [read(word, count) for word in range(first, end)]
        heard = [answer for answer in answers if not isinstance(answer, int)]
        kinds = [answer[0] for answer in heard]
        fields = [f"digest,{first},{end},{count}"]
        fields += [f"{kind},{kinds.count(kind)}" for kind in ("empty", "single", "collide")]
        fields += [f"refused,{number},{answers.count(number)}" for number in (1, 2, 3, 4)]
        fields.append(f"indexes,{sum(answer[1] for answer in heard if len(answer) > 1)}")
        fields.append(f"counts,{sum(answer[2] for answer in heard if len(answer) > 1)}")
        yield " ".join(fields)


HEARD = (
    ([0, 0], [0, 0], 2),
    ([63, 95], [1, 3], 2),
    ([127, 4095], [3, 0], 2),
    ([63, 127, 0], [1, 9, 0], 3),
    ([0, 4032, 0], [0, 255, 0], 3),
    ([63, 0, 127, 4032, 4095, 1365, 0, 2730], [1, 0, 0, 255, 6, 2, 0, 17], 8),
    ([4095] * 8, [0, 1, 2, 4, 8, 16, 32, 64], 8),
    ([62, 0], [1, 0], 2),
    ([63, 31], [1, 255], 2),
    ([1, 3, 7], [0, 1, 255], 3),
    ([1, 63, 2080, 0, 15, 127, 31, 2730], [0, 1, 255, 0, 7, 0, 1, 17], 8),
)
# the heaviest row of each length, clicks among its Collides; and the heaviest with a Single, first and last
HEAVY = tuple((([127, 1] * 4)[:m], [0] * m, m) for m in range(2, 9)) + (
    ([1, 3, 7, 15, 31, 127, 2047, 4095], [255] * 8, 8),
    ([63] + [127] * 7, [1] * 8, 8),
    ([31] * 7 + [4032], [0] * 7 + [255], 8),
)
WRONG_LENGTH = (
    ([63], [1], 2),
    ([63, 95, 0], [1, 3, 0], 2),
    ([63, 95], [1, 3], 3),
    ([63, 95, 0], [1, 3], 3),
    ([63, 95], [1, 3, 0], 3),
    ([63, 95, 0], [1, 3], 2),
    ([63, 95], [1, 3, 0], 2),
    ([62, 0, 0], [1, 1, 0], 2),
    ([63], [1], 1),
    ([63, 95], [1, 3], 0),
    ([63, 0, 0, 0, 0, 0, 0, 0, 95], [1, 0, 0, 0, 0, 0, 0, 0, 3], 9),
    ([63, 95], [1, 3], 255),
)
BAD = (
    ([4096, 62], [0, 1], 2),
    ([63, 4096], [1, 0], 2),
    ([62, 63, 0], [1, 0, 0], 3),
    ([127, 63, 0], [1, 0, 4], 3),
    ([127, 63, 0], [1, 7, 4], 3),
    ([4096, 62, 127, 0, 4032, 1365, 4095, 0], [0, 1, 0, 0, 255, 2, 6, 0], 8),
    ([63, 62, 63, 0, 4032, 1365, 4095, 0], [1, 1, 0, 0, 255, 2, 6, 0], 8),
    ([63, 95, 63, 0, 4032, 1365, 4095, 0], [1, 3, 0, 1, 255, 2, 6, 0], 8),
    ([63, 95, 127, 0, 65535, 1365, 4095, 0], [1, 3, 0, 1, 255, 2, 6, 0], 8),
    ([63, 95, 127, 0, 4096, 1365, 4095, 0], [1, 3, 0, 0, 1, 2, 6, 9], 8),
    ([63, 95, 127, 0, 4032, 31, 4096, 0], [1, 3, 0, 0, 255, 0, 6, 0], 8),
    ([63, 95, 127, 0, 4032, 1365, 4032, 1], [1, 3, 0, 0, 255, 2, 0, 1], 8),
    ([63, 95, 127, 0, 4032, 1365, 4095, 0], [1, 3, 0, 0, 255, 2, 6, 255], 8),
)


def weighing(weight):
    """Eight minislots of this weight: Collides, a Single where it is odd, and Empty up to the last."""
    minislots = [(4095, 0)] * (weight // 2) + [(63, 1)] * (weight % 2)
    minislots += [(0, 0)] * (8 - len(minislots))
    return [word for word, _ in minislots], [count for _, count in minislots], 8


STARTS = (
    (0, 2), (1, 2), (1, 3), (3, 3), (1, 8), (2, 8), (7, 3), (8, 2), (0, 8),
    (3, 8), (9, 2), (10, 2), (10, 0), (11, 2), (11, 0), (LARGEST, 2), (LARGEST - 1, 2), (LARGEST, 255),
    (1, 0), (1, 1), (1, 9), (1, 255),
)


def recordings():
    words = [63, 63, 127, 0, 95, 4032, 4095, 62, 2730, 4096]
    counts = [0, 1, 9, 0, 3, 255, 0, 0, 17, 0]
    for start, m in STARTS:
        yield row_at(words, counts, start, m)
    for start, m in ((3, 3), (4, 3), (7, 2)):
        yield row_at(words, counts[:6], start, m)
    for start, m in ((3, 3), (4, 3), (7, 2)):
        yield row_at(words[:6], counts, start, m)
    yield row_at([], [], 0, 2)
    yield row_at(words[2:5], counts[2:5], 0, 3)
    yield row(words[2:5], counts[2:5], 3)
    yield row([], [], 2)


def lines():
    yield from minislots()
    yield from digests()
    for words, counts, m in HEARD + tuple(map(weighing, range(17))) + HEAVY + WRONG_LENGTH + BAD:
        yield row(words, counts, m)
    yield from recordings()


for line in lines():
    sys.stdout.write(line + "\n")
