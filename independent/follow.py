#!/usr/bin/env python3
"""`follow` written again from the paper's text alone, and the recordings that it is run on.

  follow.py               follow standard input, bytes in and bytes out
  follow.py list          each recording of the list: a line with its file's name, what is printed for it, and an empty line (crates/follow_run/stdout)
  follow.py names         the name of each recording's file, a line each (crates/follow_run/stdin)
  follow.py write FOLDER  each recording as FOLDER/NAME.csv (crates/follow_run/data)
  follow.py try PROGRAM   run PROGRAM on each recording, by standard input, by file name and a few bytes at a time, and compare
"""
import sys

from plain import Refusal
from recordings import command, lines, numbers_of, printed, zeros

HEADER = b"slot,group,turn,H,N,RQ\r\n"
LONGEST = 128


def minislot(word, count):
    """Empty is None, Single is its count, Collide is the text 'collide'."""
    if word >> 12:
        raise Refusal(1)
    ones = bin(word).count("1")
    if ones == 6 and count == 0:
        raise Refusal(3)
    if ones == 0 and count > 0:
        raise Refusal(4)
    if ones == 0:
        return None
    return count if ones == 6 else "collide"


class Listener:
    def __init__(self, m, n):
        if not (2 <= m <= 8 and 1 <= n <= 8):
            raise Refusal(5)
        self.m, self.n = m, n
        self.h = self.long = 0
        self.rq = {g: 0 for g in range(1, n + 1)}
        self.opened = {g: True for g in range(1, n + 1)}
        self.group = 1

    def row(self, fields):
        if len(fields) != 2 * self.m:
            raise Refusal(6)
        row = [minislot(fields[2 * i], fields[2 * i + 1]) for i in range(self.m)]
        g = self.group
        success = self.opened[g] and "collide" not in row and row.count(1) == 1
        h, long, rq = self.h, self.long, self.rq[g]
        for x in row:
            if x is None:
                continue
            if x == "collide":
                rq += 1
            elif x == 1:
                h += not success
            else:
                long += x
        if h > 4095 or rq > 4095 or long > 65535:
            raise Refusal(7)
        turn = "u" if h else "l" if long else "r" if rq else "o"
        self.opened[g] = turn == "o"
        self.h = h - (turn == "u")
        self.long = long - (turn == "l")
        self.rq[g] = max(rq - 1, 0)
        self.group = g % self.n + 1
        return b"%d,%s,%d,%d,%d\r\n" % (g, turn.encode(), self.h, self.long, self.rq[g])


def fields_of(record, first):
    numbers = numbers_of(record.split(b","))
    if first and len(numbers) != 2:
        raise Refusal(19)
    if not first and any(x > (255 if i % 2 else 65535) for i, x in enumerate(numbers)):
        raise Refusal(19)
    return numbers


class Following:
    """A run: no listener before the first record, then one and the number of its slots."""
    def __init__(self):
        self.listener = None
        self.slots = 0

    def step(self, record):
        numbers = fields_of(record, self.listener is None)
        if self.listener is None:
            self.listener = Listener(*numbers)
            return b""
        self.slots += 1
        return b"%d," % self.slots + self.listener.row(numbers)


def follow(data):
    return printed(data, LONGEST, HEADER, Following().step)


def resolution():
    """Three groups with collisions, their resolution, and messages of both kinds."""
    rows = ["3,3", "127,1,0,0,0,0", "0,0,4095,255,0,0", "63,1,0,0,0,0", "63,1,95,1,0,0", "127,9,255,0,4095,3",
            "0,0,0,0,0,0", "0,0,0,0,111,4", "0,0,0,0,0,0", "63,2,127,1,119,1", "0,0,0,0,0,0", "0,0,0,0,0,0"]
    return lines(*(rows + ["0,0,0,0,0,0"] * 24))


def among_long(m, n, *rows):
    """The rows, each with so many silent ones after it that its group is open again."""
    silent = ",".join(["0,0"] * m)
    return lines("%d,%d" % (m, n), *[line for row in rows for line in [row] + [silent] * 12 * n])


def cases():
    yield "example", lines("2,1", "0,0,0,0", "63,1,95,3", "127,3,0,0", "111,1,119,2", "0,0,0,0")
    yield "empty_input", b""
    yield "first_record_missing", lines("", "0,0,0,0")
    yield "cr_lf_alone", b"\r\n"
    yield "lone_cr", b"2,1\r0,0,0,0\r\n"
    yield "lone_cr_at_the_end", b"2,1\r\n0,0,0,0\r"
    yield "lone_lf", b"2,1\r\n0,0,0,0\n0,0,0,0\r\n"
    yield "lf_first", b"\n2,1\r\n"
    yield "cr_cr_lf", b"2,1\r\r\n"
    yield "empty_record", lines("2,1", "0,0,0,0", "", "0,0,0,0")
    yield "empty_last_record", lines("2,1", "0,0,0,0", "")
    yield "row_of_128_bytes", b"2,1\r\n" + zeros(128) + b"\r\n"
    yield "row_of_129_bytes", b"2,1\r\n" + zeros(129) + b"\r\n"
    yield "row_of_128_bytes_at_the_end", b"2,1\r\n" + zeros(128)
    yield "row_of_129_bytes_at_the_end", b"2,1\r\n" + zeros(129)
    yield "first_of_128_bytes", zeros(128) + b"\r\n"
    yield "first_of_129_bytes", zeros(129) + b"\r\n"
    yield "nul", b"2,1\r\n0,0,\x000,0\r\n"
    yield "quote", b'2,1\r\n"0",0,0,0\r\n'
    yield "space", b"2,1\r\n0, 0,0,0\r\n"
    yield "sign", b"2,1\r\n+0,0,0,0\r\n"
    yield "high_byte", b"2,1\r\n0,0,0,0\xff\r\n"
    yield "leading_zeros", lines("00002,00001", "00063,00001,00095,003")
    yield "six_digits", lines("2,1", "000063,1,0,0")
    yield "comma_last", lines("2,1", "63,1,0,0,")
    yield "comma_first", lines("2,1", ",63,1,0,0")
    yield "word_65535", lines("2,1", "65535,0,0,0")
    yield "word_65536", lines("2,1", "65536,0,0,0")
    yield "count_255", lines("2,1", "63,255,0,0")
    yield "count_256", lines("2,1", "63,256,0,0")
    yield "count_256_of_a_row_too_long", lines("2,1", "63,1,0,0,0,256")
    yield "word_65536_last", lines("2,1", "0,0,0,0,65536")
    yield "first_one_field", lines("2", "0,0,0,0")
    yield "first_three_fields", lines("2,1,1", "0,0,0,0")
    yield "first_m_1", lines("1,1")
    yield "first_m_9", lines("9,1")
    yield "first_m_0", lines("0,1")
    yield "first_n_0", lines("2,0")
    yield "first_n_9", lines("2,9")
    yield "first_n_99999", lines("2,99999")
    yield "first_m_99999", lines("99999,1")
    yield "first_m_256_and_2", lines("258,1", "0,0,0,0")
    yield "too_few_fields", lines("2,1", "0,0,0")
    yield "too_many_fields", lines("2,1", "0,0,0,0,0")
    yield "a_minislot_too_many", lines("2,1", "0,0,0,0,0,0")
    yield "six_before_one", lines("2,1", "4096,0,0")
    yield "number_1", lines("2,1", "4096,0,0,0")
    yield "click", lines("2,1", "62,1,0,0")
    yield "click_in_the_second", lines("2,1", "63,1,31,0")
    yield "click_before_a_bad_minislot", lines("2,1", "1,0,63,0")
    yield "clicked_request", lines("2,1", "0,0,0,0", "127,1,0,0", "0,0,63,1", "0,0,0,0")
    yield "clicks_in_three_groups", lines("2,3", *(["1,0,2048,255", "0,0,31,7", "62,0,63,1", "0,0,0,0", "95,3,15,0", "0,0,0,0"] * 4))
    yield "number_3", lines("2,1", "63,0,0,0")
    yield "number_4", lines("2,1", "0,1,0,0")
    yield "first_bad_minislot_counts", lines("2,1", "0,1,4096,0")
    yield "after_a_refusal", lines("2,1", "4096,1,0,0", "0,0,0,0")
    yield "last_cr_lf_missing", b"2,1\r\n63,1,95,3\r\n0,0,0,0"
    yield "only_the_first", b"8,8"
    yield "number_7", lines("8,1", *(["63,255," * 7 + "63,255"] * 40))
    yield "number_7_of_collisions", lines("8,2", *(["127,0," * 7 + "4095,0"] * 1200))
    yield "number_7_of_clicks", lines("8,1", *(["1,0," * 7 + "31,255"] * 600))
    yield "number_7_of_singles", lines("8,1", *(["63,1," * 7 + "63,1"] * 600))
    yield "three_groups", resolution()
    yield "a_short_one_among_long_ones", among_long(4, 1, "95,2,63,1,0,0,111,3", "63,1,95,2,111,2,119,2", "0,0,95,5,0,0,63,1", "95,2,111,2,119,2,63,1", "0,0,0,0,63,1,95,9")
    yield "a_short_one_among_seven_long_ones", lines("8,1", "95,2,111,2,119,2,123,3,63,1,125,2,126,2,159,255", *["0,0," * 7 + "0,0"] * 3, "95,2,111,2,119,2,123,3,63,1,125,2,126,2,159,255")
    yield "two_short_ones_among_long_ones", among_long(4, 1, "63,1,95,2,0,0,111,1", "63,1,95,1,111,2,119,3", "95,2,63,1,111,1,119,2")
    yield "a_click_beside_a_short_one_among_long_ones", among_long(4, 1, "95,2,63,1,1,0,111,3", "31,255,63,1,95,2,111,2", "63,1,95,2,111,4,62,0", "63,1,95,2,111,4,0,0")
    yield "a_collide_beside_a_short_one_among_long_ones", among_long(4, 1, "95,2,63,1,127,0,111,3", "4095,1,63,1,95,2,111,2", "63,1,95,2,0,0,111,4")
    yield "short_ones_among_long_ones_in_three_groups", among_long(3, 3, "63,1,95,2,0,0", "0,0,95,3,63,1", "95,1,111,2,63,1", "111,2,63,1,119,4", "63,1,7,0,95,2")
    yield "short_ones_among_long_ones_not_open", lines("3,1", "95,9,0,0,0,0", *["63,1,111,2,119,2", "111,2,63,1,0,0", "0,0,0,0,0,0"] * 3)


if __name__ == "__main__":
    sys.exit(command(sys.argv, list(cases()), follow))
