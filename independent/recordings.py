"""What follow.py and rehearse.py share: an input cut into records, number fields, what cases are made of, and the commands that both scripts have.

A script gives its cases, pairs of a name and an input, and the function that says what is printed for an input.
"""
import os
import re
import subprocess
import sys
import tempfile
import time

from plain import Refusal

FIELD = re.compile(rb"[0-9]{1,5}\Z")


# ---- reading an input

def records(data, longest):
    """Each record, or None where the form is broken: a CR or LF by itself, or more than `longest` bytes. CR LF ends a record; the last one is optional."""
    at = 0
    while at < len(data):
        end = data.find(b"\r\n", at)
        record, at = (data[at:], len(data)) if end < 0 else (data[at:end], end + 2)
        if len(record) > longest or b"\r" in record or b"\n" in record:
            yield None
            return
        yield record


def numbers_of(fields):
    """The number that each field is, 1 to 5 digits."""
    if not all(FIELD.match(field) for field in fields):
        raise Refusal(19)
    return [int(field) for field in fields]


def printed(data, longest, header, step):
    """The header and what `step` gives for each record. A refusal that `step` lets out ends it; a record that breaks the form, or no record at all, is 19."""
    out = [header]
    place = 0
    try:
        for record in records(data, longest):
            place += 1
            if record is None:
                raise Refusal(19)
            out.append(step(record))
        if place == 0:
            place = 1
            raise Refusal(19)
    except Refusal as refusal:
        out.append(b"refused,%d,%d\r\n" % (refusal.args[0], place))
    return b"".join(out)


# ---- what cases are made of

def lines(*texts):
    return b"".join(text.encode() + b"\r\n" for text in texts)


def zeros(size):
    """`size` bytes that are all fields of five digits but the last."""
    text = b",".join([b"00000"] * (size // 6 + 1))[:size]
    return (text[:-1] + b"0") if text.endswith(b",") else text


# ---- trying a program

def in_pieces(program, data):
    """What the program writes, and what it says, where it gets the input in short pieces of changing size."""
    child = subprocess.Popen([program], stdin=subprocess.PIPE, stdout=subprocess.PIPE, stderr=subprocess.PIPE, bufsize=0)
    at, size = 0, 1
    try:
        while at < len(data) and at < 400:
            child.stdin.write(data[at:at + size])
            time.sleep(0.001)
            at, size = at + size, size % 7 + 1
    except BrokenPipeError:
        at = len(data)
    return child.communicate(data[at:])


def attempt(program, cases, answer):
    """Runs the program on each case in three ways, tells what differs, and answers how many did."""
    count = bad = 0
    for name, data in cases:
        want = answer(data)
        with tempfile.NamedTemporaryFile() as f:
            f.write(data)
            f.flush()
            by_input = subprocess.run([program], input=data, capture_output=True)
            by_name = subprocess.run([program, f.name], capture_output=True)
        pieces, said = in_pieces(program, data)
        for how, got, errors in (("input", by_input.stdout, by_input.stderr), ("file", by_name.stdout, by_name.stderr), ("pieces", pieces, said)):
            if got != want or errors:
                bad += 1
                print("differs:", name, how, got[-80:], want[-80:], errors)
        count += 1
    print("%d cases, %d differ" % (count, bad))
    return bad


# ---- the commands

def command(argv, cases, answer, larger=()):
    """Does what the arguments ask for, and answers the exit status. `larger`: cases too large for a crate's folder, which only `try` runs."""
    what = argv[1] if len(argv) > 1 else ""
    out = sys.stdout.buffer
    if not what:
        out.write(answer(sys.stdin.buffer.read()))
    elif what == "list":
        for name, data in cases:
            out.write(name.encode() + b".csv\n" + answer(data) + b"\n")
    elif what == "names":
        for name, _ in cases:
            out.write(name.encode() + b".csv\n")
    elif what == "write":
        for name, data in cases:
            with open(os.path.join(argv[2], name + ".csv"), "wb") as f:
                f.write(data)
    elif what == "try":
        return 1 if attempt(argv[2], [*cases, *larger], answer) else 0
    else:
        print("unknown command:", what, file=sys.stderr)
        return 2
    return 0
