#!/usr/bin/env python3
"""Writes lines of mixed traffic on both boards: lines.py [COUNT [SEED]], a million by default.

Nine lines in ten are accepted; the others are refused, by every number from 1 to 6. The same count and seed give the
same bytes.
"""

import random
import string
import sys

OPERATIONS = ["find"] * 5 + ["insert"] * 3 + ["write"] * 2 + ["replace", "remove", "point"]
VERBS = ["turn"] * 6 + ["collect"] * 2 + ["abandon"]
NAME_BYTES = string.ascii_letters + string.digits + " .-'\\\xe9\xf8\t"


def name(rng, size):
    return "".join(rng.choices(NAME_BYTES, k=size))


def fields(rng):
    """The fields of a line that is accepted."""
    letter = rng.choice("BS")
    session = str(rng.randrange(16) if rng.random() < 0.95 else rng.randrange(256))
    if rng.random() < 0.5:
        return [letter, rng.choice(VERBS), session]
    begin = [letter, "begin", session, rng.choice(OPERATIONS)]
    if letter == "B":
        ship = rng.randrange(1000) if rng.random() < 0.9 else rng.randrange(2**32)
        return begin + [str(rng.randrange(8)), str(rng.randrange(200)), str(ship), str(rng.randrange(1440))]
    return begin + [name(rng, rng.randint(1, 12)), str(rng.randrange(200))]


def refused(rng):
    """A line that is refused."""
    kind = rng.randrange(8)
    if kind == 0:
        return "" if rng.random() < 0.5 else name(rng, rng.randint(81, 200))
    line = fields(rng)
    at = rng.randrange(len(line))
    if kind == 1:
        line[at] = ""
    elif kind == 2:
        line = line[:at] or [""]
    elif kind == 3:
        at = rng.choice([0, 1, 2])
        line[at] += rng.choice("x- ;\r")
    elif kind == 4:
        line[2] = str(rng.randrange(256, 10**10))
    elif kind == 5:
        line[2] = line[2].zfill(rng.randint(11, 20))
    elif kind == 6:
        line = ["S", "begin", line[2], "insert", name(rng, rng.randint(13, 40)), "1"]
    else:
        line += [""] if rng.random() < 0.5 else ["late", "again"]
    return ",".join(line)


def main():
    count = int(sys.argv[1]) if len(sys.argv) > 1 else 1_000_000
    rng = random.Random(int(sys.argv[2]) if len(sys.argv) > 2 else 1)
    out = sys.stdout.buffer
    for _ in range(count):
        line = ",".join(fields(rng)) if rng.random() < 0.9 else refused(rng)
        out.write(line.encode("latin-1") + b"\n")


main()
