#!/usr/bin/env python3
"""Writes a day's traffic on both boards: traffic.py [COUNT [SEED]], a million lines by default.

Sixteen sessions of each board, interleaved at random, each begin a task, take some turns and collect; now and then one
abandons, and one line in forty is refused before it reaches a board. The same count and seed give the same bytes.
"""

import random
import sys

OPERATIONS = ["find"] * 9 + ["insert"] * 4 + ["write"] * 2 + ["replace"] * 2 + ["remove"] * 3 + ["point"]
NAMES = ["%s %d" % (ship, n) for ship in ("Anna", "Berta", "Cap Tomas", "Delos", "E", "Faro") for n in range(16)]


def begin(rng, letter, session):
    line = [letter, "begin", str(session), rng.choice(OPERATIONS)]
    if letter == "B":
        line += [str(rng.randrange(8)), str(rng.randrange(12)), str(rng.randrange(1, 100000)), str(rng.randrange(1440))]
    else:
        line += [rng.choice(NAMES), str(rng.randrange(12))]
    return line


def refused(rng):
    return rng.choice(
        [
            "",
            "B,turn",
            "B,,3",
            "X,turn,1",
            "B,turn,x",
            "B,turn,300",
            "S,begin,1,insert,A name that is long,1",
            "B,begin,2,find,1,1,1,1440",
            "S,collect,4,",
            "B,turn,77",
            "S," + 90 * "z",
        ]
    )


def main():
    count = int(sys.argv[1]) if len(sys.argv) > 1 else 1_000_000
    rng = random.Random(int(sys.argv[2]) if len(sys.argv) > 2 else 7)
    # what each session goes on with, the next last
    scripts = {(letter, session): [] for letter in "BS" for session in range(16)}
    sessions = list(scripts)
    lines = []
    for _ in range(count):
        if rng.random() < 0.025:
            lines.append(refused(rng))
            continue
        letter, session = at = rng.choice(sessions)
        script = scripts[at]
        if not script:
            last = "abandon" if rng.random() < 0.03 else "collect"
            script += [last] + ["turn"] * rng.randint(3, 6) + ["begin"]
        verb = script.pop()
        line = begin(rng, letter, session) if verb == "begin" else [letter, verb, str(session)]
        lines.append(",".join(line))
    sys.stdout.write("".join(line + "\n" for line in lines))


main()
