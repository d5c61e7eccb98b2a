#!/usr/bin/env python3
"""Runs the planner on broken files: byte and line changes of an example day, and of a plan and a certificate, through every command.

    bench/mutate.py [--seed N] [--cases N] [--jobs N] [FILE ..]

Each case changes one of the files (else the example day) by one to four draws of a generator that the seed starts. Of every three cases one runs
`trips`, `day`, `plan` and `certify` over the changed planning file, one `check` with the plan or the certificate changed as a liar might, and one
`check` with the planning file changed. A case is right where the run ends by itself with a status of the table in docs/RULES.md that the command
can have; where standard error holds one line of that status's shape, and nothing with 0 and 10; and where standard output is empty but with
0 and 10, when `check` writes its line. The first wrong cases are kept beside the script's answer. It is no test of the gate: it takes minutes,
and what it finds is mended by a contract.
"""

import argparse
import collections
import concurrent.futures
import os
import random
import re
import subprocess
import sys
import tempfile
import time

TOP = os.path.dirname(os.path.dirname(os.path.abspath(__file__)))
PROGRAM = os.path.join(TOP, "crates", "planner_cli", "out", "planner_cli")
DAY = "20260302"
COMMANDS = {"trips": {0, 3, 4, 9}, "day": {0, 3, 4, 9}, "plan": {0, 3, 4, 5, 6, 9}, "certify": {0, 3, 4, 5, 6, 9}}
CHECKS = {0: rb"yes\n", 10: rb"no (1 PlanForm|2 TripTimes|3 BlockUnlawful|4 PoolOver|5 PieceTimes|6 DutyUnlawful|7 GroupOver|8 PlanDiffers|9 CertForm"
          rb"|10 NegativeClassPrice|12 Uncovered|13 BoundTooHigh)\n"}
LINES = {
    3: rb"(file \d+ line \d+: \w+|table [^\n]* row \d+: \w+|trips: \d+|trip \d+: (NoRoute|ShortRoute|PastEnd|NoRunTime \d+/\d+ to \d+/\d+))\n",
    4: rb"day \d{8}: \w+\n",
    5: rb"no plan: (vehicles|drivers) bound \d+ places \d+\n",
    6: rb"not placed: (trip \d+|block \d+ piece \d+)\n",
    9: rb"out of memory\n",
}
VALUES = [b"0", b"1", b"2", b"3", b"9", b"59", b"300", b"600", b"3600", b"7200", b"16200", b"16201", b"28800", b"32400", b"86400", b"172800",
          b"172801", b"20260301", b"20260302", b"20260303", b"10000", b"10001", b"100000000", b"NULL"]
NUMBERS = [b"0", b"1", b"-1", b"2", b"59", b"300", b"16201", b"172800", b"172801", b"4294967295", b"4294967296", b"9223372036854775807",
           b"18446744073709551616", b"00000000000000000000000000000001", b"", b"NULL", b'"7"', b"7.0", b"1e9"]


def changed_field(lines, draw):
    """The lines with one field of a row changed to a number that means something, so that the text stays right."""
    rows = [place for place, line in enumerate(lines) if line.startswith(b"rec;")]
    if not rows:
        return lines
    place = draw.choice(rows)
    fields = lines[place].split(b";")
    at = draw.randrange(1, len(fields))
    old = fields[at].strip()
    if old.isdigit() and draw.randrange(3):
        new = str(max(0, int(old) + draw.choice([-3600, -300, -1, 1, 1, 300, 3600]))).encode()
    else:
        new = draw.choice(VALUES)
    fields[at] = b" " + new
    return lines[:place] + [b";".join(fields)] + lines[place + 1:]


def without_row(lines, draw):
    """The lines without one row, with the number of rows at the table's end as it is then."""
    rows = [place for place, line in enumerate(lines) if line.startswith(b"rec;")]
    if not rows:
        return lines
    place = draw.choice(rows)
    for end in range(place, len(lines)):
        words = lines[end].split(b";")
        if words[0] == b"end" and len(words) == 2 and words[1].strip().isdigit():
            lines = lines[:end] + [b"end; " + str(int(words[1]) - 1).encode()] + lines[end + 1:]
            break
    return lines[:place] + lines[place + 1:]


def changed(text, draw):
    """The text after one change."""
    lines = text.split(b"\n")
    kind = draw.randrange(24)
    place = draw.randrange(len(lines))
    if kind == 0 and text:
        at = draw.randrange(len(text))
        return text[:at] + bytes([draw.randrange(256)]) + text[at + 1:]
    if kind == 1 and text:
        at = draw.randrange(len(text))
        return text[:at] + text[at + draw.randrange(1, 20):]
    if kind == 2:
        at = draw.randrange(len(text) + 1)
        return text[:at] + bytes(draw.randrange(256) for _ in range(draw.randrange(1, 9))) + text[at:]
    if kind == 3:
        del lines[place]
    elif kind == 4:
        lines.insert(place, lines[draw.randrange(len(lines))])
    elif kind == 5:
        other = draw.randrange(len(lines))
        lines[place], lines[other] = lines[other], lines[place]
    elif kind == 6:
        return b"\n".join(lines[:place])
    elif kind == 7:
        fields = lines[place].split(b";")
        fields[draw.randrange(len(fields))] = b" " + draw.choice(NUMBERS)
        lines[place] = b";".join(fields)
    elif kind < 12:
        lines = without_row(lines, draw)
    else:
        lines = changed_field(lines, draw)
    return b"\n".join(lines)


def made(text, command):
    """What a command writes of a planning file, or None where it refuses it."""
    with tempfile.NamedTemporaryFile(suffix=".x10") as file:
        file.write(text)
        file.flush()
        run = subprocess.run([PROGRAM, command, DAY, file.name], capture_output=True, timeout=600)
    return run.stdout if run.returncode == 0 else None


def ended(words):
    """How a run ended, or None where it did not within a minute."""
    try:
        return subprocess.run([PROGRAM, *words], capture_output=True, timeout=60)
    except subprocess.TimeoutExpired:
        return None


def fault_of(run, command, allowed):
    """What is wrong with the end of a run, if anything."""
    if run is None:
        return "no end within 60 s"
    status = run.returncode
    if status not in allowed:
        return f"status {status}"
    if command == "check" and status in CHECKS:
        return None if not run.stderr and re.fullmatch(CHECKS[status], run.stdout) else f"status {status} with {run.stdout[:80]!r}"
    if status == 0:
        return "a line on standard error with status 0, or no text" if run.stderr or not run.stdout else None
    if run.stdout or not re.fullmatch(LINES[status], run.stderr):
        return f"status {status} with {run.stderr[:80]!r} and {len(run.stdout)} bytes of text"
    return None


def case(work):
    """The statuses of one case, and what is wrong with it."""
    number, seed, sets = work
    draw = random.Random(seed * 1_000_003 + number)
    texts = list(draw.choice(sets))
    place = (0, draw.choice([1, 2]), 0)[number % 3]
    for _ in range(draw.randrange(1, 5)):
        texts[place] = changed(texts[place], draw)
    statuses, wrong = [], []
    with tempfile.TemporaryDirectory(prefix="mutate-") as room:
        paths = [os.path.join(room, name) for name in ("day.x10", "plan.x10", "cert.x10")]
        for path, text in zip(paths, texts):
            with open(path, "wb") as file:
                file.write(text)
        runs = [(command, [command, DAY, paths[0]], allowed) for command, allowed in COMMANDS.items()]
        for command, words, allowed in runs if number % 3 == 0 else [("check", ["check", DAY, paths[1], paths[2], paths[0]], {0, 3, 4, 9, 10})]:
            run = ended(words)
            if run is not None:
                statuses.append((command, run.returncode))
            fault = fault_of(run, command, allowed)
            if fault:
                wrong.append((command, fault))
    return number, statuses, wrong, texts[place] if wrong else b""


def main():
    parser = argparse.ArgumentParser(description=__doc__.splitlines()[0])
    parser.add_argument("--seed", type=int, default=1)
    parser.add_argument("--cases", type=int, default=20_000)
    parser.add_argument("--jobs", type=int, default=os.cpu_count())
    parser.add_argument("files", nargs="*", default=[os.path.join(TOP, "examples", "demo.x10")])
    given = parser.parse_args()
    if not os.path.exists(PROGRAM):
        sys.exit("mutate: the program is not built: call ./planner once")
    texts = [open(path, "rb").read() for path in given.files]
    sets = [(text, made(text, "plan"), made(text, "certify")) for text in texts]
    if any(None in one for one in sets):
        sys.exit("mutate: a file has no plan")
    counts, wrongs, start = collections.Counter(), [], time.monotonic()
    with concurrent.futures.ThreadPoolExecutor(given.jobs) as pool:
        for number, statuses, wrong, text in pool.map(case, ((number, given.seed, sets) for number in range(given.cases)), chunksize=1):
            counts.update(statuses)
            for what in wrong:
                wrongs.append((number, what))
                if len(wrongs) <= 20:
                    path = os.path.join(tempfile.gettempdir(), f"mutate-{given.seed}-{number}.x10")
                    open(path, "wb").write(text)
                    print(f"case {number}: {what[0]}: {what[1]}; kept in {path}", flush=True)
    for (command, status), count in sorted(counts.items()):
        print(f"{command} {status}: {count}")
    print(f"seed {given.seed}: {given.cases} cases, {len(wrongs)} wrong, {time.monotonic() - start:.0f} s")
    sys.exit(1 if wrongs else 0)


main()
