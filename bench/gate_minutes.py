#!/usr/bin/env python3
"""Runs the gate and tells what its processor minutes go to, crate by crate.

    bench/gate_minutes.py [--every SECONDS] [--page FILE] [WORD ..]

It starts `rt ci` with the words given at the top of the repository, looks at the processes below it every few seconds, and sums the processor
time of each by the crate that it names and by what it does: the proof of the crate, that of its tests, or a wrong body (a check in a folder
outside the repository). What begins and ends between two looks is missed, so the sums are a little low. The status is that of `rt ci`. With a
page the table so far is written each minute, so that a run that is cut off tells too.
"""

import argparse
import collections
import os
import re
import subprocess
import sys
import time

TOP = os.path.dirname(os.path.dirname(os.path.abspath(__file__)))
TICKS = os.sysconf("SC_CLK_TCK")


def processes(session):
    """The processes of a session that name a crate: pid, crate, what they do, and their processor seconds so far."""
    for pid in filter(str.isdigit, os.listdir("/proc")):
        try:
            with open(f"/proc/{pid}/stat") as file:
                fields = file.read().rsplit(")", 1)[1].split()
            if int(fields[3]) != session:
                continue
            with open(f"/proc/{pid}/cmdline", "rb") as file:
                words = file.read().decode("utf-8", "replace").split("\0")
            folder = os.readlink(f"/proc/{pid}/cwd")
        except (OSError, IndexError, ValueError):
            continue
        if "--crate-name" not in words:
            continue
        name = words[words.index("--crate-name") + 1]
        # (the tests of a crate are built under its name with `_tests` behind it, and some crates have such a name themselves)
        crate = name if os.path.isdir(os.path.join(TOP, "crates", name)) else re.sub(r"_tests$", "", name)
        if not folder.startswith(TOP + os.sep):
            kind = "edits"
        else:
            kind = "tests" if "--test" in words or name != crate else "proof"
        yield (int(pid), fields[19]), crate, kind, (int(fields[11]) + int(fields[12]) + int(fields[13]) + int(fields[14])) / TICKS


def lines_of(crate):
    """The lines of a crate's sources, definitions and proofs."""
    count = 0
    for folder, _, files in os.walk(os.path.join(TOP, "crates", crate)):
        if os.sep + "out" in folder:
            continue
        for name in files:
            if name.endswith((".rt", ".antt")):
                with open(os.path.join(folder, name), "rb") as file:
                    count += file.read().count(b"\n")
    return count


def table_of(seen, start):
    """The table of what was seen so far: a row for each crate, the dearest first."""
    sums = collections.defaultdict(collections.Counter)
    for crate, kind, seconds in seen.values():
        sums[crate][kind] += seconds
    lines = ["| crate | lines | proof min | tests min | edits min | all | min per 1,000 lines |", "|---|--:|--:|--:|--:|--:|--:|"]
    for crate, kinds in sorted(sums.items(), key=lambda item: -sum(item[1].values())):
        count, whole = lines_of(crate), sum(kinds.values()) / 60
        parts = " | ".join(f"{kinds[kind] / 60:.1f}" for kind in ("proof", "tests", "edits"))
        lines.append(f"| {crate} | {count} | {parts} | {whole:.1f} | {1000 * whole / max(count, 1):.1f} |")
    parts = " | ".join(f"{sum(kinds[kind] for kinds in sums.values()) / 60:.0f}" for kind in ("proof", "tests", "edits"))
    lines.append(f"| all | | {parts} | {sum(sum(kinds.values()) for kinds in sums.values()) / 60:.0f} | |")
    lines.append("")
    lines.append(f"Wall minutes: {(time.monotonic() - start) / 60:.0f}, on {os.cpu_count()} cores.")
    return "\n".join(lines) + "\n"


def main():
    parser = argparse.ArgumentParser(description=__doc__.splitlines()[0])
    parser.add_argument("--every", type=float, default=2.0)
    parser.add_argument("--page")
    parser.add_argument("words", nargs="*")
    given = parser.parse_args()
    seen, start, written = {}, time.monotonic(), 0.0
    gate = subprocess.Popen(["rt", "ci"] + given.words, cwd=TOP, start_new_session=True)
    while gate.poll() is None:
        for key, crate, kind, seconds in processes(gate.pid):
            seen[key] = (crate, kind, max(seconds, seen.get(key, (crate, kind, 0.0))[2]))
        # (now and then also on the way, for a run that is cut off)
        if given.page and time.monotonic() - written > 60:
            written = time.monotonic()
            with open(given.page, "w") as page:
                page.write(table_of(seen, start))
        time.sleep(given.every)
    print(table_of(seen, start), end="")
    if given.page:
        with open(given.page, "w") as page:
            page.write(table_of(seen, start))
    sys.exit(gate.returncode)


main()
