#!/usr/bin/env python3
"""Compares the blocks that `plan --flow` gives with those of a solver, on made days of which one depot is left.

    bench/one_pool.py [--seed N] [--trips N,N,..] [--vehicles N] [--solver-seconds N]

For each number of trips it takes the text of `planner make SEED --trips N`, leaves the first row of X_HOF with so many vehicles (as many as
there are trips unless said) and drops X_LINIE_FZG, so that each vehicle may run each trip. On this day it runs `plan --flow` with one price
round, one lowering round and no exchange steps, so that nearly all of the time is that of the flow plan, and CBC (Debian's package
coinor-cbc) on the network-flow model of bench/measure.py. It prints the costs of blocks, the bound that was printed, and the seconds of both.
Where the day has no flow plan of blocks the bound is below the cost, and the row says so. It measures; it is no test.
"""

import argparse
import os
import sys
import tempfile

sys.path.insert(0, os.path.dirname(os.path.abspath(__file__)))
from measure import machine, run, solved, tables


def one_pool(text, vehicles):
    """The text with the first row of X_HOF alone, so many vehicles in it, and without X_LINIE_FZG."""
    lines, name, left_out, kept, count = [], None, False, 0, 0
    for line in text.splitlines():
        words = [word.strip() for word in line.split(";")]
        if words[0] == "tbl":
            name, kept = words[1], 0
            left_out = name == "X_LINIE_FZG"
            count += not left_out
        if words[0] == "eof":
            line = f"eof; {count}"
            left_out = False
        elif name == "X_HOF" and words[0] == "atr":
            columns = words[1:]
        elif name == "X_HOF" and words[0] == "rec":
            kept += 1
            if kept > 1:
                continue
            words[1 + columns.index("ANZAHL")] = str(vehicles)
            line = "; ".join(words)
        elif name == "X_HOF" and words[0] == "end":
            line = "end; 1"
        if not left_out:
            lines.append(line)
    return "\r\n".join(lines) + "\r\n"


def main():
    parser = argparse.ArgumentParser()
    parser.add_argument("--seed", type=int, default=7)
    parser.add_argument("--trips", default="60,120,240,480,960")
    parser.add_argument("--vehicles", type=int)
    parser.add_argument("--solver-seconds", type=int, default=600)
    given = parser.parse_args()
    print(f"{machine()}; seed {given.seed}\n")
    print("| trips | cost of blocks | printed bound | seconds | CBC's cost | CBC s |\n|--:|--:|--:|--:|--:|--:|")
    for trips in (int(word) for word in given.trips.split(",")):
        made, _, _, _ = run(["make", str(given.seed), "--trips", str(trips)])
        day = one_pool(made, given.vehicles or trips)
        with tempfile.TemporaryDirectory() as folder:
            path = os.path.join(folder, "day.x10")
            with open(path, "w", encoding="iso8859-1", newline="") as file:
                file.write(day)
            words = ["plan", "20260302", "--flow", "--rounds", "1", "--lower", "1", "--exchange", "0", path]
            plan, wall, _, _ = run(words)
        row = next(row for row in tables(plan)["X_SCHRANKE"]["rows"] if row[0] == "2")
        answer = solved(day, given.solver_seconds)
        cost, took = ("-", "-") if answer is None else (answer[0], f"{answer[2]:.1f}")
        print(f"| {trips} | {row[1]} | {row[2]} | {wall:.2f} | {cost} | {took} |", flush=True)


if __name__ == "__main__":
    main()
