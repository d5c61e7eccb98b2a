#!/usr/bin/env python3
"""Measures the planner on made days, and writes what it found as a Markdown page.

    bench/measure.py [--seed N,N,..] [--trips N,N,..] [--workers N,N,..] [--runs N] [--solver-trips N] [--option WORD ..] [--certify] [--page FILE]

For each number of trips, seed and number of workers it runs `planner make SEED --trips N --run --workers W`, several times, and takes the best
run: wall seconds, processor seconds and the greatest memory. Beside them stand what the run printed: numbers and costs of blocks and duties,
their proved bounds, and how far the two lie apart. With --certify the day's tables, its plan and its certificate are written too, by the same
options and the last number of workers, and `check` says what it says of them. Where the solver CBC is installed (Debian's package coinor-cbc), the block costs of days of at
most --solver-trips trips are also minimised by it, in the network-flow model of the multi-depot vehicle scheduling problem (Bertossi,
Carraresi and Gallo, Networks 17, 1987; one commodity a depot), without the limit on the driving of a piece, which no block of these days reaches unless
the solver finds otherwise. It measures; it is no test.
"""

import argparse
import datetime
import math
import os
import platform
import shutil
import subprocess
import sys
import tempfile
import time

TOP = os.path.dirname(os.path.dirname(os.path.abspath(__file__)))
PROGRAM = os.path.join(TOP, "crates", "planner_cli", "out", "planner_cli")


def tables(text):
    """The tables of a text by their names: for each its columns and the rows as lists of words."""
    found, name = {}, None
    for line in text.splitlines():
        words = [word.strip() for word in line.split(";")]
        if words[0] == "tbl":
            name = words[1]
            found[name] = {"columns": [], "rows": []}
        elif words[0] == "atr":
            found[name]["columns"] = words[1:]
        elif words[0] == "rec":
            found[name]["rows"].append(words[1:])
    return found


def rows(found, name):
    """The rows of a table as dictionaries."""
    table = found[name]
    return [dict(zip(table["columns"], row)) for row in table["rows"]]


def run(words):
    """One run of the program: its text, wall seconds, processor seconds and greatest memory in MB."""
    start = time.monotonic()
    with tempfile.TemporaryFile() as out:
        child = subprocess.Popen([PROGRAM] + words, stdout=out)
        _, status, usage = os.wait4(child.pid, 0)
        wall = time.monotonic() - start
        if status != 0:
            sys.exit(f"measure: {' '.join(words)} ended with {os.waitstatus_to_exitcode(status)}")
        out.seek(0)
        text = out.read().decode("iso8859-1")
    return text, wall, usage.ru_utime + usage.ru_stime, usage.ru_maxrss / 1024


def best_of(words, runs):
    """The run of least wall time among several."""
    return min((run(words) for _ in range(runs)), key=lambda answer: answer[1])


def gap(value, bound):
    return "-" if value == 0 else f"{100 * (value - bound) / value:.2f} %"


def trips_of(found):
    """The trips of a made day: first point, last point, begin and end, by departure and number."""
    courses, run_times, dwells = {}, {}, {}
    for row in rows(found, "LID_VERLAUF"):
        courses.setdefault((row["LI_NR"], row["STR_LI_VAR"]), []).append((int(row["LI_LFD_NR"]), row["ONR_TYP_NR"], row["ORT_NR"]))
    for row in rows(found, "SEL_FZT_FELD"):
        run_times[row["ONR_TYP_NR"], row["ORT_NR"], row["SEL_ZIEL_TYP"], row["SEL_ZIEL"]] = int(row["SEL_FZT"])
    for row in rows(found, "ORT_HZTF"):
        dwells[row["ONR_TYP_NR"], row["ORT_NR"]] = int(row["HP_HZT"])
    made = []
    for row in rows(found, "REC_FRT"):
        course = [(kind, number) for _, kind, number in sorted(courses[row["LI_NR"], row["STR_LI_VAR"]])]
        seconds = sum(run_times[a + b] for a, b in zip(course, course[1:])) + sum(dwells.get(point, 0) for point in course[1:-1])
        begin = int(row["FRT_START"])
        made.append((begin, int(row["FRT_FID"]), course[0], course[-1], begin + seconds))
    return sorted(made)


def model_of(found):
    """The network-flow model of a made day's blocks: costs of pull-outs, links and pull-ins by depot."""
    plan = rows(found, "X_PLAN")[0]
    turn, wait = int(plan["WENDE_SEK"]), int(plan["MAX_WARTE_SEK"])
    dead = {}
    for row in rows(found, "UEB_FZT"):
        dead[(row["ONR_TYP_NR"], row["ORT_NR"]), (row["UEB_ZIEL_TYP"], row["UEB_ZIEL"])] = int(row["UEB_FAHRZEIT"])
    move = lambda a, b: 0 if a == b else dead.get((a, b))
    trips, arcs, caps = trips_of(found), [], []
    for pool, row in enumerate(rows(found, "X_HOF")):
        depot, fixed = (row["ONR_TYP_NR"], row["ORT_NR"]), int(row["FIX_KOSTEN"])
        rate, stand_rate = int(row["LEER_SATZ"]), int(row["STAND_SATZ"])
        caps.append(int(row["ANZAHL"]))
        for i, (begin, _, first, last, end) in enumerate(trips):
            pull_out, pull_in = move(depot, first), move(last, depot)
            if pull_out is not None and pull_out <= begin:
                arcs.append((pool, "s", i, fixed + rate * pull_out))
            if pull_in is not None:
                arcs.append((pool, i, "t", rate * pull_in))
            for j in range(i + 1, len(trips)):
                later, start = trips[j], trips[j][0] - end
                between = move(last, later[2])
                if between is not None and turn <= start - between <= wait:
                    arcs.append((pool, i, j, rate * between + (0 if later[2] == depot else stand_rate * (start - between))))
                elif pull_in is not None and move(depot, later[2]) is not None and pull_in + move(depot, later[2]) <= start:
                    arcs.append((pool, i, j, rate * (pull_in + move(depot, later[2]))))
    return len(trips), caps, arcs


def solved(text, seconds):
    """The least cost of blocks by CBC, its proved bound, and the seconds it took; None where it is not installed or does not end."""
    if shutil.which("cbc") is None:
        return None
    count, caps, arcs = model_of(tables(text))
    into, out_of, pulls, objective = {}, {}, {}, []
    for number, (pool, a, b, cost) in enumerate(arcs):
        objective.append(f"{cost} x{number}")
        into.setdefault((pool, b), []).append(number)
        out_of.setdefault((pool, a), []).append(number)
        if a == "s":
            pulls.setdefault(pool, []).append(number)
    names = lambda numbers: " + ".join(f"x{number}" for number in numbers)
    with tempfile.TemporaryDirectory() as folder:
        path = os.path.join(folder, "blocks.lp")
        with open(path, "w") as model:
            model.write("Minimize\n obj: " + "\n + ".join(objective) + "\nSubject To\n")
            for trip in range(count):
                covered = [number for pool in range(len(caps)) for number in into.get((pool, trip), [])]
                model.write(f" c{trip}: " + "\n + ".join(f"x{number}" for number in covered) + " = 1\n")
                for pool in range(len(caps)):
                    left, right = into.get((pool, trip), []), out_of.get((pool, trip), [])
                    model.write(f" f{pool}_{trip}: " + "\n + ".join(f"x{number}" for number in left) + "\n - " + "\n - ".join(f"x{number}" for number in right) + " = 0\n")
            for pool, cap in enumerate(caps):
                model.write(f" k{pool}: {names(pulls.get(pool, []))} <= {cap}\n")
            model.write("Binaries\n " + "\n ".join(f"x{number}" for number in range(len(arcs))) + "\nEnd\n")
        start = time.monotonic()
        try:
            answer = subprocess.run(["cbc", path, "sec", str(seconds), "solve", "quit"], capture_output=True, text=True, timeout=seconds + 120).stdout
        except subprocess.TimeoutExpired:
            return None
        took = time.monotonic() - start
    cost = bound = None
    for line in answer.splitlines():
        if line.startswith("Objective value:"):
            cost = float(line.split()[-1])
        elif line.startswith("Lower bound:"):
            bound = float(line.split()[-1])
    if cost is None:
        return None
    return round(cost), math.ceil((cost if bound is None else bound) - 1e-6), took


def checked(made, workers, options):
    """What `check` says of the plan and certificate of a made day: seconds and memory of `certify`, the certificate's size, seconds, answer."""
    with tempfile.TemporaryDirectory() as folder:
        day, plan, cert = (os.path.join(folder, name) for name in ("day.x10", "plan.x10", "cert.x10"))
        write = lambda path, text: open(path, "w", encoding="iso8859-1", newline="").write(text)
        write(day, made)
        words = ["--workers", str(workers)] + options
        write(plan, run(["plan", "20260302", day] + words)[0])
        text, wall, _, memory = run(["certify", "20260302", day] + words)
        write(cert, text)
        answer, took, _, _ = run(["check", "20260302", plan, cert, day])
        return f"{wall:.1f}", f"{len(text) / 1e6:.1f}", f"{memory:.0f}", f"{took:.1f}", answer.strip()


def machine():
    name = platform.processor() or platform.machine()
    try:
        with open("/proc/cpuinfo") as info:
            name = next(line.split(":", 1)[1].strip() for line in info if line.startswith("model name"))
    except (OSError, StopIteration):
        pass
    return f"{name}, {os.cpu_count()} cores"


def main():
    numbers = lambda text: [int(word) for word in text.split(",")]
    parser = argparse.ArgumentParser(description=__doc__.splitlines()[0])
    parser.add_argument("--seed", type=numbers, default=[7])
    parser.add_argument("--trips", type=numbers, default=[60, 120, 240, 480, 960, 3000])
    parser.add_argument("--workers", type=numbers, default=[1, 2, 4])
    parser.add_argument("--runs", type=int, default=3)
    parser.add_argument("--solver-trips", type=int, default=240)
    parser.add_argument("--solver-seconds", type=int, default=600)
    parser.add_argument("--option", action="append", default=[], help="a further word for the planner, as --option=--rounds=200")
    parser.add_argument("--certify", action="store_true", help="write plan and certificate of each day too, and check them")
    parser.add_argument("--page", help="the page to write; else bench/DAY-MACHINE.md")
    given = parser.parse_args()
    if not os.path.exists(PROGRAM):
        sys.exit("measure: the program is not built: call ./planner once")
    today = datetime.date.today().isoformat()
    seeds = ", ".join(map(str, given.seed))
    lines = [
        f"# Made days, measured on {today}", "",
        f"Machine: {machine()}, load {os.getloadavg()[0]:.1f} at the start. Seed {seeds}; options: {' '.join(given.option) or 'none'}; best of {given.runs} runs.", "",
        "| trips | seed | workers | wall s | processor s | memory MB | over 1 worker | blocks | bound | block costs | bound | gap | duties | bound | duty costs | bound | gap |",
        "|--:|--:|--:|--:|--:|--:|--:|--:|--:|--:|--:|--:|--:|--:|--:|--:|--:|",
    ]
    walls, solver, checks = {}, [], []
    for trips in given.trips:
        for seed in given.seed:
            first = None
            for workers in given.workers:
                words = ["make", str(seed), "--trips", str(trips), "--run", "--workers", str(workers)] + given.option
                text, wall, processor, memory = best_of(words, given.runs)
                if first is None:
                    first, same = wall, text
                elif text != same:
                    sys.exit(f"measure: the text changed with the number of workers at {trips} trips")
                if seed == given.seed[0]:
                    walls.setdefault(workers, {})[trips] = wall
                row = [(int(r["WERT"]), int(r["SCHRANKE"])) for r in rows(tables(text), "X_SCHRANKE")]
                over = f"{first / wall:.2f}" if given.workers[0] == 1 else "-"
                cells = [trips, seed, workers, f"{wall:.2f}", f"{processor:.2f}", f"{memory:.0f}", over, *row[0], *row[1], gap(*row[1]), *row[2], *row[3], gap(*row[3])]
                lines.append("| " + " | ".join(str(cell) for cell in cells) + " |")
                print(lines[-1], flush=True)
            made = run(["make", str(seed), "--trips", str(trips)])[0]
            if trips <= given.solver_trips:
                answer = solved(made, given.solver_seconds)
                if answer is not None:
                    cost, bound, took = answer
                    own = row[1][0]
                    solver.append(f"| {trips} | {seed} | {cost} | {bound} | {took:.1f} | {own} | {100 * (own - cost) / cost:.2f} % |")
                    print(solver[-1], flush=True)
            if given.certify:
                checks.append(f"| {trips} | {seed} | " + " | ".join(checked(made, given.workers[-1], given.option)) + " |")
                print(checks[-1], flush=True)
    lines += ["", "Growth of the wall time with the number of trips, as the exponent between neighbouring sizes:", ""]
    for workers, by_trips in walls.items():
        sizes = sorted(by_trips)
        steps = [f"{a} to {b}: {math.log(by_trips[b] / by_trips[a]) / math.log(b / a):.2f}" for a, b in zip(sizes, sizes[1:])]
        lines.append(f"- {workers} worker{'s' if workers > 1 else ''}: " + "; ".join(steps))
    if solver:
        lines += ["", "The block costs beside those of CBC on the same days (the network-flow model, without the limit on the driving of a piece):", "",
                  "| trips | seed | CBC's cost | CBC's bound | CBC s | own cost | own above CBC's |", "|--:|--:|--:|--:|--:|--:|--:|"] + solver
    if checks:
        lines += ["", "Certificates of these plans, and what `check` says:", "",
                  "| trips | seed | certify s | certificate MB | memory MB | check s | answer |", "|--:|--:|--:|--:|--:|--:|:--|"] + checks
    page = given.page or os.path.join(TOP, "bench", f"{today}-{platform.machine()}-{os.cpu_count()}-cores.md")
    with open(page, "w") as out:
        out.write("\n".join(lines) + "\n")
    print(f"measure: {page}")


if __name__ == "__main__":
    main()
