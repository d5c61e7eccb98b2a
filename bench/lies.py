#!/usr/bin/env python3
"""Hands `check` the plans and certificates that a liar would write, and looks at what it answers.

    bench/lies.py [--program PROGRAM] [--day FILE] [--marks N] [--jobs N]

The plan and the certificate are those that `plan` and `certify` write of the example day, whose bounds are met by its plan: so each SCHRANKE above
WERT is a lie. Each number of each row of both is set to the ends of the ranges that tables have, and a little beside where it was; each row is left
out, doubled, and put behind the others; each table is left out, doubled, and renamed; a further table is added; the plan of another day is handed
in, and that of the same day with one vehicle; and the certificate gets so many marks that say nothing (--marks). Each run must end with 0 and
`yes`, or with 10 and a reason, or with 3 where the text itself is wrong; and with a yes no SCHRANKE may be above WERT, and no cost, number, leg or
piece may be another one than before. The status is 1 where that is not so.
"""

import argparse
import collections
import concurrent.futures
import os
import re
import subprocess
import sys
import tempfile
import time

TOP = os.path.dirname(os.path.dirname(os.path.abspath(__file__)))
ENDS = ["0", "1", "-1", "2", "4294967295", "4294967296", "9223372036854775807", "-9223372036854775808", "9223372036854775808", "3000000000000000",
        "3000000000000001", "-3000000000000000", "-3000000000000001", "NULL", '"1"', '"x"', ""]


def tables_of(text):
    """The head of a text, and its tables: each the lines before its rows, and its rows."""
    lines = text.split("\r\n")
    first = next(place for place, line in enumerate(lines) if line.startswith("tbl;"))
    tables, place = [], first
    while lines[place].startswith("tbl;"):
        rows = []
        head, place = lines[place : place + 3], place + 3
        while lines[place].startswith("rec;"):
            rows.append(lines[place])
            place += 1
        tables.append((head, rows))
        place += 1
    return lines[:first], tables


def text_of(head, tables):
    """The text of tables, with the numbers of rows and tables as they are."""
    lines = list(head)
    for heads, rows in tables:
        lines += [*heads, *rows, f"end; {len(rows)}"]
    return "\r\n".join([*lines, f"eof; {len(tables)}", ""])


def lies(head, tables):
    """Changed texts, each with what was done."""
    for number, (heads, rows) in enumerate(tables):
        name = heads[0].split(";")[1].strip()
        before, after = tables[:number], tables[number + 1 :]
        yield f"{name} left out", text_of(head, before + after)
        yield f"{name} doubled", text_of(head, tables + [(heads, rows)])
        yield f"{name} renamed", text_of(head, before + [([heads[0] + "X", *heads[1:]], rows)] + after)
        yield f"{name} without rows", text_of(head, before + [(heads, [])] + after)
        for place, row in enumerate(rows):
            rest = rows[:place] + rows[place + 1 :]
            yield f"{name} row {place + 1} left out", text_of(head, before + [(heads, rest)] + after)
            yield f"{name} row {place + 1} doubled", text_of(head, before + [(heads, rows + [row])] + after)
            yield f"{name} row {place + 1} last", text_of(head, before + [(heads, rest + [row])] + after)
            fields = row.split(";")
            for at in range(1, len(fields)):
                old = fields[at].strip()
                near = [str(int(old) + step) for step in (-1, 1, -1000, 1000)] if re.fullmatch(r"-?\d+", old) else []
                for new in [*ENDS, *near]:
                    if new != old:
                        other = ";".join([*fields[:at], f" {new}", *fields[at + 1 :]])
                        yield f"{name} row {place + 1} field {at}: {new}", text_of(head, before + [(heads, rows[:place] + [other] + rows[place + 1 :])] + after)
    further = (["tbl; X_MEHR", "atr; A", "frm; num[19.0]"], ["rec; 1"])
    yield "a further table", text_of(head, [further, *tables])
    yield "the tables in another order", text_of(head, tables[::-1])


def main():
    said = argparse.ArgumentParser(description=__doc__, formatter_class=argparse.RawDescriptionHelpFormatter)
    said.add_argument("--program", default=os.path.join(TOP, "crates", "planner_cli", "out", "planner_cli"))
    said.add_argument("--day", default=os.path.join(TOP, "examples", "demo.x10"))
    said.add_argument("--marks", type=int, default=200_000)
    said.add_argument("--jobs", type=int, default=os.cpu_count())
    given = said.parse_args()
    start = time.monotonic()

    def ran(*words):
        return subprocess.run([given.program, *words], capture_output=True, timeout=600)

    plan = ran("plan", "20260302", given.day).stdout.decode("latin-1")
    cert = ran("certify", "20260302", given.day).stdout.decode("latin-1")
    cases = [(f"plan: {what}", text, cert) for what, text in lies(*tables_of(plan))] + [(f"cert: {what}", plan, text) for what, text in lies(*tables_of(cert))]
    head, tables = tables_of(cert)
    for number, (heads, rows) in enumerate(tables):
        if "MARKE" in heads[0]:
            more = (heads, rows + [rows[-1]] * given.marks)
            cases.append((f"cert: {given.marks} marks more in {heads[0][5:]}", plan, text_of(head, tables[:number] + [more] + tables[number + 1 :])))
    with open(given.day, encoding="latin-1") as it:
        day = it.read()
    others = {"another day": day.replace("rec; 1; 2; 33000;", "rec; 1; 2; 34000;"), "one vehicle more": day.replace("rec; 1; 2; 9; 1; 2; 1000;", "rec; 1; 2; 9; 1; 3; 1000;")}

    def case(work):
        what, plan_text, cert_text, day_text = work
        with tempfile.TemporaryDirectory(prefix="lies-") as room:
            for name, text in (("p", plan_text), ("c", cert_text), ("f", day_text)):
                with open(f"{room}/{name}", "w", encoding="latin-1", newline="") as it:
                    it.write(text)
            try:
                run = ran("check", "20260302", f"{room}/p", f"{room}/c", f"{room}/f")
            except subprocess.TimeoutExpired:
                return what, None, "no end"
        out = run.stdout.decode("latin-1")
        wrong = None
        if run.returncode == 0:
            if out != "yes\n" or run.stderr:
                wrong = f"status 0 with {out!r}"
            elif plan_text != plan and day_text == day:
                # a yes to another plan text: the same tables but for SCHRANKE, which is not above WERT
                told = {heads[0]: rows for heads, rows in tables_of(plan_text)[1]}
                for heads, rows in tables_of(plan)[1]:
                    # (an empty field and NULL are one)
                    found = [row.replace("; NULL", "; ") for row in told.get(heads[0], [])]
                    if heads[0] != "tbl; X_SCHRANKE" and found != [row.replace("; NULL", "; ") for row in rows]:
                        wrong = f"yes to another {heads[0][5:]}"
                for row in told["tbl; X_SCHRANKE"]:
                    _, _, value, bound = [field.strip().strip('"') for field in row.split(";")]
                    if int(bound) > int(value):
                        wrong = f"yes to the bound {bound} of {value}"
        elif run.returncode == 10:
            if not re.fullmatch(r"no ([1-9]|10|12|13) \w+\n", out) or run.stderr:
                wrong = f"status 10 with {out!r}"
        elif run.returncode != 3 or out:
            wrong = f"status {run.returncode} with {out!r}"
        return what, (run.returncode, out.strip()), wrong

    work = [(*one, day) for one in cases] + [(f"{what}: the old plan", plan, cert, text) for what, text in others.items()]
    counts, bad = collections.Counter(), 0
    with concurrent.futures.ThreadPoolExecutor(given.jobs) as pool:
        for what, end, wrong in pool.map(case, work):
            counts[end] += 1
            if wrong:
                bad += 1
                print(f"{what}: {wrong}")
    for end, count in sorted(counts.items(), key=lambda it: str(it[0])):
        print(f"{count} times {end}")
    print(f"{len(work)} cases, {bad} wrong, {time.monotonic() - start:.0f} s")
    sys.exit(1 if bad else 0)


main()
