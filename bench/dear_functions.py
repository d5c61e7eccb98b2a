#!/usr/bin/env python3
"""Tells which parts of a crate took the prover long when it was last checked from nothing.

    bench/dear_functions.py [--most N] [--folder FOLDER] CRATE ..

`rt check` keeps what it has checked in files below the crate's folder `out`, one after another; the time between two of them is what the second
one took. A name that ends with `Lts` is what a function lets go on each way out of it, `Proof` what its contract says. Check the crate with
its folder `out` removed and nothing else running; a later check after an edit shows that edit alone. `--folder` names another folder with kept work.
"""

import argparse
import os

TOP = os.path.dirname(os.path.dirname(os.path.abspath(__file__)))


def kept_files(folder):
    """The kept files below a folder with their times, first to last."""
    found = []
    for here, _, names in os.walk(folder):
        found += [(os.path.getmtime(os.path.join(here, name)), name) for name in names if name.endswith(".oantt")]
    return sorted(found)


def main():
    parser = argparse.ArgumentParser(description=__doc__.splitlines()[0])
    parser.add_argument("--most", type=int, default=15)
    parser.add_argument("--folder")
    parser.add_argument("crates", nargs="+")
    given = parser.parse_args()
    rows = []
    for crate in given.crates:
        files = kept_files(given.folder or os.path.join(TOP, "crates", crate, "out", "incremental"))
        rows += [(after[0] - before[0], crate, after[1].removesuffix(".oantt")) for before, after in zip(files, files[1:])]
    for seconds, crate, name in sorted(rows, reverse=True)[: given.most]:
        print(f"{seconds:7.1f} s  {crate:20s} {name}")


main()
