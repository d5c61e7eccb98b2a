#!/usr/bin/env python3
"""Refuses each growth of memory in turn, and looks at how the built program ends.

    bench/refuse.py PROGRAM [--cert] [--most N] [--jobs N]

It runs `plan` over the example day, with `--cert` also `certify` and `check`, and a made day of 60 trips with two workers: once as it is, to count
how often memory is asked for, and then once for each of these times, with that one refused (of the made day the first 200 alone, or so many as
--most says). A run must end with status 9, with nothing on standard output and the line `out of memory` or nothing on standard error; or with the
status and the text of the whole run, where what asked could do without. A small library between the program and the C library does the refusing;
it is compiled with `cc`, or with the compiler that CC names. The last line sums up; the status is 1 where a run ended otherwise.
"""

import argparse
import collections
import concurrent.futures
import os
import subprocess
import sys
import tempfile

TOP = os.path.dirname(os.path.dirname(os.path.abspath(__file__)))

SHIM = r"""
#define _GNU_SOURCE
#include <errno.h>
#include <fcntl.h>
#include <stdatomic.h>
#include <stdlib.h>
#include <sys/mman.h>
#include <unistd.h>

void *__libc_malloc(size_t);
void *__libc_calloc(size_t, size_t);
void *__libc_realloc(void *, size_t);
void *__libc_memalign(size_t, size_t);

/* How often memory was asked for: in a file that outlives the program, where one is named. */
static atomic_long here;
static atomic_long *asked = &here;
static long refused;

__attribute__((constructor)) static void begin(void) {
    const char *said = getenv("REFUSE_AT"), *path = getenv("REFUSE_LOG");
    int file = path ? open(path, O_RDWR) : -1;
    void *room = file < 0 ? MAP_FAILED : mmap(NULL, sizeof here, PROT_READ | PROT_WRITE, MAP_SHARED, file, 0);
    if (room != MAP_FAILED) asked = room;
    atomic_store(asked, 0);
    refused = said ? atol(said) : 0;
}

static int refuse(void) {
    return atomic_fetch_add(asked, 1) + 1 == refused ? (errno = ENOMEM, 1) : 0;
}

void *malloc(size_t n) { return refuse() ? NULL : __libc_malloc(n); }
void *calloc(size_t n, size_t m) { return refuse() ? NULL : __libc_calloc(n, m); }
void *realloc(void *p, size_t n) { return refuse() ? NULL : __libc_realloc(p, n); }
void *aligned_alloc(size_t a, size_t n) { return refuse() ? NULL : __libc_memalign(a, n); }
void *memalign(size_t a, size_t n) { return refuse() ? NULL : __libc_memalign(a, n); }
int posix_memalign(void **to, size_t a, size_t n) {
    if (refuse()) return ENOMEM;
    *to = __libc_memalign(a, n);
    return *to ? 0 : ENOMEM;
}
"""


def run(program, words, room, at=0, log=None):
    """Runs the program with one growth refused, and gives its status, its text and what it said."""
    more = {"LD_PRELOAD": f"{room}/refuse.so", "REFUSE_AT": str(at), **({"REFUSE_LOG": log} if log else {})}
    ran = subprocess.run([program, *words], cwd=room, env={**os.environ, **more}, stdin=subprocess.DEVNULL, capture_output=True, timeout=600)
    return ran.returncode, ran.stdout, ran.stderr


def main():
    said = argparse.ArgumentParser(description=__doc__, formatter_class=argparse.RawDescriptionHelpFormatter)
    said.add_argument("program")
    said.add_argument("--cert", action="store_true")
    said.add_argument("--most", type=int, default=200)
    said.add_argument("--jobs", type=int, default=os.cpu_count())
    given = said.parse_args()
    program = os.path.abspath(given.program)
    with tempfile.TemporaryDirectory(prefix="refuse-") as room:
        with open(f"{room}/refuse.c", "w") as it:
            it.write(SHIM)
        subprocess.run([os.environ.get("CC", "cc"), "-O1", "-shared", "-fPIC", "-o", f"{room}/refuse.so", f"{room}/refuse.c"], check=True)
        with open(f"{TOP}/examples/demo.x10", "rb") as it, open(f"{room}/demo.x10", "wb") as to:
            to.write(it.read())
        tasks = [("plan", ["plan", "20260302", "demo.x10"], None)]
        if given.cert:
            for name, command in (("plan.x10", "plan"), ("cert.x10", "certify")):
                with open(f"{room}/{name}", "wb") as it:
                    it.write(subprocess.run([program, command, "20260302", "demo.x10"], cwd=room, capture_output=True, check=True).stdout)
            tasks.append(("certify", ["certify", "20260302", "demo.x10"], None))
            tasks.append(("check", ["check", "20260302", "plan.x10", "cert.x10", "demo.x10"], None))
        tasks.append(("make", ["make", "7", "--run", "--trips", "60", "--rounds", "5", "--lower", "5", "--workers", "2"], given.most))
        bad = 0
        for name, words, most in tasks:
            log = f"{room}/asked"
            with open(log, "wb") as it:
                it.write(bytes(8))
            whole = run(program, words, room, 0, log)
            with open(log, "rb") as it:
                asked = int.from_bytes(it.read(8), sys.byteorder)
            numbers = range(1, min(asked, most or asked) + 1)
            ends = collections.Counter()
            with concurrent.futures.ThreadPoolExecutor(given.jobs) as pool:
                for at, got in zip(numbers, pool.map(lambda at: run(program, words, room, at), numbers)):
                    is_refused = got[0] == 9 and not got[1] and got[2] in (b"out of memory\n", b"")
                    if is_refused or got == whole:
                        ends[got[0]] += 1
                    else:
                        bad += 1
                        print(f"{name}: growth {at} of {asked} refused: status {got[0]}, {len(got[1])} bytes, said {got[2][:80]!r}")
            told = ", ".join(f"{count} with {status}" for status, count in sorted(ends.items()))
            print(f"{name}: memory is asked for {asked} times; {len(numbers)} refused in turn: {told}")
        print(f"{bad} runs ended otherwise")
        return 1 if bad else 0


if __name__ == "__main__":
    sys.exit(main())
