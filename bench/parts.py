#!/usr/bin/env python3
"""bench/parts.py BINARY [GUEST BOUND ..]: how much sooner four processes end a search than one, and what its parts cost.

For each guest and bound it prints the seconds by the clock of one search, and then for some numbers of prefixes: how
many there are, the seconds of `prefixes`, of all parts by four processes at a time, and of `join`, how many times
sooner all that is done than one search, and how much more processor time the parts took. The report must be the same
bytes. At last four workers of one process, to compare.
"""
import os
import resource
import sys
import time
from concurrent.futures import ThreadPoolExecutor

from measured import ROOT, cases, timed

GUESTS = [("four_by_five.guest", "7"), ("programs/lottery.guest", "2")]
COUNTS = (16, 100, 1000, 4000)
PROCESSES = 4


def spent():
    used = resource.getrusage(resource.RUSAGE_CHILDREN)
    return used.ru_utime + used.ru_stime


def parts(binary, guest, bound, prefixes):
    """The lines of all parts, their seconds by the clock, and those of processors."""
    under = lambda prefix: timed(binary, "explore", guest, "--bound", bound, "--under", prefix)[0]
    began, before = time.perf_counter(), spent()
    with ThreadPoolExecutor(PROCESSES) as pool:
        lines = "".join(pool.map(under, prefixes))
    return lines, time.perf_counter() - began, spent() - before


def measure(binary, guest, bound):
    search = (binary, "explore", guest, "--bound", bound)
    before = spent()
    report, alone = timed(*search)
    processor = spent() - before
    print("%s, bound %s: one process %.2f s" % (os.path.basename(guest), bound, alone))
    for count in COUNTS:
        listed, first = timed(binary, "prefixes", guest, "--at-least", count)
        lines, middle, more = parts(binary, guest, bound, listed.split())
        joined, last = timed(binary, "join", guest, "--bound", bound, given=lines)
        if joined != report:
            sys.exit("%s: another report of %d parts" % (guest, len(listed.split())))
        print("%7d parts: %6.2f + %6.2f + %6.2f s, %5.2f times sooner, %5.2f times the processor time"
              % (len(listed.split()), first, middle, last, alone / (first + middle + last), more / processor))
    _, four = timed(*search, "--workers", PROCESSES)
    print("%d workers of one process: %.2f s, %.2f times sooner" % (PROCESSES, four, alone / four))


def main():
    if len(sys.argv) < 2 or len(sys.argv) % 2:
        sys.exit(__doc__)
    for guest, bound in cases(sys.argv[2:], [(str(ROOT / "bench" / guest), bound) for guest, bound in GUESTS]):
        measure(sys.argv[1], guest, bound)


if __name__ == "__main__":
    main()
