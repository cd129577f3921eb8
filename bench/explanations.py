#!/usr/bin/env python3
"""bench/explanations.py BINARY [RUNS]: explanations of long runs, by processor time, as rows of the table in FIGURES.md.

A row has a guest, how many steps it runs, the least milliseconds of RUNS runs (2) of each form, and the most
megabytes of a text and of the JSON or the page. An explanation that doesn't tell that many steps ends it.
"""
import re
import sys
import tempfile
from pathlib import Path

from measured import used
from program import repeated, waits

THREADS = 16
FORMS = ([], ["--all"], ["--json"], ["--html"])


def alike(statements):
    """Threads on one variable, all with these statements."""
    return "var x; " + " ".join("thread T%d { %s}" % (t, statements) for t in range(THREADS))


def stores(each):
    return alike(repeated("store x 1;", each)), ",".join("%dx%d" % (t, each) for t in range(THREADS))


def in_turns(each):
    return ",".join([",".join(map(str, range(THREADS)))] * each)


def turns(each):
    return alike(repeated("store x 1;", each)), in_turns(each)


def lost(each):
    return alike(repeated("load r x; store x 1;", each // 2)), in_turns(each)


def far(each):
    return alike("load r x; " + repeated("store x 1;", each - 1)), in_turns(each)


ROWS = [(make, each, each * THREADS) for make in (stores, turns, lost, far) for each in (512, 1024)]
ROWS += [(waits, rounds, rounds * 31) for rounds in (264, 528, 1022)]


def measured(binary, words, steps):
    """The processor milliseconds of a run, and its megabytes at most."""
    out, own, system, kilobytes = used(binary, *words)
    told = out.count('"preempting":') if "--json" in words or "--html" in words else \
        int((re.search(r"after (\d+) steps", out) or [0, 0])[1])
    if told != steps:
        sys.exit("%s: %d steps are told, not %d" % (" ".join(words), told, steps))
    return 1000 * (own + system), kilobytes / 1000


def main(binary, runs):
    with tempfile.TemporaryDirectory() as folder:
        for make, each, steps in ROWS:
            text, schedule = make(each)
            guest = Path(folder) / (make.__name__ + ".guest")
            guest.write_text(text, encoding="utf-8")
            tried = [[measured(binary, ["explain", str(guest), schedule, *form], steps) for _ in range(runs)]
                     for form in FORMS]
            least = " | ".join("%.0f ms" % min(time for time, _ in form) for form in tried)
            most = [max(memory for _, memory in form) for form in tried]
            print("| %s | %s | %s | %.0f | %.0f |" % (make.__name__, format(steps, ","), least, max(most[:2]),
                                                      max(most[2:])), flush=True)


if __name__ == "__main__":
    if not 2 <= len(sys.argv) <= 3:
        sys.exit(__doc__)
    main(sys.argv[1], int((sys.argv + ["2"])[2]))
