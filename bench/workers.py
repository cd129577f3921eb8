#!/usr/bin/env python3
"""bench/workers.py [--busy] BINARY [GUEST BOUND ..]: how much sooner several workers end a search.

BINARY is the built program. For each guest and bound, or `unbounded`, it prints the least seconds by the
clock of three searches by 1, 2, 4 and 8 workers, and how many times sooner than one worker each is
done. The reports must be the same bytes. Without guests it searches one of few threads, whose items are
small, and four of many, whose items are large.

With `--busy` two loops for each processor run beside the searches, which are made by 1, 2, 4, 7 and 16
workers, also with a limit that isn't reached and with `--quick`; a thread waits long for a processor then. The
loops are ended at the end.
"""
import contextlib
import os
import subprocess
import sys

from measured import ROOT, cases, least

GUESTS = [("four_by_five.guest", "3"), ("four_by_five.guest", "4"),
          ("programs/lottery.guest", "0"), ("programs/coin_box.guest", "1"),
          ("programs/ballot.guest", "unbounded"), ("programs/coats.guest", "unbounded")]
WORKERS = (1, 2, 4, 8)
BUSY_GUESTS = [("programs/coin_box.guest", "1"), ("programs/ballot.guest", "unbounded")]
BUSY_WORKERS = (1, 2, 4, 7, 16)
BUSY_WORDS = ([], ["--limit", str(2**62)], ["--quick"])
RUNS = 3


def words_of(binary, guest, bound, workers):
    search = ["unbounded", guest] if bound == "unbounded" else ["explore", guest, "--bound", bound]
    return [binary] + search + ["--workers", str(workers)]


def line(binary, guest, bound, numbers, more):
    results = [least(RUNS, *words_of(binary, guest, bound, workers), *more) for workers in numbers]
    report, alone = results[0]
    text = "%-18s %9s" % (os.path.basename(guest).removesuffix(".guest"), " ".join([bound] + more[:1]))
    for workers, (other, seconds) in zip(numbers, results):
        if other != report:
            sys.exit("%s: another report with %d workers" % (guest, workers))
        text += " %9.3f" % seconds + ("" if workers == 1 else " %6.2f" % (alone / seconds))
    return text


@contextlib.contextmanager
def busy(count):
    """So many loops run meanwhile."""
    loops = [subprocess.Popen([sys.executable, "-c", "while True: pass"]) for _ in range(count)]
    try:
        yield
    finally:
        for loop in loops:
            loop.kill()
            loop.wait()


def main(words):
    is_busy = words[0] == "--busy"
    binary, *named = words[is_busy:]
    numbers, others, guests = (BUSY_WORKERS, BUSY_WORDS, BUSY_GUESTS) if is_busy else (WORKERS, [[]], GUESTS)
    heads = " ".join("%9s" % n if n == 1 else "%9s %6s" % (n, "sooner") for n in numbers)
    print("%-18s %9s %s" % ("guest", "bound", heads))
    with busy(2 * os.cpu_count() if is_busy else 0):
        for guest, bound in cases(named, [(str(ROOT / "bench" / name), bound) for name, bound in guests]):
            for more in others:
                print(line(binary, guest, bound, numbers, more), flush=True)


if __name__ == "__main__":
    if len(sys.argv) < 2:
        sys.exit(__doc__)
    main(sys.argv[1:])
