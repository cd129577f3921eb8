#!/usr/bin/env python3
"""bench/beside.py BINARY [OTHER] [RUNS]: searches of eleven guests in bench/programs, by the clock.

For each search it prints the least seconds of RUNS runs (7) by BINARY and, where OTHER is given, by
another explorer with the same words, and their ratio. The two run in turn and must give the same answer.
"""
import sys

from measured import ROOT, timed

SEARCHES = [
    ("long_runs", "explore --bound 3"), ("barrier", "explore --bound 4"),
    ("readers_writers", "explore --bound 3"), ("semaphore_ring", "explore --bound 2"),
    ("sixteen_threads", "explore --bound 0"), ("thousand_stores", "explore --bound 3"),
    ("many_conditions", "explore --bound 4"), ("deep_locals", "explore --bound 4"),
    ("ticket_lock", "explore --bound 4"), ("aba_stack", "explore --bound 3"),
    ("readers_writers", "unbounded"), ("ticket_lock", "unbounded"),
    ("ballot", "unbounded"),
]


def main(binaries, runs):
    print("%-16s %-20s %9s %9s %6s" % ("guest", "search", "seconds", "other", "ratio"))
    for name, words in SEARCHES:
        least = [float("inf")] * len(binaries)
        for _ in range(runs):
            results = [timed(binary, *words.split(), ROOT / "bench/programs" / (name + ".guest")) for binary in binaries]
            least = [min(old, seconds) for old, (_, seconds) in zip(least, results)]
        if len({answer for answer, _ in results}) > 1:
            sys.exit("%s %s: the answers differ" % (name, words))
        other = "%9.3f %6.2f" % (least[1], least[0] / least[1]) if len(least) > 1 else ""
        print("%-16s %-20s %9.3f %s" % (name, words, least[0], other), flush=True)


if __name__ == "__main__":
    words = sys.argv[1:]
    runs = int(words.pop()) if words and words[-1].isdigit() else 7
    if not 1 <= len(words) <= 2:
        sys.exit(__doc__)
    main(words, runs)
