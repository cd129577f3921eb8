#!/usr/bin/env python3
"""bench/walk.py [OTHER [GUEST MODE ..]]: how fast a walk tries the schedules of a guest.

It runs `walk` of the built `tests_tools` on a guest in a mode, a bound or `reduced`, and prints what the walk
tried, the least user time of five runs, schedules a second, how many prefixes the bound put off, and
how many bytes of memory the run held for each of them, where they are a million or more. OTHER is
another explorer to measure beside it, a program that takes `explore GUEST --bound BOUND` or
`unbounded GUEST` and lists nothing of what its last bound puts off. So a walk that lists nothing is
timed as well, and the ratio is of that one's time to OTHER's. Without guests it walks
`bench/four_by_five.guest`, whose schedules have 20 steps each, at rising bounds.
"""
import os
import sys

from measured import ROOT, cases, used

BINARY = str(ROOT / "crates/tests_tools/out/tests_tools")
GUEST = str(ROOT / "bench/four_by_five.guest")
RUNS = 5
# From so many prefixes on, nearly all memory is theirs.
MANY = 1000000


def least(words):
    """What a command writes, its least user time in seconds, and the most memory that it had, in bytes."""
    runs = [used(*words) for _ in range(RUNS)]
    return runs[0][0], min(own for _, own, _, _ in runs), max(most for _, _, _, most in runs) * 1024


def other_words(other, guest, mode):
    return [other, "unbounded", guest] if mode == "reduced" else [other, "explore", guest, "--bound", mode]


def line(guest, mode, other):
    out, seconds, memory = least([BINARY, "walk", guest, mode])
    counts = out.split()
    tried, deferred = int(counts[1]), int(counts[7])
    each = "%.2f" % (memory / deferred) if deferred >= MANY else "-"
    name = os.path.basename(guest).removesuffix(".guest")
    text = "%-18s %8s %11d %9.3f %13.0f %11d %9s" % (
        name, mode, tried, seconds, tried / max(seconds, 1e-6), deferred, each)
    if other:
        unlisted = least([BINARY, "walk", guest, mode, "unlisted"])[1]
        beside = least(other_words(other, guest, mode))[1]
        text += " %9.3f %9.3f %6.2f" % (unlisted, beside, unlisted / max(beside, 1e-6))
    return text


def main(words):
    other = words[0] if words else None
    head = "%-18s %8s %11s %9s %13s %11s %9s" % (
        "guest", "mode", "schedules", "seconds", "schedules/s", "deferred", "bytes/def")
    print(head + (" %9s %9s %6s" % ("unlisted", "other", "ratio") if other else ""))
    for guest, mode in cases(words[1:], [(GUEST, str(bound)) for bound in range(5)]):
        print(line(guest, mode, other), flush=True)


if __name__ == "__main__":
    main(sys.argv[1:])
