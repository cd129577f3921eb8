#!/usr/bin/env python3
"""bench/symmetry.py BINARY [GUEST BOUND ..]: searches with all threads, and with equal threads once, as a table in Markdown.

Guests with equal threads are searched up to a bound and without one. Printed are the schedules that are tried and the least
seconds of three runs, without and with `--symmetry`, and how many times fewer are tried. All else in the two reports must be
alike. A search is cut short after a thousand million schedules or sixty seconds; then it is run once. Where Spin and a C
compiler are here (`apt-get install spin`), the states that it stores of the models in bench/spin are printed, and its
seconds, without those of compiling.
"""
import json
import re
import subprocess
import sys

from measured import ROOT, cases, timed
from spin import by_spin, has_spin

PROBLEMS = [
    ("bench/programs/twostage_7.guest", 1), ("bench/programs/memcached.guest", 2), ("bench/programs/four_equal.guest", 4),
    ("bench/programs/spin_equal.guest", 5), ("bench/programs/safestack_3.guest", 4), ("bench/programs/ticket_lock.guest", 4),
    ("examples/wait_without_loop_fixed.guest", 1), ("examples/real/reusable_barrier_fixed.guest", 4),
    ("examples/real/backoff_lock.guest", 2),
]
RUNS = 3
LIMIT = 1000000000
SECONDS = 60
COUNTS = ("tried", "failed", "stuck", "symmetry")


def least(words):
    """The report of a search, if it came to its end; what it tried, and its least seconds, as the table shows them."""
    runs = []
    while len(runs) < RUNS:
        try:
            printed, seconds = timed(*words, "--limit", LIMIT, seconds=SECONDS)
        except subprocess.TimeoutExpired:
            return None, "?", "over %d" % SECONDS
        report = json.loads(printed)
        if report["verdict"] == "incomplete":
            return None, "over {:,}".format(LIMIT), "over %.0f" % seconds
        runs.append(seconds)
    return report, "{:,}".format(report["tried"]), "%.3f" % min(runs)


def states(name):
    """The states that Spin stores of the model of a problem, and its seconds; nothing where there is no model, or no Spin."""
    if not (ROOT / "bench/spin" / (name + ".pml")).exists() or not has_spin():
        return ["", ""]
    told, _, seconds = by_spin(name, ["-m100000"], [])
    return ["{:,}".format(int(re.search(r"(\d+) states, stored", told).group(1))), "%.3f" % seconds]


def row(binary, guest, search):
    """A line of the table."""
    path = ROOT / guest
    words = [binary, *search.split(), path]
    (plain, *all_shown), (found, *once_shown) = least(words), least(words + ["--symmetry"])
    fewer = "%.1f" % (plain["tried"] / found["tried"]) if plain and found else ""
    if fewer and any(plain[key] != found[key] for key in plain if key not in COUNTS):
        sys.exit("%s %s: the answers differ" % (search, guest))
    threads = len(re.findall(r"^thread ", path.read_text(encoding="utf-8"), re.MULTILINE))
    shown = search.replace("explore --bound", "bound")
    spin = states(path.stem) if search == "unbounded" else ["", ""]
    return "| " + " | ".join([path.stem, str(threads), shown, *all_shown, *once_shown, fewer, *spin]) + " |"


def main(binary, problems):
    print("| Guest | Threads | Search | Tried | Seconds | Equal threads once | Seconds | Times fewer | Spin's states | Seconds |")
    print("|---|---:|---|---:|---:|---:|---:|---:|---:|---:|")
    for guest, bound in problems:
        for search in ("explore --bound %s" % bound, "unbounded"):
            print(row(binary, guest, search), flush=True)


if __name__ == "__main__":
    if len(sys.argv) < 2 or len(sys.argv) % 2:
        sys.exit(__doc__)
    main(sys.argv[1], cases(sys.argv[2:], PROBLEMS))
