#!/usr/bin/env python3
"""bench/spin.py BINARY: the same five problems, searched by Spin and by BINARY, side by side.

Each problem is a guest and a Promela model of it in bench/spin. Printed are the lines of each text without
comments, the seconds (of Spin also with making and compiling the checker), and what each found. Spin is
told to look for invalid end states and failed assertions, as it does by default; the last problem is
searched by it within a depth of 6 steps, twice: as it comes, and compiled with -DREACH.
Without Spin (`apt-get install spin`) and a C compiler it says so, and times BINARY alone.
"""
import json
import re
import shutil
import sys
import tempfile

from measured import ROOT, timed

# A problem: its model, its guest, the words for the checker that Spin makes, and those for its compiler.
PROBLEMS = [
    ("lock_order", "examples/lock_order.guest", [], []),
    ("dining_philosophers", "examples/dining_philosophers.guest", [], []),
    ("lost_wakeup", "examples/lost_wakeup.guest", [], []),
    ("short_way", "bench/spin/short_way.guest", ["-m6"], []),
    ("short_way", "bench/spin/short_way.guest", ["-m6"], ["-DREACH"]),
]


def lines_of(path):
    """The lines of a text that are neither empty nor comments."""
    text = re.sub(r"/\*.*?\*/|#[^\n]*", "", path.read_text(encoding="utf-8"), flags=re.DOTALL)
    return sum(1 for line in text.split("\n") if line.strip())


def has_spin():
    return shutil.which("spin") and shutil.which("cc")


def by_spin(name, options, flags):
    """What the checker of a model prints, the seconds of making, compiling and running it, and those of running it."""
    with tempfile.TemporaryDirectory() as folder:
        steps = [timed(*words, cwd=folder) for words in (
            ["spin", "-a", ROOT / "bench/spin" / (name + ".pml")], ["cc", "-O2", "-w", "-o", "pan", *flags, "pan.c"],
            ["./pan", *options])]
    return steps[-1][0], sum(seconds for _, seconds in steps), steps[-1][1]


def by_ctxbound(binary, guest):
    printed, seconds = timed(binary, "explore", guest)
    report = json.loads(printed)
    return seconds, "%s, %s" % (report["kind"], report["schedule"]) if report["verdict"] == "bad" else "nothing"


def main(binary):
    if not has_spin():
        print("Spin or a C compiler isn't here: ctxbound alone")
    print("%-22s %6s %9s %9s  %-20s %6s %9s  %s" % ("problem", "model", "seconds", "run", "Spin found",
                                                    "guest", "seconds", "ctxbound found"))
    for name, guest, options, flags in PROBLEMS:
        printed, whole, ran = by_spin(name, options, flags) if has_spin() else ("", 0, 0)
        found = re.search(r"pan:1: (invalid end state|assertion violated)", printed)
        seconds, answer = by_ctxbound(binary, ROOT / guest)
        title = " ".join([name] + options + flags)
        print("%-22s %6d %9.2f %9.3f  %-20s %6d %9.3f  %s" % (
            title[:22], lines_of(ROOT / "bench/spin" / (name + ".pml")), whole, ran,
            found.group(1) if found else "nothing" if printed else "-", lines_of(ROOT / guest), seconds, answer))


if __name__ == "__main__":
    if len(sys.argv) != 2:
        sys.exit(__doc__)
    main(sys.argv[1])
