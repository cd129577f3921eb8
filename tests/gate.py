#!/usr/bin/env python3
"""The gate: runs its parts, and says where it is.

Usage: tests/gate.py

Each line of a part is passed on as it comes, behind the minute of the gate at which it came, but for
a part's closing line `N passed, M failed`, which stays alone, and for lines that say of one function
or type that it is proved, which are left out. What needs no proof begins beside the proofs, and what is
tried of the built program goes on at once, a part for each processor; the lines of a part come in its turn.
Before the last closing line there is a line on when each crate was proved, one on the processor time, and
one on the whole. The first part that fails ends the gate, with its status.
"""
import atexit
import os
import re
import resource
import shutil
import signal
import subprocess
import sys
import time

from program import ROOT

CLOSING = re.compile(r"(\d+) passed, (\d+) failed$")
PROGRAM = "build/ctxbound"
TOOLS = "crates/tests_tools/out/tests_tools"
FIRST = "crates/ctxbound_first/out/ctxbound_first"
LEFT_OUT = re.compile(r"\w+ \S+: proved$")
# What is tried of the built program after the commands that the documents show.
TRIED = {
    "commands": [sys.executable, "tests/commands.py", PROGRAM, FIRST],
    "refusals and warnings": [sys.executable, "tests/check.py", PROGRAM],
    "explanations": [sys.executable, "tests/explain.py", PROGRAM],
    "explanations beside a simulator": [sys.executable, "tests/simulator.py", PROGRAM],
    "prefixes that cover": [sys.executable, "tests/prefixes.py", PROGRAM],
    "parts that join": [sys.executable, "tests/parts.py", PROGRAM],
    "searches by many processes": [sys.executable, "tests/machines.py", PROGRAM],
    "pages": [sys.executable, "tests/page.py", PROGRAM],
    "the examples as a suite": [PROGRAM, "suite", "examples"],
    "programs made at random": [sys.executable, "tests/reference.py", PROGRAM],
    "equal threads once": [sys.executable, "tests/symmetry.py", PROGRAM],
    "what workers do": [sys.executable, "tests/rounds.py", PROGRAM, TOOLS],
    "what stands around the program": [sys.executable, "tests/around.py", PROGRAM],
    "refused memory": [sys.executable, "tests/allocations.py", PROGRAM, TOOLS],
}
PROVED = re.compile(r"rt: (\w+) proved$")
# What the gate counts in the lines that it passes on.
COUNTED = {
    "proved": PROVED,
    "kept": re.compile(r"rt: \w+ is kept: "),
    "refused": re.compile(r"rt: must-fail \S+: refused"),
    "tests": re.compile(r"test .* \.\.\. ok$"),
}


def begin(words):
    """Begins what a part runs, in a process group of its own, so that all of it ends with the gate."""
    begun = subprocess.Popen(words, cwd=ROOT, stdin=subprocess.DEVNULL, stdout=subprocess.PIPE,
                             stderr=subprocess.STDOUT, text=True, errors="replace", start_new_session=True)
    atexit.register(lambda: begun.poll() is None and os.killpg(begun.pid, signal.SIGTERM))
    return begun


class Gate:
    def __init__(self):
        self.begun = time.monotonic()
        self.counts = dict.fromkeys(COUNTED, 0)
        self.passed = {}
        self.proved_at = {}

    def minute(self):
        return int(time.monotonic() - self.begun) // 60

    def say(self, line):
        print("%3d min  %s" % (self.minute(), line), flush=True)

    def count(self, line):
        for name, form in COUNTED.items():
            self.counts[name] += bool(form.match(line))
        proved = PROVED.match(line)
        if proved:
            self.proved_at[proved[1]] = self.minute()

    def part(self, name, words):
        """Runs a part and answers its closing line; where it fails, the gate ends."""
        return self.follow(name, begin(words))

    def follow(self, name, begun):
        """Passes on the lines of a part that has begun, and answers its closing line; where it fails, the gate ends."""
        self.say("== " + name)
        closing = None
        for line in begun.stdout:
            line = line.rstrip("\n")
            if CLOSING.match(line):
                closing = line
            elif not LEFT_OUT.match(line):
                self.count(line)
                self.say(line)
        status = begun.wait()
        if status:
            self.say("FAILED: " + name)
            print(closing or "0 passed, 1 failed", flush=True)
            sys.exit(status if 0 < status < 256 else 1)
        self.passed[name] = int(CLOSING.match(closing)[1]) if closing else 0
        return closing

    def parts(self, named):
        """Runs parts, as many at once as there are processors, and answers the closing line of the last."""
        waiting, begun = list(named.items()), []
        while waiting or begun:
            while waiting and len(begun) < len(os.sched_getaffinity(0)):
                name, words = waiting.pop(0)
                begun.append((name, begin(words)))
            closing = self.follow(*begun.pop(0))
            if closing and (waiting or begun):
                print(closing, flush=True)
        return closing

    def times(self):
        """When each crate was proved, and the processor time of all parts."""
        used = resource.getrusage(resource.RUSAGE_CHILDREN)
        yield "proved at minute: " + (", ".join("%s %d" % it for it in self.proved_at.items()) or "none")
        yield "processor minutes: %d" % ((used.ru_utime + used.ru_stime) / 60)

    def whole(self):
        kept = self.counts["kept"]
        earlier = " (%d of them by an earlier run on this machine)" % kept if kept else ""
        return ("proved: %d crates%s; refused: %d wrong bodies; passed: %d tests, %d commands that are shown, "
                "%d other comparisons, and %d runs with each request for memory refused in turn; %d minutes"
                % (self.counts["proved"] + kept, earlier, self.counts["refused"], self.counts["tests"],
                   self.passed["shown commands"], sum(self.passed[name] for name in TRIED) - self.passed["refused memory"],
                   self.passed["refused memory"], self.minute()))


def main():
    # So that the parts that run are ended, too.
    signal.signal(signal.SIGTERM, lambda number, _: sys.exit(128 + number))
    gate = Gate()
    gate.part("the list of wrong bodies", [sys.executable, "tests/edits.py"])
    gate.part("the budget of lines", [sys.executable, "tests/budget.py"])
    # What people run who prove nothing.
    unproved = begin([sys.executable, "tests/docs.py", "--unproved"])
    print(gate.part("proofs, wrong bodies and tests", ["rt", "ci"]), flush=True)
    (ROOT / "build").mkdir(exist_ok=True)
    shutil.copyfile(ROOT / "crates/ctxbound/out/ctxbound", ROOT / PROGRAM)
    (ROOT / PROGRAM).chmod(0o755)
    print(gate.part("shown commands", [sys.executable, "tests/docs.py", PROGRAM]), flush=True)
    print(gate.parts(TRIED), flush=True)
    closing = gate.follow("shown commands, nothing proved", unproved)
    for line in gate.times():
        gate.say(line)
    gate.say(gate.whole())
    print(closing, flush=True)


if __name__ == "__main__":
    main()
