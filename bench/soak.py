#!/usr/bin/env python3
"""bench/soak.py BINARY MINUTES [SEED]: searches that go on for a long time, and the memory that they take.

Searches guests made at random and those of bench/programs, by 1 to 16 workers, with limits and `--quick`, and
compares each finished report with the one of a single worker: all of it, or for a quick search schedule,
kind and bound. Each minute it prints how many searches there were and the greatest memory of a search since
the minute before; over an hour that has to stay flat. Ends with status 1 at the first difference. Without a
bound a search may go through very many prefixes at which all threads sleep before it tries one more schedule,
and no limit counts these: a search is ended after some seconds, and not compared then.
"""
import json
import os
import random
import signal
import sys
import tempfile
import time

from measured import ROOT
from reference import Maker

PROGRAMS = [("ticket_lock", 3), ("readers_writers", 2), ("semaphore_ring", 1), ("deep_locals", 3)]
SECONDS = 10
KEPT = ("bound", "kind", "preemptions", "schedule", "verdict")


def search(words):
    """What a search prints, its status, and the most memory that it had, in KiB."""
    read, write = os.pipe()
    child = os.fork()
    if child == 0:
        os.dup2(write, 1)
        signal.alarm(SECONDS)
        os.execv(words[0], words)
    os.close(write)
    with os.fdopen(read, "rb") as file:
        printed = file.read()
    _, status, usage = os.wait4(child, 0)
    return printed, os.waitstatus_to_exitcode(status), usage.ru_maxrss


def is_same(words, alone, many):
    """Whether the answers of one worker and of several agree."""
    if alone[1] == 3 or many[1] == 3:
        return "--limit" in words
    if "--quick" not in words:
        return alone[:2] == many[:2]
    first, second = json.loads(alone[0]), json.loads(many[0])
    return alone[1] == many[1] and all(first.get(key) == second.get(key) for key in KEPT)


def asked(chance, folder):
    """A search at random: its command and words, without the number of workers."""
    if chance.random() < 0.2:
        name, bound = chance.choice(PROGRAMS)
        path = str(ROOT / "bench/programs" / (name + ".guest"))
    else:
        path, bound = os.path.join(folder, "program.guest"), chance.choice((0, 1, 2, 3, 64))
        with open(path, "w", encoding="ascii") as file:
            file.write(Maker(chance.randrange(2**40)).text())
    words = ["explore", path, "--bound", str(bound)] if chance.random() < 0.8 else ["unbounded", path]
    words += ["--quick"] if chance.random() < 0.3 else []
    return words + ["--limit", str(chance.choice((1, 100, 20000)))] if chance.random() < 0.5 else words


def main(binary, minutes, seed):
    chance, began, told, searches, most, cut = random.Random(seed), time.monotonic(), 0, 0, 0, 0
    with tempfile.TemporaryDirectory() as folder:
        while time.monotonic() - began < 60 * minutes:
            words = asked(chance, folder)
            if "--limit" not in words and (words[0] == "unbounded" or "64" in words):
                words += ["--limit", "50000"]
            alone = search([binary] + words)
            many = search([binary] + words + ["--workers", str(chance.choice((2, 3, 4, 8, 16)))])
            if -signal.SIGALRM in (alone[1], many[1]):
                cut += 1
            elif not is_same(words, alone, many):
                sys.exit("%s\nalone: %r\nmany:  %r" % (" ".join(words), alone, many))
            searches, most = searches + 2, max(most, alone[2], many[2])
            minute = int((time.monotonic() - began) / 60)
            if minute > told:
                print("minute %d: %d searches, at most %d KiB" % (minute, searches, most), flush=True)
                told, most = minute, 0
    print("%d searches, no difference; %d pairs that took over %d seconds aren't compared" % (searches, cut, SECONDS))


if __name__ == "__main__":
    if len(sys.argv) not in (3, 4):
        sys.exit(__doc__)
    main(os.path.abspath(sys.argv[1]), float(sys.argv[2]), int((sys.argv + ["1"])[3]))
