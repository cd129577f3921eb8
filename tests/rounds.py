#!/usr/bin/env python3
"""tests/rounds.py PROGRAM TOOLS: what workers do in each round, and what the answer may depend on.

PROGRAM is `ctxbound`. TOOLS is the program of the crate `tests_tools`, which searches a guest by a gate that writes
down who is asked about which item, and when a round ends. Expected numbers are counted by hand: n threads
of one step each have n! complete schedules, all without a preemption; where a walk tries one schedule,
there are as many walks as schedules.
"""
import json
import math

from program import Tester, guests, refusing, run, run_refused, stores, version

FULL = 64
KEPT = ("bound", "kind", "preemptions", "schedule", "verdict")
NAMES = "ABCDEFGHIJKLMNOP"


def writers(count, bad):
    """Threads of which the first fails where one of the next ones, up to `bad`, is before it. The others are
    there to be in other orders."""
    names = NAMES[1:count]
    return "var x; " + "".join("var %s; " % name.lower() for name in names) + \
        "thread A { load r x; assert r == 0; } " + \
        " ".join("thread %s { store %s 1; }" % (name, "x" if k < bad else name.lower())
                 for k, name in enumerate(names))


GUESTS = {
    **{"threads%d" % count: stores(NAMES[:count].lower()) for count in range(2, 13)},
    "first": "var x; thread A { store x 1; assert 0; } thread B { store x 1; } thread C { store x 1; }",
    "late": writers(7, 2), "later": writers(11, 2),
    # Of the values that the first thread finds one sum in twelve is bad.
    "rare": "var x; var y; var z; thread A { load r x; load s y; load t z; set r r + s; set r r + t; assert r != 213; } "
    "thread B { store x 100; } thread C { store x 200; } thread D { store y 10; } thread E { store y 20; } "
    "thread F { store z 3; } thread G { store z 1; }",
    # The load fails at one place among the four stores. The bound puts off three prefixes: the bad one is the
    # last of all in the order of schedules, and its item is the first of its round in one of the two.
    "moment": "var x; thread A { load r x; assert r != 3; } "
    "thread B { store x 1; store x 2; store x 3; store x 4; }",
    "soon": "var x; thread A { store x 1; store x 2; store x 3; store x 4; } "
    "thread B { load r x; assert r != 1; }",
    "stopped": "thread A { assert 0; }",
    "race": "var x; thread A { store x 1; } thread B { load r x; assert r == 0; }",
    "between": "var x; thread A { store x 1; store x 0; } thread B { load r x; assert r == 0; }",
    "twice": "mutex m; thread A { lock m; lock m; }",
    "empty": "sem s = 0; thread A { acquire s; }",
    # Three threads of four steps: 12! / (4! 4! 4!) schedules.
    "steps": "var x; " + " ".join("thread %s { repeat 4 { load r x; } }" % name for name in "ABC"),
    # The last to store to each of three variables can be any of four threads: 64 ends.
    "ends": "var x; var y; var z; " + " ".join(
        "thread %s { store x %d; store y %d; store z %d; }" % (name, k, k, k)
        for name, k in zip(NAMES, range(1000, 1004))),
    "shared": "var x; " + " ".join("thread %s { load r x; store x r; }" % name for name in "ABCD"),
    "crossed": "mutex m; mutex n; thread A { lock m; lock n; unlock n; unlock m; } "
    "thread B { lock n; lock m; unlock m; unlock n; }",
    "updates": "var x; " + " ".join(
        "thread %s { load r x; set r r + 1; store x r; }" % name for name in "AB"),
    "call": "mutex m; cond c; thread A { lock m; wait c m; unlock m; } thread B { lock m; signal c; unlock m; }",
    # The failure is pruned where sleep sets are used within a bound.
    "pruned": "var x; var y; thread A { store y 1; load r x; assert r == 0; } thread B { store x 1; }",
    "failing": "var x; var y; var z; thread A { store x 1; assert 0; } thread B { store y 1; } "
    "thread C { store z 1; }",
    # As many threads as there may be, each as long as one may be; and such threads that wait in turn, two steps a wait.
    "longest": "var x; " + " ".join("thread %s { repeat 64 { repeat 16 { store x 1; } } }" % name for name in NAMES),
    "turns": "mutex m; cond c; " + " ".join(
        "thread %s { lock m; %s repeat 63 { repeat 8 { signal c; wait c m; } } repeat 6 { signal c; wait c m; } %s }"
        % ((name, "signal c; wait c m;", "unlock m;") if name == NAMES[-1] else (name, "wait c m;", "signal c; unlock m;"))
        for name in NAMES),
    "long": "var x; " + " ".join("thread %s { repeat 100 { repeat 10 { store x 1; } } }" % name for name in "AB"),
}


def ends(*kinds):
    return [{"kind": kind, "vars": list(values)} for kind, *values in kinds]


def good(bound, tried, *kinds):
    return {"all": True, "bound": bound, "ends": ends(*kinds), "failed": 0, "stuck": 0, "tried": tried,
            "verdict": "clean"}


def bad(bound, tried, kind, count, preemptions, schedule, *kinds):
    return {"bound": bound, "ends": ends(*kinds), "failed": count if kind == "failed" else 0, "kind": kind,
            "preemptions": preemptions, "schedule": schedule, "stuck": count if kind == "stuck" else 0,
            "tried": tried, "verdict": "bad"}


# A guest, a search, whether it is quick, the quotas, and its report, worked out by hand.
QUOTAS = (1, 3, 256)
WORKED = [
    ("stopped", 2, False, QUOTAS, bad(0, 1, "failed", 1, 0, "-", ["failed"])),
    ("race", 2, False, QUOTAS, bad(0, 2, "failed", 1, 0, "0,1", ["done", 1], ["failed", 1])),
    ("updates", 0, False, QUOTAS, dict(good(0, 2, ["done", 2]), all=False)),
    ("updates", 1, False, QUOTAS, dict(good(1, 4, ["done", 1], ["done", 2]), all=False)),
    ("updates", 2, False, QUOTAS, good(2, 6, ["done", 1], ["done", 2])),
    ("updates", 9, False, QUOTAS, good(2, 6, ["done", 1], ["done", 2])),
    ("updates", "unbounded", False, QUOTAS, good(None, 4, ["done", 1], ["done", 2])),
    ("updates", 2, True, QUOTAS, good(2, 6, ["done", 1], ["done", 2])),
    ("between", 0, False, QUOTAS, dict(good(0, 2, ["done", 0]), all=False)),
    ("between", 2, False, QUOTAS, bad(1, 3, "failed", 1, 1, "0,1,0", ["done", 0], ["failed", 0])),
    ("crossed", 0, False, QUOTAS, dict(good(0, 2, ["done"]), all=False)),
    ("crossed", 2, False, QUOTAS, bad(1, 6, "stuck", 2, 1, "0,1", ["done"], ["stuck"])),
    ("crossed", "unbounded", False, QUOTAS, bad(None, 3, "stuck", 1, 1, "0,1", ["done"], ["stuck"])),
    ("call", 2, False, QUOTAS, bad(0, 2, "stuck", 1, 0, "1x3,0x2", ["done"], ["stuck"])),
    ("call", "unbounded", False, QUOTAS, bad(None, 2, "stuck", 1, 0, "1x3,0x2", ["done"], ["stuck"])),
    ("twice", 0, False, QUOTAS, bad(0, 1, "stuck", 1, 0, "0", ["stuck"])),
    ("empty", 0, False, QUOTAS, bad(0, 1, "stuck", 1, 0, "-", ["stuck"])),
    ("pruned", 2, False, QUOTAS, bad(0, 2, "failed", 1, 0, "1,0x2", ["done", 1, 1], ["failed", 1, 1])),
    ("pruned", "unbounded", False, QUOTAS, bad(None, 2, "failed", 1, 1, "0,1,0", ["done", 1, 1], ["failed", 1, 1])),
    ("pruned", 2, True, (256,), bad(0, 2, "failed", 1, 0, "1,0x2", ["done", 1, 1], ["failed", 1, 1])),
    ("threads3", 0, False, QUOTAS, good(0, 6, ["done", 1, 1, 1])),
    ("threads3", 2, False, QUOTAS, good(0, 6, ["done", 1, 1, 1])),
    ("threads3", "unbounded", False, QUOTAS, good(None, 1, ["done", 1, 1, 1])),
    ("failing", 0, True, (1,), bad(0, 1, "failed", 1, 0, "0,1,2", ["failed", 1, 1, 1])),
]


class Rounds(Tester):
    seconds = 120
    texts = GUESTS

    def check(self, holds, *what):
        self.expect(" ".join(map(str, what)), holds)

    def heard(self, guest, search, workers, quota=1, limit=0, quick=False, does=("open", 0), size=0):
        """The rounds that the gate heard of, and the report; none where memory is refused. Where a size is given each request
        for so many bytes is refused, and `made` is how many threads the run made."""
        words = [self.given.tools, "rounds", guest, search, "quick" if quick else "whole", workers, quota, limit, *does]
        if size:
            (out, err, status), told = run_refused(words, self.folder, self.seconds, FAIL_SIZE=str(size))
            self.made = told.count("t")
        else:
            out, err, status = run(words, seconds=self.seconds, cwd=self.folder)
        if status:
            self.check(size, *words, "ended with status", status, err)
            return [], {}
        *lines, report = out.split("\n")[:-1]
        rounds, now = [], []
        for line in lines:
            kind, *numbers = line.split()
            if kind == "round":
                rounds.append((now, int(numbers[1])))
                now = []
            else:
                now.append((kind, int(numbers[0]), int(numbers[1])))
        if now:
            rounds.append((now, 0))
        return rounds, json.loads(report)

    def search(self, guest, command, *words):
        """What `ctxbound` writes and its status."""
        return self.run(command, guest, *words)

    def test(self):
        refusing(self.folder)
        for part in (full_rounds, own_rounds, wide, side_by_side, every_size, stops, gates, longest, without_board, hints,
                     limits, bounds, worked, words, examples):
            part(self)


def items(events, *kinds):
    return [(worker, item) for kind, worker, item in events if kind in kinds]


def is_whole(rounds, workers):
    """Whether each round has as many items as it may, each asked about once and walked by who asked."""
    opened = 1
    for events, left in rounds:
        asked, walked = items(events, "go"), items(events, "walked")
        if sorted(item for _, item in asked) != list(range(min(opened, FULL))) or sorted(asked) != sorted(walked):
            return False
        if any(worker >= workers for worker, _ in asked) or items(events, "late", "stop"):
            return False
        opened = left
    return opened == 0


def clean(count, tried, bound=0):
    return good(bound, tried, ["done"] + [1] * count)


def full_rounds(trial):
    """Rounds of small items: each item once, and in some run each worker."""
    for workers in (2, 3, 4, 16):
        seen, runs = set(), 0
        while runs < 200 and (runs < 3 or len(seen) < workers):
            rounds, report = trial.heard("threads7", 0, workers)
            runs += 1
            trial.check(is_whole(rounds, workers), "a round of %d workers isn't whole" % workers)
            walks = [worker for events, _ in rounds for worker, _ in items(events, "walked")]
            trial.check(len(walks) == math.factorial(7), workers, "workers walk", len(walks), "items")
            trial.check(any(len(items(events, "go")) == FULL for events, _ in rounds), "no round is full")
            trial.check(report == clean(7, math.factorial(7)), workers, "workers:", report)
            seen |= set(walks)
        trial.check(seen == set(range(workers)), "of %d workers only these walked: %s" % (workers, seen))


def side_by_side(trial):
    """All workers are at an item at once."""
    for workers in (2, 3, 4, 16):
        rounds, report = trial.heard("threads7", 0, workers, does=("together", workers))
        trial.check(is_whole(rounds, workers), "%d workers aren't out at once" % workers)
        trial.check(report == clean(7, math.factorial(7)), workers, "workers:", report)


def left_by(count, tried):
    """How many prefixes a walk of threads of one step leaves that has tried so many schedules: at each step of
    the last one the threads whose turn would have come later."""
    left, place = 0, tried - 1
    for others in range(1, count):
        place, chosen = divmod(place, others + 1)
        left += others - chosen
    return left


def every_size(trial):
    """Rounds of each number of items, and of schedules that are pruned."""
    chosen = {}
    for count in range(2, 13):
        for quota in range(1, min(200, math.factorial(count))):
            chosen.setdefault(left_by(count, quota), (count, quota))
    for size in range(1, FULL + 1):
        count, quota = chosen[size]
        for workers in (2, 4):
            rounds, report = trial.heard("threads%d" % count, 0, workers, quota, quota + 1)
            asked = sorted(item for _, item in items(rounds[1][0], "go"))
            trial.check(asked == list(range(size)), workers, "workers, a round of", size, "items:", asked)
            trial.check(report["tried"] > quota, report)
    _, alone = trial.heard("shared", "unbounded", 1)
    for workers in (2, 4, 16):
        rounds, report = trial.heard("shared", "unbounded", workers)
        trial.check(is_whole(rounds, workers) and report == alone, workers, "workers, unbounded:", report)
        trial.check(len(rounds) > 2, "few rounds without a bound")


def stops(trial):
    """Gates that stop."""
    for workers in (2, 4, 16):
        rounds, report = trial.heard("threads7", 0, workers, does=("item", 3))
        asked = [item for events, _ in rounds for _, item in items(events, "go")]
        trial.check(report.get("cause") == "stopped" and max(asked) <= 2, "a stop at later items:", report)
        rounds, report = trial.heard("threads8", 0, workers, 256, does=("pass", 20))
        trial.check(report.get("cause") == "stopped" and report["tried"] >= 1000, "a late stop:", report)
        for quick in (False, True):
            rounds, report = trial.heard("threads7", 0, workers, quick=quick, does=("worker", 1))
            asked = {worker for events, _ in rounds for worker, _ in items(events, "go")}
            stopped = [worker for events, _ in rounds for worker, _ in items(events, "stop")]
            last = sorted(item for _, item in items(rounds[-1][0], "go", "stop")) if rounds else []
            trial.check(stopped in ([], [1]) and 1 not in asked, "worker 1 is stopped:", stopped, asked)
            trial.check(last == list(range(len(last))), "items aren't asked about once:", last)
            trial.check((report["verdict"] == "incomplete") == bool(stopped), "stopped once:", report)


def cut(cause, tried):
    """The report of a search of three stores that is cut short."""
    return {"bound": 0, "cause": cause, "ends": ends(["done", 1, 1, 1])[:tried], "failed": 0, "finished": None,
            "schedule": None, "stuck": 0, "tried": tried, "verdict": "incomplete"}


def gates(trial):
    """Gates that let so many calls pass, of a search of three stores by two workers that tries one schedule a walk."""
    whole = clean(3, 6)
    for limit, passes, wanted in ((0, 0, cut("stopped", 0)), (1, 0, cut("stopped", 0)),
                                  (0, 1, cut("stopped", 1)), (1, 1, cut("limit", 1)),
                                  # A stop is looked at before the limit.
                                  (2, 2, cut("stopped", 2)), (0, 100, whole)):
        _, report = trial.heard("threads3", 0, 2, limit=limit, does=("pass", passes))
        trial.check(report == wanted, "limit", limit, "and", passes, "calls pass:", report)
    # A gate that may stop and never does.
    trial.check(trial.heard("threads3", 0, 2)[1] == whole, "an open gate")
    # A search by one worker asks no gate.
    rounds, report = trial.heard("threads3", 0, 1, does=("pass", 0))
    trial.check(report == whole and not any(events for events, _ in rounds), "one worker asks:", rounds, report)
    for _ in range(200):
        _, report = trial.heard("threads3", 0, 2, does=("worker", 1))
        trial.check(report == whole or report.get("cause") == "stopped", "worker 1 alone is stopped:", report)


def longest(trial):
    """Schedules of 16,384 and 24,560 steps. Where a thread begins another one might: 15 + 14 + .. items are left."""
    for guest in ("longest", "turns"):
        rounds, report = trial.heard(guest, 0, 1, limit=1)
        trial.check((report["tried"], report["stuck"], rounds[0][1]) == (1, 0, 120), guest, rounds, report)


def by_one(rounds):
    """Whether worker 0 walks each round's items, in their order."""
    return all(items(events, "go") == [(0, item) for item in range(len(items(events, "go")))]
               for events, _ in rounds)


def own_events(rounds, workers):
    """What was heard in rounds of the workers' own, in a search of one bound: they begin where a round of items is open
    for each worker."""
    for place, (_, left) in enumerate(rounds):
        if left >= FULL * workers:
            return [event for events, _ in rounds[place + 1:] for event in events]
    return []


def last_bound(rounds):
    """What was heard at the last bound of a search."""
    ends = [place for place, (_, left) in enumerate(rounds) if left == 0]
    return [event for events, _ in rounds[ends[-2] + 1:] for event in events]


def own_sizes(events, worker):
    """How many items each round of a worker has, where it asks for each by its number in its own round, from 0 on, and
    says of each that it was walked before it goes on."""
    sizes, told = [], [(kind, item) for kind, who, item in events if who == worker]
    for (asks, asked), (says, walked) in zip(told[::2], told[1::2]):
        if (asks, says) != ("go", "walked") or asked != walked or asked not in (0, sizes[-1] if sizes else 0):
            return []
        sizes = sizes + [1] if asked == 0 else sizes[:-1] + [asked + 1]
    return sizes if len(told) % 2 == 0 else []


def own_rounds(trial):
    """Rounds of the workers' own, where the gate may not stop: each item is asked about once, and told as walked by who
    asked."""
    # Of this guest 900 items are open at once, whatever the order in which workers settle: enough for eight.
    for workers in (2, 4, 8):
        for quick in (False, True):
            rounds, report = trial.heard("threads8", 0, workers, quick=quick, does=("never", 0))
            every = [event for events, _ in rounds for event in events]
            own = own_events(rounds, workers)
            sizes = [own_sizes(own, worker) for worker in {worker for _, worker, _ in own}]
            trial.check(all(sizes), "a round of a worker's own isn't walked in its order")
            trial.check(sum(map(sum, sizes)) == len(items(own, "go")) > 10000, "few items in rounds of the workers' own")
            trial.check(len(items(every, "go")) == len(items(every, "walked")) == math.factorial(8),
                        workers, "workers walk", len(items(every, "walked")), "items")
            trial.check(report == dict(clean(8, math.factorial(8)), **({"quick": True} if quick else {})), report)
            # What is out where the limit is reached is settled, too.
            _, report = trial.heard("threads8", 0, workers, limit=10000, quick=quick, does=("never", 0))
            trial.check(report.get("cause") == "limit" and 10000 <= report["tried"] < 10000 + FULL * workers,
                        workers, "workers, limit 10000:", report)
            # Thousands of items are open where the last of these bounds begins.
            rounds, report = trial.heard("steps", 4, workers, quick=quick, does=("never", 0))
            own = last_bound(rounds)
            sizes = [own_sizes(own, worker) for worker in {worker for _, worker, _ in own}]
            trial.check(all(sizes) and sum(map(sum, sizes)) == len(items(own, "go")), "a full round isn't walked in order")
            trial.check(max(sum(sizes, []), default=0) == FULL, "no round of a worker's own is full:", sizes)


def wide(trial):
    """Guests with many open items at once: one report, whatever the workers and the quota, or for a quick search one
    first bad schedule."""
    for guest, search in (("threads8", 0), ("threads8", 9), ("shared", "unbounded"), ("steps", 2), ("rare", 0),
                          ("rare", "unbounded")):
        for quick in (False, True):
            for quota in (1, 3, 256):
                _, alone = trial.heard(guest, search, 1, quota, quick=quick)
                for workers in (2, 3, 4, 7, 16):
                    rounds, report = trial.heard(guest, search, workers, quota, quick=quick, does=("never", 0))
                    keys = KEPT if quick and alone["verdict"] == "bad" else alone
                    trial.check({key: report.get(key) for key in keys} == {key: alone.get(key) for key in keys},
                                guest, search, workers, "workers, quota", quota, report, alone)
                    if quota == 1 and workers == 2 and search == 0:
                        trial.check(own_events(rounds, workers), guest, "has no rounds of the workers' own")


def without_board(trial):
    """Where no board can be made the first worker walks, and asks the gate. Which requests a board makes isn't said
    anywhere: those of some size are its own, so where all of that size are refused there is never a board, and the
    search has its answer."""
    sizes, stopped = [], []
    for size in range(8, 513, 8):
        rounds, report = trial.heard("threads7", 0, 2, size=size)
        # Where there is a board, a thread is made for one of the two, but where its own requests are refused: then
        # the workers work one after the other, and which of them walks isn't said.
        if rounds and trial.made == 0 and by_one(rounds):
            sizes.append(size)
            trial.check(is_whole(rounds, 1), "without a board something isn't walked")
            trial.check(report == clean(7, 5040), "another report without a board:", report)
            rounds, report = trial.heard("threads7", 0, 2, does=("pass", 50), size=size)
            # Where it is stopped, it may have a request of this size of its own, and so may other walks below.
            if rounds:
                stopped.append(size)
                trial.check(by_one(rounds) and report.get("cause") == "stopped" and report["tried"] == 50,
                            "a stop without a board:", report)
            # A walk tries so many schedules there, too.
            rounds, report = trial.heard("threads7", 0, 2, 3, 1, size=size)
            trial.check(not rounds or report["tried"] == 3, "a walk without a board:", report)
    trial.check(sizes and stopped, "no board was refused")


def asked_after(events, item):
    """The items that the worker who walks this one asks about later in the round."""
    for place, (kind, worker, walked) in enumerate(events):
        if (kind, walked) == ("walked", item):
            return [later for who, later in items(events[place:], "go") if who == worker]
    return []


def hints(trial):
    """What a quick search leaves out."""
    for workers in (2, 8):
        # The root, and then 55 items in their order: the first schedule of 45 is bad, and that of 46. The next round
        # is full of good ones, which all come before.
        counts = []
        for _ in range(20):
            rounds, report = trial.heard("later", 0, workers, limit=100, quick=True, does=("after", 45))
            asked = sorted(item for _, item in items(rounds[1][0], "go"))
            trial.check(asked[:46] == list(range(46)), "what comes first is left out:", asked)
            trial.check(sorted(items(rounds[1][0], "go")) == sorted(items(rounds[1][0], "walked")), "walks aren't told")
            # Who finds a bad schedule leaves out by itself what comes later.
            trial.check(asked_after(rounds[1][0], 45) == [], "a worker goes on after a bad item:", rounds[1][0])
            trial.check(report["schedule"].startswith("1,0,2"), report)
            again = sorted(item for _, item in items(rounds[2][0], "go"))
            trial.check(again == list(range(FULL)), "what is told in a round holds in the next one, too:", again)
            counts.append(len(asked))
        trial.check(min(counts) < 55, workers, "workers leave nothing out")
    for guest, schedule in (("moment", "1x3,0,1"), ("soon", "0,1,0x3")) * 10:
        # The bad item of the second round is the last of all, so none of the others is left out.
        rounds, report = trial.heard(guest, 1, 2, 256, quick=True, does=("after", 0))
        asked = sorted(item for _, item in items(rounds[1][0], "go"))
        trial.check(asked == [0, 1, 2], "items before a bad one:", asked)
        trial.check(report["schedule"] == schedule, report)
    for workers in (2, 4):
        rounds, report = trial.heard("threads7", 0, workers, quick=True)
        trial.check(is_whole(rounds, workers), "a quick search leaves something out of a clean program")
        trial.check(report == dict(clean(7, math.factorial(7)), quick=True), report)
        rounds, whole = trial.heard("late", 0, workers)
        trial.check(is_whole(rounds, workers) and whole["tried"] == math.factorial(7), whole)
        _, quick = trial.heard("late", 0, workers, quick=True)
        trial.check(quick["tried"] < whole["tried"], "a quick search tries all:", quick)
        trial.check(quick["schedule"] == whole["schedule"] == "1,0,2,3,4,5,6", quick, whole)


def limits(trial):
    """Limits, by any number of workers."""
    for workers in (1, 2, 3, 4, 16):
        for quick in (False, True):
            _, report = trial.heard("threads8", 0, workers, 256, 1000, quick)
            trial.check(report.get("cause") == "limit" and 1000 <= report["tried"] <= 17383
                        and report["finished"] is None, workers, "workers, limit 1000:", report)
            # The first round is one walk.
            for quota, limit in ((256, 1), (3, 1), (256, 256), (3, 3)):
                _, report = trial.heard("threads8", 0, workers, quota, limit, quick)
                trial.check(report.get("cause") == "limit" and report["tried"] == quota,
                            workers, "workers, limit", limit, "quota", quota, report)
            # A bad schedule is told also where the limit is reached.
            _, report = trial.heard("race", 2, workers, 256, 1, quick)
            trial.check(report["verdict"] == "bad" and report["tried"] == 2, workers, "workers:", report)
            _, report = trial.heard("shared", "unbounded", workers, 1, 2, quick)
            trial.check(report.get("cause") == "limit", workers, "workers, unbounded, limit 2:", report)
        # The first schedule is bad, and all others come later.
        for search in (0, "unbounded"):
            for limit in (0, 1):
                _, report = trial.heard("first", search, workers, 1, limit, True)
                trial.check(report["verdict"] == "bad" and report["tried"] == 1, workers, "workers:", report)


def bounds(trial):
    """Each bound, and many open items."""
    for bound in range(65):
        for workers in (1, 2):
            _, report = trial.heard("race", bound, workers, 256)
            trial.check(report["bound"] == 0 and report["verdict"] == "bad", "bound", bound, report)
            if bound in (0, 1, 2, 3, 4, 63, 64):
                _, report = trial.heard("steps", bound, workers, 256)
                # The bounds differ up to 9: so many preemptions can three threads of four steps have.
                trial.check(report["bound"] == min(bound, 9), "bound", bound, report)
                if bound > 9:
                    trial.check(report["tried"] == 34650 and report["all"], report)
    rounds, report = trial.heard("steps", 64, 3, 1)
    trial.check(report["tried"] == 34650 and report["all"], report)
    trial.check(max(left for _, left in rounds) > 1000, "few items are open")


def examples(trial):
    """Each example, within one preemption and without a bound: one report, whatever the workers and the quota."""
    every = guests("examples", "examples/real")
    for guest in every:
        for search, asked in ((1, ["explore", "--bound", 1]), ("unbounded", ["unbounded"])):
            wanted = json.loads(trial.search(guest, asked[0], *asked[1:])[0])
            for workers in (1, 2, 3, 8, 16):
                for quota in (1, 3, 256):
                    _, report = trial.heard(guest, search, workers, quota)
                    trial.check(report == wanted, guest, workers, "workers, quota", quota, report, wanted)
    trial.check(len(every) > 60, "few examples:", len(every))


def worked(trial):
    """Searches whose reports were worked out by hand: the same for every number of workers and each quota."""
    for guest, search, quick, quotas, report in WORKED:
        wanted = dict(report, quick=True) if quick else report
        for workers in (1, 2, 8):
            for quota in quotas:
                _, found = trial.heard(guest, search, workers, quota, quick=quick)
                trial.check(found == wanted, guest, search, workers, "workers, quota", quota, found, wanted)


def words(trial):
    """The program: every number of workers, long reports and traces, texts of each length."""
    for guest, others, wanted in (("threads7", ["--bound", 0], 0), ("late", [], 1), ("late", ["--quick"], 1),
                                  ("threads8", ["--bound", 0, "--limit", 1], 3),
                                  ("threads8", ["--bound", 0, "--quick", "--limit", 1], 3)):
        answers = [trial.search(guest, "explore", "--workers", workers, *others) for workers in range(1, 17)]
        for workers, (out, err, status) in enumerate(answers, 1):
            report = json.loads(out or "{}")
            trial.check(status == wanted and err == "", guest, others, workers, "workers:", status, err)
            trial.check(report.get("quick", False) == ("--quick" in others), guest, workers, report)
            same = {key: report.get(key) for key in KEPT}
            trial.check(same == {key: json.loads(answers[0][0]).get(key) for key in KEPT}, guest, workers, report)
            if "--limit" in others:
                trial.check(report.get("tried") == 256, workers, "workers, limit 1:", report)
    for bound in (0, 1, 2, 3, 4, 9, 10, 63, 64):
        out, _, _ = trial.search("steps", "explore", "--bound", bound)
        trial.check(json.loads(out)["bound"] == min(bound, 9), "--bound", bound, out)
    out, _, status = trial.search("ends", "explore", "--bound", 64)
    trial.check(status == 0 and len(out) > 2048 and len(json.loads(out)["ends"]) == 64, "a long report:", len(out))
    out, _, status = trial.search("long", "replay", "0x1000,1x1000")
    trial.check(status == 0 and len(out) > 2**14 and out.count("\n") == 2003, "a long trace:", len(out))
    out, err, _ = trial.run("--version")
    trial.check(out + err == "ctxbound %s\n" % version(), "--version:", out + err)
    report = trial.search("race", "explore")
    for length in [2**k + more for k in range(8, 17) for more in (-1, 0, 1) if 2**k + more <= 65536]:
        trial.write("padded", GUESTS["race"].ljust(length))
        trial.check(trial.search("padded", "explore") == report, "a text of", length, "bytes")


if __name__ == "__main__":
    Rounds.main("tools")
