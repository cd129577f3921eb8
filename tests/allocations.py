#!/usr/bin/env python3
"""allocations.py BINARY TOOLS: each request of a run for memory, a thread or an open file fails in
turn, alone, with all later ones, or with all of its size.

BINARY is the program. With ample memory each run must end with its own status and say something.
With a request refused, its answer must be the same, or `ctxbound: memory` with status 4 and nothing
on standard output; a suite may also say it of one of its files, if all else that it says is the same, or
after the rows of some files, and `verify` after the lines of some searches. TOOLS is the program of the crate
`tests_tools`. Its `walk` walks all schedules of a guest: with ample memory it must count them and end with status 0,
and with a request refused do the same, or say nothing and end with status 1 or 2. Its `again` makes each call
of the libraries again that was refused: it must say the same, or nothing with status 2. A run that doesn't
end in time fails its sweep. The sweep of a run ends at the first number that is past its last request; since
runs of several threads have more requests or fewer, it ends only after some such numbers in a row. Several
workers must make a thread for all but one of them, once for all rounds of a bound.
"""
import json
import os

from program import Tester, refusing, run, run_refused, stores

MOST = 5000
# So many runs in a row without a refusal end a sweep.
QUIET = 5


PROGRAMS = {
    "race": "var x; thread A { store x 1; store x 0; } thread B { load r x; assert r == 0; }",
    "locks": "mutex m; mutex n; thread A { lock m; lock n; unlock n; unlock m; }"
    " thread B { lock n; lock m; unlock m; unlock n; }",
    "waits": "mutex m; cond c; thread A { lock m; wait c m; unlock m; }"
    " thread B { lock m; signal c; unlock m; }",
    "updates": "var x; thread A { load r x; set r r + 1; store x r; }"
    " thread B { load r x; set r r + 1; store x r; }",
    "late": "var x; var y; thread A { store y 1; load r x; assert r == 0; }"
    " thread B { store x 1; }",
    "loops": "var x; thread A { repeat 5 { set r r + 1; if r == 3 { leave; } } store x r; }",
    "two": "var x; thread A { load r x; store x 1; } thread B { load r x; store x 1; }",
    "cut": "thread A { assert 0;",
    "unknown": "thread A { lock m; }",
    "odd": "var x; thread A { store x q; }",
    # Schedules of more steps than an item has room for.
    "long": "var x; thread A { repeat 50 { store x 1; } } thread B { store x 2; } thread C { store x 3; }",
    "fails": "thread A { assert 0; }", "twice": "mutex m; thread A { lock m; lock m; }",
    "seen": "var x; thread A { store x 1; } thread B { load r x; assert r == 0; }",
    "none": "sem s = 0; thread A { acquire s; }", "bare": "thread A { }", "apart": stores("xyz"),
    # Every kind of statement.
    "kinds": "var x; mutex m; cond c; sem s = 0; thread A { lock m; wait c m; load r x; unlock m; assert r; } "
    "thread B { lock m; store x 1; signal c; unlock m; release s; } "
    "thread C { repeat 2 { acquire s; set k k + 1; if k == 1 { leave; } else { assert 0; } } broadcast c; }",
    # A thread that fails where it reads between the first and the last step of another.
    "three": "var x; var y; thread A { store x 1; store y 1; store x 0; } "
    "thread B { store x 2; store y 2; store x 0; } thread C { load r x; assert r == 0; store y 3; }",
    # Some rounds of several items.
    "six": stores("abcdef"), "five": stores("abcde"),
    # 288 items are open where bound 1 begins: as many as four workers need to have rounds of their own.
    "wide": "var x; " + " ".join("thread %s { repeat 3 { load r x; } }" % name for name in "ABCD"),
    # All fail that have Y before X.
    "bad": "var x; " + stores("cdef").replace("thread C", "thread X { load r x; assert r == 0; } "
                                              "thread Y { store x 1; } thread C"),
}
# A command, a guest, further words, and the status with ample memory.
RUNS = [
    ("replay", "race", "0,1,0", 1), ("replay", "race", "0,0,1", 0),
    ("replay", "race", "1,1,1", 2), ("replay", "race", "0,", 2),
    ("replay", "locks", "0,1", 1), ("replay", "waits", "0,0,1,1,1,0,0", 0),
    ("replay", "waits", "1,1,1,0,0", 1), ("replay", "loops", "0", 0),
    ("replay", "cut", "0", 2), ("replay", "unknown", "0", 2),
    ("explore", "updates", "--workers 1", 0), ("explore", "updates", "--workers 2", 0),
    ("explore", "locks", "--workers 1", 1), ("explore", "locks", "--workers 2", 1),
    ("explore", "waits", "--workers 1", 1), ("explore", "waits", "--workers 2", 1),
    ("explore", "late", "--workers 1", 1), ("explore", "late", "--workers 2", 1),
    ("explore", "locks", "--quick", 1), ("explore", "race", "--workers 2", 1),
    ("explore", "loops", "--workers 2", 0),
    ("explore", "two", "--workers 2", 0), ("explore", "cut", "--workers 2", 2),
    ("explore", "unknown", "--workers 2", 2),
    ("unbounded", "late", "--workers 1", 1), ("unbounded", "late", "--workers 2", 1),
    ("unbounded", "updates", "--workers 1", 0), ("unbounded", "updates", "--workers 2", 0),
    ("unbounded", "locks", "--workers 1", 1), ("unbounded", "locks", "--workers 2", 1),
    ("unbounded", "waits", "--workers 1", 1), ("unbounded", "waits", "--workers 2", 1),
    ("unbounded", "two", "--workers 1", 0), ("unbounded", "two", "--workers 2", 0),
    ("explore", "updates", "--limit 1 --workers 2", 3), ("explore", "updates", "--limit 1 --quick", 3),
    ("explore", "late", "--quick --workers 2", 1), ("unbounded", "locks", "--quick --workers 2", 1),
    ("explore", "six", "--bound 0 --workers 2", 0), ("explore", "six", "--bound 0 --limit 100 --workers 2", 3),
    ("explore", "six", "--bound 0 --limit 100", 3), ("explore", "bad", "--bound 0 --quick", 1),
    ("explore", "wide", "--bound 1 --workers 2", 0), ("explore", "wide", "--bound 1 --workers 4", 0),
    ("explore", "wide", "--bound 1 --workers 4 --quick", 0),
    ("explore", "race", "--trace", 1), ("explain", "locks", "0,1", 1), ("explain", "race", "", 1),
    ("explain", "race", "1,1,1", 2), ("explain", "waits", "--json", 1), ("explain", "race", "0,1,0 --html", 1),
    ("explain", "race", "0,1,0 --json", 1), ("explain", "updates", "--json", 0),
    ("check", "unknown", "", 2), ("check", "cut", "", 2), ("check", "odd", "", 0), ("check", "odd", "--deep", 0),
    ("explore", "late", "--under 0", 1), ("explore", "late", "--under 0 --workers 2", 1), ("explore", "race", "--under 7", 2),
    ("unbounded", "locks", "--under 0 --workers 2", 1), ("prefixes", "late", "--at-least 4", 0),
    ("prefixes", "locks", "--unbounded", 0), ("prefixes", "cut", "", 2),
]
# A guest, of which two parts are joined, the guest that they are of, and the status with ample memory.
JOINS = [("late", "late", 1), ("updates", "updates", 0), ("race", "updates", 2)]
# The same, where all later requests fail, too.
LASTING = [
    ("explore", "updates", "--workers 1", 0), ("explore", "updates", "--workers 2", 0),
    ("explore", "six", "--bound 0 --workers 2", 0), ("explore", "bad", "--bound 0 --workers 2", 1),
    ("unbounded", "locks", "--workers 3", 1), ("replay", "race", "0,1,0", 1),
    ("explore", "wide", "--bound 1 --workers 4", 0),
]
# A suite of a folder with these guests, further words, and the status with ample memory.
SUITES = [("race updates", "", 1), ("late locks", "--json --workers 2", 1)]
# The same of questions whether a program is right.
QUESTIONS = [("verify", "updates", "", 0), ("verify", "late", "", 1), ("verify", "loops", "", 0),
             ("verify", "waits", "--workers 2", 1)]
# Searches of `six` with some rounds of one bound, or one round without a bound.
THREADED = [("explore", "--bound 0"), ("explore", "--bound 0 --trace"), ("explore", "--bound 0 --quick"),
            ("unbounded", ""), ("explain", "--bound 0"), ("suite", "--bound 0")]
# The same as RUNS, where each request of one of these sizes fails.
OF_SIZE = [
    ("explore", "six", "--bound 0 --workers 2", 0), ("explore", "updates", "--workers 2", 0),
    ("explore", "bad", "--bound 0 --quick --workers 2", 1), ("explore", "wide", "--bound 1 --workers 4", 0),
]
SIZES = range(8, 4097, 8)
# A guest and a mode: the walk ends with status 0.
WALKS = [("race", "1"), ("locks", "1"), ("waits", "0"), ("two", "1"),
         ("two", "reduced"), ("locks", "reduced")]
# The words of a tool about a guest, and what it says: how many schedules are tried, failed, stuck and put off by the
# bound, or how long is what calls of the libraries answer. Worked out by hand; for `kinds` and `three` by going
# through all orders of their steps, and what a bound puts off isn't listed for these.
COUNTED = "tried %d failed %d stuck %d deferred %d\n"
SAID = [
    ("walk", guest, mode, COUNTED % counts) for guest, mode, counts in (
        ("fails", "0", (1, 1, 0, 0)), ("seen", "0", (2, 1, 0, 0)), ("twice", "0", (1, 0, 1, 0)),
        ("none", "0", (1, 0, 1, 0)), ("bare", "0", (1, 0, 0, 0)),
        ("updates", "0", (2, 0, 0, 2)), ("updates", "1", (4, 0, 0, 2)), ("updates", "2", (6, 0, 0, 0)),
        ("updates", "64", (6, 0, 0, 0)), ("updates", "reduced", (4, 0, 0, 0)),
        ("race", "0", (2, 0, 0, 1)), ("race", "1", (3, 1, 0, 0)),
        ("locks", "0", (2, 0, 0, 4)), ("locks", "1", (6, 0, 2, 0)), ("locks", "reduced", (3, 0, 1, 0)),
        ("waits", "0", (2, 0, 1, 0)), ("waits", "reduced", (2, 0, 1, 0)),
        ("late", "0", (2, 1, 0, 1)), ("late", "1", (3, 2, 0, 0)), ("late", "reduced", (2, 1, 0, 0)),
        ("apart", "0", (6, 0, 0, 0)), ("apart", "reduced", (1, 0, 0, 0)),
        ("kinds", "0 unlisted", (4, 0, 1, 0)), ("kinds", "1 unlisted", (11, 0, 2, 0)),
        ("kinds", "2 unlisted", (23, 0, 4, 0)), ("kinds", "4", (30, 0, 4, 0)),
        ("three", "1 unlisted", (36, 12, 0, 0)), ("three", "6", (296, 74, 0, 0)))
] + [("again", "updates", "0,1,0,1", "variables 1 viewed 1 steps 4 spelled 7 traced 103\n"
      "settled 1 tried 2 joined 4 ends 1\ncopied 4 next 4 seats 3\n")]
# A guest and a schedule of it.
AGAIN = [("updates", "0,1,0,1"), ("locks", "0,1"), ("waits", "1,1,1,0,0"), ("late", "1,0,0"), ("five", "0,1,2,3,4"),
         ("long", "0x50,1,2")]


def says_memory(answer, _=None):
    return answer == ("", "ctxbound: memory\n", 4)


def says_memory_after_lines(answer, ample):
    lines = ample.out.splitlines(keepends=True)
    return says_memory(("", *answer[1:])) and answer.out.splitlines(keepends=True) == lines[:answer.out.count("\n")]


def says_nothing(answer, _):
    return answer in [("", "", 1), ("", "", 2)]


def says_nothing_of_words(answer, _):
    return answer == ("", "", 2)


def entries_of(text):
    """What a suite says of each file: its name, and the rest as words or members; the head of a table counts as
    one, and the line with its totals is left out."""
    lines = text.splitlines()
    if lines and lines[0].startswith("{"):
        return [(entry.pop("file"), entry) for entry in map(json.loads, lines)]
    column = lines[0].index("verdict") if lines else 0
    return [(line[:column].rstrip(), line[column:].split()) for line in lines[:-1]]


def is_out_of_memory(entry):
    return entry == ["refused", "-", "-", "-", "memory"] or \
        entry == {"expect": None, "status": 4, "note": "memory", "fault": "memory"}


def says_memory_of_a_file(answer, ample):
    """Whether a suite says that memory ran out, perhaps after some rows, or says it of the folder, or of one file and
    of the others what it says with ample memory. The totals of a table count what wasn't read."""
    if says_memory_after_lines(answer, ample):
        return True
    told, wanted = dict(entries_of(answer.out)), dict(entries_of(ample.out))
    changed = [name for name in wanted if told.get(name) != wanted[name]]
    is_file = list(told) == list(wanted) and [is_out_of_memory(told[name]) for name in changed] == [True]
    is_folder = is_out_of_memory(told.get(os.path.dirname(list(wanted)[-1])))
    totals = answer.out.splitlines()[-1]
    is_counted = totals.startswith("{") or totals.endswith(" 1 not read")
    return answer[1:] == ("", 4) and (is_file or is_folder) and is_counted


class Allocations(Tester):
    texts = PROGRAMS
    refusals = 0

    def refused(self, words, **refused):
        """The answer of a run that is refused something, whether it was, and how many threads it made."""
        answer, told = run_refused(words, self.folder, self.seconds, **refused)
        return answer, "r" in told, told.count("t")

    def ample(self, words):
        return run(words, cwd=self.folder)

    def sweep(self, words, status, is_refusal, lasting=False):
        """Refuses one request after the other. A line that says what went wrong, or None."""
        ample, quiet = self.ample(words), 0
        if ample.status != status or ample.out + ample.err == "":
            return "with ample memory: %r" % (ample,)
        for fail_at in range(1, MOST):
            answer, was_refused, _ = self.refused(words, FAIL_AT=str(fail_at), **({"FAIL_ON": "1"} if lasting else {}))
            if answer != ample and not (was_refused and is_refusal(answer, ample)):
                return "request %d refused: %r" % (fail_at, answer)
            self.refusals += was_refused
            quiet = 0 if was_refused else quiet + 1
            if quiet == QUIET:
                return None
        return "no end after %d requests" % MOST

    def sizes(self, words, status):
        """The same where each request for so many bytes is refused, for one size after the other: what walks or
        settling need and never get must end the search, also where all else can be had."""
        ample = self.ample(words)
        if ample.status != status:
            return "with ample memory: %r" % (ample,)
        for size in SIZES:
            answer, was_refused, _ = self.refused(words, FAIL_SIZE=str(size))
            if answer != ample and not (was_refused and says_memory(answer)):
                return "each request for %d bytes refused: %r" % (size, answer)
            self.refusals += was_refused
        return None

    def says(self, words, said):
        """What is wrong with what a run says with ample memory, or None."""
        answer = self.ample(words)
        return None if answer == (said, "", 0) else repr(answer)

    def threads(self, words, workers):
        """What is wrong with the number of threads that so many workers make in a search of some rounds of one bound, or None: a
        thread for each of them but one, once."""
        answer, _, made = self.refused([*words, "--workers", workers])
        return None if answer.status == 0 and made == workers - 1 else "%d workers: %d threads, %r" % (workers, made, answer.status)

    def suite_of(self, names):
        """A folder with these guests, each as `NAME.guest`."""
        for name in names.split():
            self.write("%s/%s.guest" % ("_".join(names.split()), name), PROGRAMS[name])
        return self.folder / "_".join(names.split())

    def part_of(self, name):
        """A file of what is under the empty prefix of a guest's schedules, at each bound twice."""
        return self.write(name + ".part", 2 * self.run("explore", name, "--under", "-").out)

    def trials(self):
        """Each trial: a method, the words, and what else it takes."""
        asked = lambda command, name, words: [self.binary, command, self.folder / name, *words.split()]
        tools = self.given.tools
        for command, words in THREADED:
            for workers in (1, 2, 4, 16):
                yield self.threads, asked(command, "six", words), workers
        for runs, lasting in ((RUNS, False), (LASTING, True)):
            for command, name, words, status in runs:
                yield self.sweep, asked(command, name, words), status, says_memory, lasting
        for name, of, status in JOINS:
            yield self.sweep, [*asked("join", name, ""), self.part_of(of)], status, says_memory
        for names, words, status in SUITES:
            yield self.sweep, asked("suite", self.suite_of(names), words), status, says_memory_of_a_file
        for command, name, words, status in QUESTIONS:
            yield self.sweep, asked(command, name, words), status, says_memory_after_lines
        for command, name, words, status in OF_SIZE:
            yield self.sizes, asked(command, name, words), status
        for tool, guest, words, said in SAID:
            yield self.says, [tools, tool, self.folder / guest, *words.split()], said
        for name, mode in WALKS:
            yield self.sweep, [tools, "walk", self.folder / name, mode], 0, says_nothing
        for name, schedule in AGAIN:
            yield self.sweep, [tools, "again", self.folder / name, schedule], 0, says_nothing_of_words

    def test(self):
        refusing(self.folder)
        for trial, words, *more in self.trials():
            wrong = trial(words, *more)
            self.expect("%s, %s" % (" ".join(map(str, words)), wrong), wrong is None)
        print("%d requests for memory, a thread or a file were refused, one a run, all from one on or all of a size" % self.refusals)
        self.failed += self.refusals == 0


if __name__ == "__main__":
    Allocations.main("tools")
