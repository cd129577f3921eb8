#!/usr/bin/env python3
"""Runs the program's commands where no document shows them, and compares what they print.

Usage: tests/commands.py BINARY [FIRST]

FIRST is the program of the crate `ctxbound_first`. What is expected was worked out by hand from docs/LANGUAGE.md and docs/FORMATS.md, or is what another
command has to print. `make shown` runs it.
"""
import json
import os
import re
import shlex
import subprocess

from program import EXAMPLES, Tester, run, stores, version

# B's load comes before, between or after A's stores: three schedules, and in the second B fails.
RACE = "var x;\nthread A { store x 1; store x 0; }\nthread B { load r x; assert r == 0; }\n"
# Each thread has one step, on variables of their own: sleep sets leave one schedule.
APART = "var x; var y;\nthread A { store x 1; }\nthread B { store y 1; }\n"
# Two threads of eight steps: 12,870 schedules. With no preemption 2, with at most one 2 + 7 + 7.
EIGHTS = ("var x;\nthread A { repeat 8 { store x 1; } }\nthread B { repeat 8 { store x 2; } }\n")
# EIGHTS, but the first schedule of all fails, in which B comes after A.
FAILING_EIGHTS = EIGHTS.replace("thread B {", "thread B { load r x; assert r == 0;")
# Many schedules. B fails between A's last two steps, which takes a preemption.
LATE = EIGHTS.replace("var x;", "var x; var y;").replace("}\nthread B {",
                      "store y 1; store y 0; }\nthread B { load r y; assert r == 0;")

# A waits for B in a loop that may run out of turns.
WAITS = ("var x;\nthread A { repeat 2 { load r x; if r == 1 { leave; } } }\nthread B { store x 1; }\n")
# The same, where A fails if it looked in vain.
IN_VAIN = WAITS.replace("} } }", "} } assert r; }")
# Sleep sets leave one schedule to its end, and cut others short. A loop of LEFT may be left.
THREE = ("cond c; var x; var y; var z; var w;\nthread A { store x 1; }\nthread B { store y 1; }\n"
         "thread C { store z 1; }\n")
LEFT = THREE + "thread D { repeat 2 { load r w; if r == 0 { leave; } } }\n"
# Both A and B may wait when C signals, which wakes the first; the second signal wakes the other. The critical sections come
# in ten orders: two by who retakes the mutex first, where A or B, or both, came before C. In SIGNALS nobody waits.
CROWDED = ("mutex m; cond c; var x;\n"
           "thread A { lock m; load r x; if r == 0 { wait c m; } unlock m; }\n"
           "thread B { lock m; load r x; if r == 0 { wait c m; } unlock m; }\n"
           "thread C { lock m; store x 1; signal c; signal c; unlock m; }\n")
SIGNALS = THREE + "thread D { load r w; if r == 1 { signal c; } }\n"
# Each thread locks the mutex that the other one locked before: one preemption, and both are stuck.
CROSSED = ("mutex m; mutex n;\nthread A { lock m; lock n; unlock n; unlock m; }\n"
           "thread B { lock n; lock m; unlock m; unlock n; }\n")
# If B goes first, A fails with no preemption. In the first bad schedule of all B comes between A's
# steps. There are seven threads more, so that there are 9! schedules without a preemption, and the
# first of those that is bad comes after 8! of them: after those of the first round of a search.
# Of many schedules few are bad, and none with less than two preemptions.
PUTTING_OFF = ("var x;\n" + "".join("thread %s { %s}\n" % (name, "load r x; " * 4) for name in "PQRST")
               + "thread U { load a x; store x 1; load b x; store x 2; load c x; }\n"
               "thread V { load a x; load b x; set s a * 10; set s s + b; assert s != 12; }\n")
CROWD = ("var x; var y; " + "".join("var %s; " % name for name in "abcdefg")
         + "\nthread A { store y 1; load r x; assert r == 0; }\nthread B { store x 1; }\n"
         + "".join("thread %s { store %s 1; }\n" % (name, name.lower()) for name in "CDEFG")
         + "thread H { store a 1; }\nthread I { store b 1; }\n")
# B's store comes before, between or after A's 255: 256 schedules, 2 with no preemption, all with at most one.
BETWEEN = "var x;\nthread A { repeat 15 { repeat 17 { store x 1; } } }\nthread B { store x 2; }\n"
# Of each pair of threads one store is the last: sleep sets leave 2^8 schedules, and cut others short.
PAIRS = "".join("var %s; " % name for name in "abcdefgh") + "".join(
    "\nthread %s%d { store %s %d; }" % (name, number, name, number) for name in "abcdefgh" for number in (1, 2))

FILES = {
    "pruned_away.guest": ("var x; var y;\nthread A { store y 1; load r x; assert r == 0; }\n"
                          "thread B { store x 1; }\n"),
    "race.guest": RACE,
    "Füße": RACE,
    "as_expected.guest": "# expect: bad\n" + RACE,
    "unexpected.guest": "  #expect:clean \n" + RACE,
    "clean.guest": "# expect: clean\n" + APART,
    "not_bad.guest": "# expect: bad\n" + APART,
    "eights.guest": EIGHTS,
    "putting_off.guest": PUTTING_OFF,
    "failing_eights.guest": FAILING_EIGHTS,
    "late.guest": LATE,
    "crowd.guest": CROWD,
    "expects_none.guest": "# expect: bad 0\n" + CROWD,
    "expects_two.guest": "# expect: bad 2\n" + CROWD,
    "expects_clean.guest": "# expect: clean\n" + EIGHTS,
    "at_once.guest": "# expect: bad 0\nthread A { assert 0; }\n",
    "crossed.guest": CROSSED,
    "waits.guest": WAITS,
    "in_vain.guest": IN_VAIN,
    "three.guest": THREE,
    "left.guest": LEFT,
    "crowded.guest": CROWDED,
    "signals.guest": SIGNALS,
    "between.guest": BETWEEN,
    "pairs.guest": PAIRS,
    "refused.guest": "var x\n",
    "unclear.guest": "# expect: bda\n" + RACE,
    "twice.guest": "# expect: bad\n# expect: bad\n" + RACE,
    "folder/b.guest": APART,
    "folder/a.guest": RACE,
    "folder/notes.txt": "no guest\n",
    "tree/b.guest": RACE,
    "tree/deeper/a.guest": APART,
    "tree/deeper/still/notes.txt": "no guest\n",
    "tree/named.guest/c.guest": APART,
    "empty/notes.txt": "no guest\n",
    "tab\tname.guest": APART,
    "back\\slash.guest": APART,
    "it's here.guest": RACE,
}

RACE_REPORT = ('"bound":1,"ends":[{"kind":"done","vars":[0]},{"kind":"failed","vars":[0]}],"failed":1,'
               '"kind":"failed","preemptions":1,"schedule":"0,1,0","stuck":0,"tried":3,"verdict":"bad"}\n')
APART_REPORT = ('"all":true,"bound":null,"ends":[{"kind":"done","vars":[1,1]}],"failed":0,"stuck":0,'
                '"tried":1,"verdict":"clean"}\n')

# The columns of a suite's table, and their widths after the first, which is as wide as the longest name.
HEADS = ("file", "verdict", "bound", "preemptions", "tried", "note", "schedule")
WIDTHS = (10, 5, 11, 9, 19)
RACE_ROW = ("bad", "1", "1", "3")
RACE_TOLD = (*RACE_ROW, "", "0,1,0")
APART_ROW = ("clean", "-", "-", "1")
NO_ROW = ("-", "-", "-")
UNCLEAR = "one `# expect:` is wanted, with bad, bad N, failed, stuck or clean"

# The words, the table's rows, its last line, and the status. Nothing is written on standard error.
SUITES = [
    (["as_expected.guest", "clean.guest"],
     [("as_expected.guest", *RACE_ROW, "expected", "0,1,0"), ("clean.guest", *APART_ROW, "expected")],
     "2 files: 2 as expected", 0),
    (["race.guest"], [("race.guest", *RACE_TOLD)], "1 file: 1 not as expected", 1),
    (["unexpected.guest", "not_bad.guest"],
     [("unexpected.guest", *RACE_ROW, "clean was expected", "0,1,0"), ("not_bad.guest", *APART_ROW, "bad was expected")],
     "2 files: 2 not as expected", 1),
    # the note of a row with a schedule may be wider than its column, which moves the schedule alone
    (["crowd.guest", "expects_two.guest", "--limit", "1"],
     [("crowd.guest", "bad", "-", "1", "2", "fewer preemptions may do", "0,1,0,2,3,4,5,6,7,8"),
      ("expects_two.guest", "bad", "-", "1", "2", "bad 2 was expected; fewer preemptions may do", "0,1,0,2,3,4,5,6,7,8")],
     "2 files: 2 not as expected", 1),
    (["eights.guest", "expects_clean.guest", "--limit", "100", "--bound", "1"],
     [("eights.guest", "clean", "1", "-", "16", "no proof: schedules with more preemptions are left out"),
      ("expects_clean.guest", "clean", "1", "-", "16", "expected; no proof: schedules with more preemptions are left out")],
     "2 files: 2 as expected", 0),
    # the limit is reached at bound 1, with 16 schedules tried, before bound 2
    (["eights.guest", "expects_clean.guest", "--limit", "10"],
     [("eights.guest", "incomplete", "1", "-", "16", "cut short at the limit"),
      ("expects_clean.guest", "incomplete", "1", "-", "16", "cut short at the limit")], "2 files: 2 cut short", 3),
    # of a thread without a step the assertion fails at the start: its schedule is empty
    (["at_once.guest"], [("at_once.guest", "bad", "-", "0", "1", "expected", "-")], "1 file: 1 as expected", 0),
    (["refused.guest", "clean.guest"],
     [("refused.guest", "refused", *NO_ROW, "syntax S3 Expected at 2:1"), ("clean.guest", *APART_ROW, "expected")],
     "2 files: 1 as expected, 1 refused", 2),
    (["unclear.guest", "twice.guest"],
     [("unclear.guest", "refused", *NO_ROW, "line 1: " + UNCLEAR), ("twice.guest", "refused", *NO_ROW, "line 2: " + UNCLEAR)],
     "2 files: 2 refused", 2),
    (["gone.guest", "clean.guest"],
     [("gone.guest", "unread", *NO_ROW, "No such file or directory (os error 2)"), ("clean.guest", *APART_ROW, "expected")],
     "2 files: 1 as expected, 1 not read", 4),
    (["folder"], [("folder/a.guest", *RACE_TOLD), ("folder/b.guest", *APART_ROW)],
     "2 files: 1 as expected, 1 not as expected", 1),
    (["tree"], [("tree/b.guest", *RACE_TOLD), ("tree/deeper/a.guest", *APART_ROW),
                ("tree/named.guest/c.guest", *APART_ROW)], "3 files: 2 as expected, 1 not as expected", 1),
    (["empty"], [("empty", "unread", *NO_ROW, "no file in it ends in .guest")], "1 file: 1 not read", 4),
    (["tab\tname.guest"], [("tab\\x09name.guest", *APART_ROW)], "1 file: 1 as expected", 0),
    (["back\\slash.guest"], [("back\\x5cslash.guest", *APART_ROW)], "1 file: 1 as expected", 0),
    (["crossed.guest"], [("crossed.guest", "bad", "1", "1", "6", "", "0,1")], "1 file: 1 not as expected", 1),
    # 256 are tried of both; of PAIRS prefixes are left then, under which sleep sets leave no schedule
    (["between.guest", "pairs.guest", "--limit", "256"],
     [("between.guest", "clean", "-", "-", "256"), ("pairs.guest", "incomplete", "0", "-", "256", "cut short at the limit")],
     "2 files: 1 as expected, 1 cut short", 3),
    (["between.guest", "pairs.guest", "--limit", "257"],
     [("between.guest", "clean", "-", "-", "256"), ("pairs.guest", "clean", "-", "-", "256")],
     "2 files: 2 as expected", 0),
]
# What follows `# expect:` in RACE, which fails, or in CROSSED, which gets stuck, both with one preemption:
# the status, and the note.
EXPECTATIONS = [
    ("bad", RACE, 0, "expected"), ("failed", RACE, 0, "expected"), ("stuck", RACE, 1, "stuck was expected"),
    ("bad 1", RACE, 0, "expected"), ("bad  1", RACE, 0, "expected"), ("bad 0", RACE, 1, "bad 0 was expected"),
    ("bad 2", RACE, 1, "bad 2 was expected"), ("clean", RACE, 1, "clean was expected"),
    ("stuck", CROSSED, 0, "expected"), ("failed", CROSSED, 1, "failed was expected"),
    ("clean", APART, 0, "expected"), ("failed", APART, 1, "failed was expected"), ("bad 0", APART, 1, "bad 0 was expected"),
    *((words, RACE, 2, "line 1: " + UNCLEAR) for words in
      ("Bad", "bad # why", "bad -1", "bad 1 2", "bad one", "bad 4294967296", "good", "")),
]
# Lines that the C preprocessor lets through, before RACE: the status, and the note.
FOR_CPP = [
    ("#pragma expect: bad", 0, "expected"), ("  # pragma\texpect:clean ", 1, "clean was expected"),
    ("#pragma expect: bad 1\n# 2 \"race.c\"", 0, "expected"), ("#pragma expect: stuck", 1, "stuck was expected"),
    ("#pragma expect: bad ONE", 2, "line 1: " + UNCLEAR), ("#pragma expect: bad\n# expect: bad", 2, "line 2: " + UNCLEAR),
    ("#pragma once", 1, ""), ("#pragmaexpect: bad", 1, ""), ("#pragma pragma expect: bad", 1, ""),
]
# Lines that look like an expectation and are none, and comments that don't.
NEAR = ["# Expect: bad", "# expects: bad", "# expect : bad", "## expect: bad", "# expected: bad", "# EXPECT: bad",
        "# expect bad", "# expect = bad", "# expects bad 1", "var z; # expect: bad", "#pragma expect bad",
        "#pragma Expect: bad", "var z; #pragma expect: bad"]
NOT_NEAR = ["# expect no wonders", "# as we expect: bad", "# bad", "# expecting a bad end", "# an expectation: bad"]

# What `verify` prints, and the status. Of EIGHTS a schedule of N blocks, of which each but the last two is left by a
# preemption, has N - 2, and 2, 14 and 98 schedules have 2, 3 and 4 blocks. A round without a bound tries 256.
VERIFIED = [
    (["clean.guest"], "all schedules: none is bad (1 tried)\n"
     "RIGHT: no schedule of clean.guest fails or gets stuck.\n", 0),
    (["race.guest"], "all schedules: one with 1 preemption is bad (3 tried)\n"
     "no preemption: none is bad (2 tried)\n"
     "BAD: a schedule of race.guest with 1 preemption fails; none with fewer is bad.\n"
     "See why: ctxbound explain race.guest 0,1,0\n", 1),
    (["it's here.guest", "--workers", "2"], "all schedules: one with 1 preemption is bad (3 tried)\n"
     "no preemption: none is bad (2 tried)\n"
     "BAD: a schedule of it's here.guest with 1 preemption fails; none with fewer is bad.\n"
     "See why: ctxbound explain 'it'\\''s here.guest' 0,1,0\n", 1),
    (["eights.guest", "--limit", "100"], "all schedules: cut short, and none of the 256 tried is bad\n"
     "no preemption: none is bad (2 tried)\nat most 1 preemption: none is bad (16 tried)\n"
     "at most 2 preemptions: none is bad (114 tried)\n"
     "at most 3 preemptions: cut short, and none of the 114 tried is bad\n"
     "UNDECIDED: no schedule of eights.guest with at most 2 preemptions is bad. A higher --limit says more.\n", 3),
    (["eights.guest", "--limit", "1"], "all schedules: cut short, and none of the 256 tried is bad\n"
     "no preemption: none is bad (2 tried)\n"
     "at most 1 preemption: cut short, and none of the 2 tried is bad\n"
     "UNDECIDED: no schedule of eights.guest with no preemption is bad. A higher --limit says more.\n", 3),
    (["crossed.guest"], "all schedules: one with 1 preemption is bad (3 tried)\n"
     "no preemption: none is bad (2 tried)\n"
     "BAD: a schedule of crossed.guest with 1 preemption gets stuck; none with fewer is bad.\n"
     "See why: ctxbound explain crossed.guest 0,1\n", 1),
    # two schedules are left, by whether A's load comes before B's store; a round tries 256 without a preemption
    (["crowd.guest", "--limit", "1"], "all schedules: one with 1 preemption is bad (2 tried)\n"
     "no preemption: cut short, and none of the 256 tried is bad\n"
     "BAD: a schedule of crowd.guest with 1 preemption fails; whether one with fewer is bad isn't known.\n"
     "See why: ctxbound explain crowd.guest 0,1,0,2,3,4,5,6,7,8\n", 1),
    # the first bad schedule of all is no nearest one; there are 9! with no preemption
    (["crowd.guest"], "all schedules: one with 1 preemption is bad (2 tried)\n"
     "no preemption: one with no preemption is bad (362880 tried)\n"
     "BAD: a schedule of crowd.guest with no preemption fails.\n"
     "See why: ctxbound explain crowd.guest 1,0x2,2,3,4,5,6,7,8\n", 1),
    (["waits.guest"], "all schedules: none is bad (3 tried)\nRIGHT: no schedule of waits.guest fails or gets stuck.\n"
     "But W12 RanOut at 2:12: this `repeat` runs out of turns with no `leave` in some schedule\n", 0),
    (["in_vain.guest"], "all schedules: one with no preemption is bad (3 tried)\n"
     "BAD: a schedule of in_vain.guest with no preemption fails.\nThere the `repeat` in line 2 ran out of its 2 turns.\n"
     "See why: ctxbound explain in_vain.guest 0x2,1\n", 1),
    # loops are looked for in as many schedules as the limit says, those that are cut short among them
    (["three.guest", "--limit", "1"], "all schedules: none is bad (1 tried)\n"
     "RIGHT: no schedule of three.guest fails or gets stuck.\n", 0),
    (["left.guest", "--limit", "1"], "all schedules: none is bad (1 tried)\n"
     "RIGHT: no schedule of left.guest fails or gets stuck.\n"
     "But loops that run out of turns were looked for in 1 schedule alone.\n", 0),
    (["crowded.guest"], "all schedules: none is bad (4 tried, equal threads once)\n"
     "RIGHT: no schedule of crowded.guest fails or gets stuck.\n"
     "But W13 SignalToOneOfMany at 4:31: in some schedule two threads or more wait for this: a guest wakes the one that "
     "came first, a platform may wake another\n", 0),
    (["signals.guest", "--limit", "1"], "all schedules: none is bad (1 tried)\n"
     "RIGHT: no schedule of signals.guest fails or gets stuck.\n"
     "But signals for which several threads wait were looked for in 1 schedule alone.\n", 0),
    # that B goes first takes no preemption, and comes second of those schedules
    (["pruned_away.guest"], "all schedules: one with 1 preemption is bad (2 tried)\n"
     "no preemption: one with no preemption is bad (2 tried)\n"
     "BAD: a schedule of pruned_away.guest with no preemption fails.\n"
     "See why: ctxbound explain pruned_away.guest 1,0x2\n", 1),
    # the limit is reached with the last schedule; of PAIRS nobody knows yet that it is
    (["between.guest", "--limit", "256"], "all schedules: none is bad (256 tried)\n"
     "RIGHT: no schedule of between.guest fails or gets stuck.\n", 0),
    (["pairs.guest", "--limit", "256"], "all schedules: cut short, and none of the 256 tried is bad\n"
     "no preemption: cut short, and none of the 256 tried is bad\n"
     "UNDECIDED: nothing is known of pairs.guest. A higher --limit says more.\n", 3),
    (["pairs.guest", "--limit", "257"], "all schedules: none is bad (256 tried)\n"
     "RIGHT: no schedule of pairs.guest fails or gets stuck.\n", 0),
]
# Searches, and at some limits the verdict, the bound and how many were tried. Of BETWEEN one walk without a bound tries all,
# and bound 0 puts off 254 prefixes, which are walked in rounds of 64. Of PAIRS prefixes are left when all were tried.
WHOLE = [(limit, "clean", 1, 256) for limit in (195, 255, 256, 257)]
AT_LIMITS = [
    (["explore", "between.guest"], [(1, "incomplete", 0, 2), (2, "incomplete", 0, 2), (3, "incomplete", 1, 66),
                                    (66, "incomplete", 1, 66), (67, "incomplete", 1, 130), (194, "incomplete", 1, 194), *WHOLE]),
    (["explore", "between.guest", "--quick"], [(2, "incomplete", 0, 2), (194, "incomplete", 1, 194), *WHOLE]),
    (["explore", "between.guest", "--bound", "0"], [(limit, "clean", 0, 2) for limit in (1, 2, 3)]),
    (["explore", "between.guest", "--workers", "2"], WHOLE[2:]),
    (["unbounded", "between.guest"], [(limit, "clean", None, 256) for limit in (255, 256, 257)]),
    *((["unbounded", "pairs.guest", *more], [(255, "incomplete", None, 256), (256, "incomplete", None, 256), (257, "clean", None, 256)])
      for more in ([], ["--quick"], ["--workers", "2"])),
]

# What `--progress` writes on standard error. Of RACE no schedule but the bad one has a preemption. Of
# EIGHTS the prefixes put off at bound 0 are those of a thread that is interrupted after one of its
# first seven steps. At a search's last bound none is counted.
RACE_PROGRESS = ("bound 0: 2 tried, 0 bad, 0 open, 1 deferred\n"
                 "bound 1: 3 tried, 1 bad, 0 open, 0 deferred\n")
PROGRESS = [
    (["explore", "race.guest"], RACE_PROGRESS),
    (["explore", "race.guest", "--trace"], RACE_PROGRESS),
    (["explain", "race.guest"], RACE_PROGRESS),
    (["explore", "eights.guest", "--bound", "1"],
     "bound 0: 2 tried, 0 bad, 0 open, 14 deferred\nbound 1: 16 tried, 0 bad, 0 open\n"),
    (["unbounded", "race.guest"], "unbounded: 3 tried, 1 bad, 0 open\n"),
    (["explain", "race.guest", "--unbounded"], "unbounded: 3 tried, 1 bad, 0 open\n"),
    (["suite", "race.guest", "clean.guest"],
     "race.guest:\nunbounded: 3 tried, 1 bad, 0 open\nbound 0: 2 tried, 0 bad, 0 open, 1 deferred\n"
     "bound 1: 3 tried, 1 bad, 0 open\nclean.guest:\nunbounded: 1 tried, 0 bad, 0 open\n"),
    (["verify", "race.guest"], "unbounded: 3 tried, 1 bad, 0 open\nbound 0: 2 tried, 0 bad, 0 open\n"),
    (["verify", "clean.guest"], "unbounded: 1 tried, 0 bad, 0 open\n"),
    (["verify", "waits.guest", "--limit", "9"],
     "unbounded: 3 tried, 0 bad, 0 open\ncaveats: looked for in at most 9 schedules\n"),
    (["verify", "waits.guest"],
     "unbounded: 3 tried, 0 bad, 0 open\ncaveats: looked for in at most 1000000 schedules\n"),
]
PROGRESS_LINE = re.compile(r"(?:bound (\d+)|unbounded): ([\d,]+) tried, ([\d,]+) bad, ([\d,]+) open"
                           r"(?:, ([\d,]+) deferred)?")

# Words that ask for nothing.
REFUSED = [
    [], ["replay"], ["replay", "a", "0", "1"], ["relay", "a"], ["replay", "--fast", "a"], ["explore"],
    ["explore", "a", "--bound", "65"], ["explore", "a", "--bound", "x"], ["explore", "a", "--workers", "0"],
    ["explore", "a", "--workers", "17"], ["unbounded", "a", "--limit", "0"],
    ["unbounded", "a", "--limit", "9223372036854775808"], ["unbounded", "a", "--bound", "1"],
    ["frobnicate"], ["suite"], ["prefixes"], ["join"], ["verify"], ["verify", "a", "b"], ["verify", "a", "--bound", "1"],
]
# Words that would do nothing: nothing is searched where a schedule is given, JSON and a page have no columns,
# and only a deep check goes through schedules. Each by itself is taken.
USELESS = [
    *(["explain", "race.guest", "0,1,0"] + words for words in (
        ["--bound", "5"], ["--unbounded"], ["--workers", "4"], ["--limit", "9"], ["--quick"], ["--progress"])),
    *(["explain", "race.guest", form] + words for form in ("--json", "--html")
      for words in (["--all"], ["--width", "80"])),
    ["explain", "race.guest", "--json", "--html"], ["check", "race.guest", "--limit", "9"],
    ["check", "race.guest", "--remarks"], ["check", "race.guest", "--short", "--json"],
    *([command, "race.guest", "--under", "0", word] for command in ("explore", "unbounded") for word in ("--quick", "--symmetry", "--trace")),
    ["join", "race.guest", "--bound", "1", "--unbounded"],
    ["explain", "race.guest", "--steps", "3", "--all"], ["explain", "race.guest", "--bound", "1", "--unbounded"],
]
# What is said where the command is left out or misspelt.
HINTED = [
    ([], "[subcommands: explore, unbounded, replay, explain, check, suite, verify, prefixes, join, help]\n"),
    (["relay", "a"], "tip: a similar subcommand exists: 'replay'\n"),
    (["verfy", "a"], "tip: a similar subcommand exists: 'verify'\n"),
    (["frobnicate"], "For more information, try '--help'.\n"),
]
HELPED = [["--help"], ["replay", "--help"], ["explore", "--help"], ["unbounded", "--help"], ["help", "replay"]]
HELP_END = """

Examples:
  ctxbound verify examples/lock_order_fixed.guest
  ctxbound explore examples/first.guest --trace
  ctxbound unbounded examples/lost_update_fixed.guest
  ctxbound replay examples/first.guest 0,1,0
  ctxbound explain examples/lock_order.guest
  ctxbound check examples/first.guest
  ctxbound suite examples

`clean` with `"all":false` is no proof: schedules with more preemptions were left out.
Try `unbounded` first where a program is small: it leaves no outcome out.
`--workers 4` ends a long search two to three times sooner on four processors.

Statuses:
  0  no schedule is bad, or a suite's files are as expected; a replay that is done, or not complete
  1  a schedule is bad: it failed or got stuck; so did a replay
  2  words, text, program or schedule refused; help or version shown
  3  the search was cut short, or parts of one are missing
  4  out of memory, or the file can't be read or the output written
"""
# Words, and what is written on both streams and the status.
WORDS = [
    (["replay", "race.guest"], ("preemptions 0\nkind none\nvars x=0\n", "", 0)),
    (["replay", "race.guest", "-"], ("preemptions 0\nkind none\nvars x=0\n", "", 0)),
    (["replay", "race.guest", "0,1"],
     ("0 A store x 1\n1 B load x 1 preempt stop assert\npreemptions 1\nkind none\nvars x=1\n", "", 0)),
    (["replay", "Füße"], ("preemptions 0\nkind none\nvars x=0\n", "", 0)),
    (["replay", "no/such/file.guest", "0"], ("", "ctxbound: file\n", 4)),
    ([b"\xff"], ("", "ctxbound: words NotUtf8\n", 2)),
    (["replay", "race.guest", b"0,\xff"], ("", "ctxbound: words NotUtf8\n", 2)),
    # All but the last step of a thread can be followed by a preemption.
    (["explore", "eights.guest", "--bound", "64", "--workers", "16", "--limit", "9223372036854775807"],
     ('{"all":true,"bound":14,"ends":[{"kind":"done","vars":[1]},{"kind":"done","vars":[2]}],"failed":0,'
      '"stuck":0,"tried":12870,"verdict":"clean"}\n', "", 0)),
]

# A thread as long as one may be, and one that waits for a broadcast together with another one.
LONGEST = "var x; thread A { repeat 64 { store x 1; store x 2; store x 3; store x 4; } }"
TWO_WAITERS = ("mutex m; cond c; thread A { lock m; wait c m; unlock m; } thread B { lock m; wait c m; unlock m; } "
               "thread C { lock m; broadcast c; unlock m; }")
SIXTEEN = "ABCDEFGHIJKLMNOP"
# A thread of copies of copies.
COPIES = "thread A { " + "repeat 100 { " * 32 + "%s" + " }" * 33
NO_STEPS = "preemptions 0\nkind done\nvars\n"
# Texts by what is wrong with them first, each with its place. Those in tests/rows.txt and tests/check.py are other ones.
FIRST_FAULTS = {
    "syntax S1 NotAscii": [
        ("# \u00c3", "1:3"), ("\ufeffvar x;", "1:1"), ("var \u00c3", "1:5"), ("var x\u00c3;", "1:6")],
    "syntax S2 BadChar": [
        ("var x;\r\n\t@", "2:2"), ("var\fx;", "1:4")],
    "syntax S3 Expected": [
        ("thread A { assert 0; # no end\n ", "2:2"), ("mutex m", "1:8"), ("thread A { store x 1 }", "1:22"),
        ("sem s 1;", "1:7"), ("thread A { add r x }", "1:20"), ("thread A { add r x 1 2; }", "1:22"),
        ("thread A { cas r x 0 1 2; }", "1:24"), ("cond lock;", "1:6"), ("cond 12ab;", "1:6"),
        ("cond 9223372036854775808;", "1:6"), ("var add;", "1:5"), ("sem cas = 1;", "1:5"),
        ("thread A { add r 1 2; }", "1:18"), ("sem s = x;", "1:9"), ("sem s = -1;", "1:9"),
        ("thread A { repeat x { } }", "1:19"), ("thread A { repeat   00 { } }", "1:21"), ("var x = y;", "1:9"),
        ("var x = -y;", "1:10"), ("thread A { store x }", "1:20"), ("thread A { cas r x 0; }", "1:21"),
        ("thread A { var }", "1:12"), ("thread A { else { } }", "1:12"), ("thread A { adds r x 1; }", "1:12"),
        ("thread A { 1 }", "1:12"), ("thread A { ; }", "1:12"), ("var x y;", "1:7"), ("var x == 1;", "1:7"),
        ("lock m;", "1:1"), ("thread A { } var x;", "1:14"), ("thread A { } else { }", "1:14"), ("va\u00c3", "1:1"),
        ("lock \u00c3", "1:1")],
    "syntax S4 NumberTooBig": [
        ("thread A { cas r x 0 9223372036854775808; }", "1:22")],
    "check C1 Duplicate": [
        ("var x; thread x { }", "1:15"), ("mutex B; thread A { lock B; } thread B { }", "1:38"),
        ("thread A { } thread A { }", "1:21"), ("mutex m; mutex m;", "1:16")],
    "check C3 WrongKind": [
        ("thread A { lock B; } thread B { }", "1:17"), ("var x; thread A { load x x; }", "1:24"),
        ("var x; thread A { add x x 1; }", "1:23"), ("var x; thread A { add r x x; }", "1:27"),
        ("mutex m; thread A { cas r m 0 1; }", "1:27"), ("var x; thread A { cas r x x B; } thread B { }", "1:27"),
        ("var x; thread A { cas r x q B; } thread B { }", "1:29")],
    "check C7 LeaveOutside": [
        ("thread A { leave; lock m; }", "1:12"),
        ("thread A { repeat 100 { repeat 11 { assert 1; } } } thread B { leave; }", "1:64")],
    "check C2 Unknown": [
        ("thread A { add r x 1; }", "1:18")],
}
# How the report of a search begins that is cut short, up to the number of schedules that were tried.
CUT_SHORT = ('{"bound":0,"cause":"limit","ends":[{"kind":"done","vars":[1,1,1,1,1,1,1,1]}],"failed":0,'
             '"finished":null,"schedule":null,"stuck":0,"tried":')


# What a preprocessor writes before a line: `cpp` of two files, `m4` of one, and a text without a mark. Each with its
# number of lines, the file and the line that come after it, whether `explain` names that file, and where x is declared.
MARKS = {
    "cpp": ('# 1 "pair.c"\nvar x;\n# 1 "lib/worker.inc" 1 3\n', 3, "lib/worker.inc", 1, True, ("pair.c", 1)),
    "m4": ('#line 12 "lock.m4"\nvar x;\n#line 40\n', 3, "lock.m4", 40, False, ("lock.m4", 12)),
    "none": ("var x;\n# 40\n", 2, "-", 3, False, ("-", 1)),
}
LOADS = "thread A { load r x;\n  assert r; }\n"
UNKNOWN = "thread A {\n  load r x; store y r; }\n"
WAITS = "thread A {\n  repeat 1 { load r x; if r { leave; } } }\nthread B { store x 1; }\n"


def threads(names, statements=""):
    """Threads of these names, with these statements."""
    return "".join("thread %s { %s} " % (name, statements) for name in names)


def fullest():
    """A text with as many objects of each kind, threads, locals and instructions as there may be."""
    text = "".join("var v%d = %d; " % (n, n) for n in range(16))
    text += "".join("mutex m%d; cond c%d; sem s%d = %d; " % (n, n, n, n) for n in range(8))
    loads = "".join("load r%d v%d; " % (n, n) for n in range(16))
    return text + threads(["t%d" % n for n in range(16)], loads + "repeat 63 { repeat 16 { store v15 r15; } } ")


def replays_at_limits():
    """Texts and schedules at their limits and past them: what is on standard input, the schedule, and what is
    written on both streams and the status."""
    for count, schedule, line in ((65536, "-", "check C4 NoThreads"), (65537, "x", "syntax S5 TooLong at 1:1"),
                                  (200000, "x", "syntax S5 TooLong at 1:1")):
        yield " " * count, schedule, ("", "ctxbound: %s\n" % line, 2)
    steps = "".join("%d A store x %d\n" % (step, step % 4 + 1) for step in range(256))
    yield LONGEST, ",".join(["0"] * 256), (steps + "preemptions 0\nkind done\nvars x=4\n", "", 0)
    yield LONGEST, ",".join(["0"] * 4097), ("", "ctxbound: schedule P2 NotEnabled at 256\n", 2)
    # The brace of a 33rd block is too deep, closed or not; another token there is refused since it is no brace.
    for text, line in (("if 1 { " * 33, "S6 TooDeep"), ("if 1 { " * 33 + "} " * 34, "S6 TooDeep"),
                       ("if 1 { " * 32 + "if 1 x", "S3 Expected")):
        yield "thread A { " + text, "x", ("", "ctxbound: syntax %s at 1:241\n" % line, 2)
    yield "thread A { " + "if 1 { " * 32 + "} " * 33, "-", (NO_STEPS, "", 0)
    # Copies of nothing take no time; those of one statement are too many.
    yield COPIES % "", "-", (NO_STEPS, "", 0)
    yield COPIES % "assert 1;", "-", ("", "ctxbound: check C6 CodeTooLong in thread 0\n", 2)
    yield ("var x;\nthread A {\n" + "".join("add r x %d;\n" % n for n in range(4650)) + "}").ljust(65536), "-", (
        "", "ctxbound: check C6 CodeTooLong in thread 0\n", 2)
    yield fullest(), "-", ("preemptions 0\nkind none\nvars %s\n" % " ".join("v%d=%d" % (n, n) for n in range(16)), "", 0)
    yield ("var x = 9223372036854775807; var y = -9223372036854775807; thread A { }", "-", (
        "preemptions 0\nkind done\nvars x=9223372036854775807 y=-9223372036854775807\n", "", 0))
    for fault, texts in FIRST_FAULTS.items():
        for text, place in texts:
            yield text, "!", ("", "ctxbound: %s at %s\n" % (fault, place), 2)
    named = "".join("var %s; " % name for name in "abcdefghijklmnop")
    yield named + "var a; thread A { }", "!", ("", "ctxbound: check C1 Duplicate at 1:117\n", 2)
    named = "".join("set %s 0; " % name for name in "abcdefghijklmnop")
    yield "thread A { %sset a 0; repeat 1 { if r { } } }" % named, "!", ("", "ctxbound: check C5 TooMany at 1:179\n", 2)
    yield "thread A { } thread B { repeat 100 { repeat 11 { assert 1; } } }", "!", (
        "", "ctxbound: check C6 CodeTooLong in thread 1\n", 2)
    yield b"# \xc3", "x", ("", "ctxbound: syntax S1 NotAscii at 1:3\n", 2)
    yield threads(SIXTEEN[:9]), "-", (NO_STEPS, "", 0)
    yield threads(SIXTEEN), "-", (NO_STEPS, "", 0)
    yield threads(SIXTEEN + "Q"), "-", ("", "ctxbound: check C5 TooMany at 1:216\n", 2)
    steps = "".join("%d %s add x %d %d\n" % (step, SIXTEEN[step // 2], step, step + 1) for step in range(32))
    yield ("var x; " + threads(SIXTEEN, "add r x 1; add r x 1; "), ",".join("%dx2" % thread for thread in range(16)),
           (steps + "preemptions 0\nkind done\nvars x=32\n", "", 0))
    for cut in range(len(TWO_WAITERS)):
        yield TWO_WAITERS[:cut], "!", ("", "ctxbound: %s\n" % line_of_cut(TWO_WAITERS[:cut], TWO_WAITERS[cut:]), 2)


def line_of_cut(kept, rest):
    """What is said of a text of which this is kept and this is cut off, with a schedule that is none. A cut between
    declarations and threads leaves a program, or no thread yet. Any other leaves a token that lacks: at the
    end, or where a word was cut."""
    if kept.count("{") == kept.count("}") and kept.strip()[-1:] in ("", ";", "}"):
        return "schedule Q1 BadSchedule at 0" if "}" in kept else "check C4 NoThreads"
    word = re.search("[A-Za-z]*$", kept)[0] if rest[:1].isalpha() else ""
    return "syntax S3 Expected at 1:%d" % (len(kept) - len(word) + 1)


def table(rows, sums):
    """A suite's table: each cell is at the start of its column, or two blanks after the one before."""
    widths = (max(len(row[0]) for row in (HEADS, *rows)), *WIDTHS, 0)
    text = ""
    for row in (HEADS, *rows):
        line, start = "", 0
        for cell, width in zip(row, widths):
            line = line.ljust(start) + cell
            start = max(start + width, len(line)) + 2
        text += line.rstrip() + "\n"
    return text + sums + "\n"


def json_line(file, expect, status, note, report):
    """The object of a file: its keys in this order, and the members of its report, or why it has none."""
    head = json.dumps({"file": file, "expect": expect, "status": status, "note": note}, separators=(",", ":"))
    return head[:-1] + "," + (report or '"fault":%s}\n' % json.dumps(note))


class Commands(Tester):
    texts = FILES

    def run(self, words, given=b""):
        return super().run(*words, given=given)

    def answers(self, words, *wanted, given=b""):
        """Compares what is written on both streams and the status."""
        self.same("ctxbound %r" % (words,), self.run(words, given), wanted)

    def compare(self, words, printed, wanted):
        self.same("ctxbound %r" % (words,), printed, wanted)

    def words(self):
        """What the words ask for, and what is said of those that ask for nothing."""
        for words, wanted in WORDS:
            self.answers(words, *wanted)
        words = ["unbounded", "--quick", "--limit", "1", "--workers", "2", "eights.guest"]
        out, err, status = self.run(words)
        report = json.loads(out)
        self.compare(words, [report.get(key) for key in ("verdict", "cause", "bound", "quick")] + [err, status],
                     ["incomplete", "limit", None, True, "", 3])
        for words in REFUSED:
            out, err, status = self.run(words)
            self.compare(words, (out, err[:7], status), ("", "error: ", 2))
        for words in USELESS:
            out, err, status = self.run(words)
            told = re.match(r"error: the argument '[^']*' cannot be used with '[^']*'\n|"
                            r"error: the following required arguments were not provided:\n  --deep\n", err)
            self.compare(words, (out, bool(told), status), ("", True, 2))
        for words, line in HINTED:
            out, err, status = self.run(words)
            self.compare(words, (out, line in err, status), ("", True, 2))
        for words in HELPED:
            out, err, status = self.run(words)
            self.compare(words, (out, err[-len(HELP_END):], status), ("", HELP_END, 2))
        self.answers(["--version"], "", "ctxbound %s\n" % version(), 2)

    def peak(self, *words):
        """The most memory that the program holds as it answers, in kilobytes."""
        begun = subprocess.Popen([self.binary, *words], cwd=self.folder, stdout=subprocess.DEVNULL)
        return os.wait4(begun.pid, 0)[2].ru_maxrss

    def memory(self):
        """A quick search that puts much off holds no more than the full one, though it finds a bad schedule."""
        words = ["explore", "--bound", "3", "putting_off.guest"]
        full, quick = self.peak(*words), self.peak(*words, "--quick")
        self.compare(words, (full > 60000, quick <= full), (True, True))

    def limits(self):
        """Texts, schedules and searches at their limits and past them."""
        for text, schedule, wanted in replays_at_limits():
            self.answers(["replay", "-", schedule], *wanted, given=text)
        self.answers(["check", "-"], "", "", 0, given=COPIES % "")
        # Eight threads of one store each: more schedules than a round tries.
        for words, limits in AT_LIMITS:
            for limit, *wanted in limits:
                out, err, status = self.run([*words, "--limit", str(limit)])
                told = json.loads(out)
                self.compare([*words, limit], ([told[key] for key in ("verdict", "bound", "tried")], err, status),
                             (wanted, "", 0 if wanted[0] == "clean" else 3))
        words = ["explore", "-", "--bound", "0", "--limit", "1000"]
        out, err, status = self.run(words, stores(SIXTEEN[:8].lower()))
        tried = int(re.match(r"\d*", out[len(CUT_SHORT):])[0] or 0)
        self.compare(words, (out[:len(CUT_SHORT)], 1000 <= tried <= 17383, err, status), (CUT_SHORT, True, "", 3))

    def suites(self):
        for words, rows, sums, status in SUITES:
            self.answers(["suite"] + words, table(rows, sums), "", status)
        for words, files, status in (
                (["as_expected.guest", "clean.guest"],
                 [("as_expected.guest", "bad", 0, "expected", RACE_REPORT),
                  ("clean.guest", "clean", 0, "expected", APART_REPORT)], 0),
                (["refused.guest", "gone.guest", "race.guest"],
                 [("refused.guest", None, 2, "syntax S3 Expected at 2:1", None),
                  ("gone.guest", None, 4, "No such file or directory (os error 2)", None),
                  ("race.guest", None, 1, "", RACE_REPORT)], 4)):
            lines = "".join(json_line(*file) for file in files)
            self.answers(["suite", "--json"] + words, lines, "", status)

    def expectations(self):
        """What is expected is met or not, and a comment that is nearly an expectation is told of."""
        for words, text, status, note in EXPECTATIONS:
            self.told_of_text("# expect: %s\n%s" % (words, text), status, note)
        for line, status, note in FOR_CPP:
            self.told_of_text(line + "\n" + RACE, status, note)
        for line in NEAR:
            told = "looks like `# expect:` and isn't"
            self.told_of_text(line + "\n" + APART, 0, "line 1 " + told)
            self.told_of_text("# expect: bad\n%s\n%s" % (line, RACE), 0, "expected; line 2 " + told)
        for line in NOT_NEAR:
            self.told_of_text(line + "\n" + APART, 0, "")

    def told_of_text(self, text, status, note):
        """The status and the note of a text by itself."""
        words = ["suite", "--json", "-"]
        out, err, found = self.run(words, text)
        self.compare(words + [text], (json.loads(out)["note"], err, found), (note, "", status))

    def rows_as_they_come(self):
        """A row is written once its file is done: the one before a pipe that nobody writes to is there."""
        pipe = self.folder / "pipe.guest"
        os.mkfifo(pipe)
        words = ["suite", "clean.guest", "pipe.guest"]
        with subprocess.Popen([self.binary] + words, cwd=self.folder, stdout=subprocess.PIPE) as started:
            lines = [started.stdout.readline().decode().split() for _ in range(2)]
            pipe.write_text(APART)
            rest, status = started.stdout.read().decode().split("\n"), started.wait(self.seconds)
        pipe.unlink()
        self.compare(words, (lines, [line.split() for line in rest[:2]], status),
                     ([list(HEADS), ["clean.guest", *APART_ROW, "expected"]],
                      [["pipe.guest", *APART_ROW], "2 files: 2 as expected".split()], 0))

    def verified(self):
        """Whether a program is right: a line on each search, and then the answer."""
        for words, lines, status in VERIFIED:
            self.answers(["verify"] + words, lines, "", status)
        for words, line, status in ((["refused.guest"], "ctxbound: syntax S3 Expected at 2:1\n", 2),
                                    (["gone.guest"], "ctxbound: gone.guest: No such file or directory (os error 2)\n", 4)):
            self.answers(["verify"] + words, "", line, status)
        # that it is right is written before anything is looked for that weakens it
        done = subprocess.run([self.binary, "verify", "waits.guest", "--progress"], cwd=self.folder, timeout=self.seconds,
                              stdout=subprocess.PIPE, stderr=subprocess.STDOUT, check=False)
        self.compare(["verify", "--progress"], [line.split()[0] for line in done.stdout.decode().split("\n")[:-1]],
                     ["unbounded:", "all", "RIGHT:", "caveats:", "But"])
        # the schedule that is named is the one that it says
        told = self.run(["verify", "it's here.guest"])[0].split("ctxbound ")[-1]
        self.compare(["verify"], self.run(shlex.split(told))[2], 1)

    def marked(self):
        """Places that a person is told are those of a preprocessor's marks; others are those in the text."""
        for name, (head, before, file, line, is_named, declared) in MARKS.items():
            place, is_marked = "%s:%d" % (file, line + 1), name != "none"
            told = "%s:%d" % (file, line) if is_named else "line %d" % line
            after = "%s:%d" % (file, line + 2) if is_marked else "line %d" % (line + 2)
            refusal = "check C2 Unknown at %d:19" % (before + 2)
            begins = ((["explain", "-", "0"], LOADS,
                       place + ": FAILED: assert r   in A after 1 step with 0 preemptions.\n"
                       "    r = 0   loaded in step 0 (%s) from x, which nobody had written before\n" % told),
                      (["check", "--short", "-"], LOADS, "%s:%d%s: warning W4 NeverStored: " % (
                          *declared, "" if is_marked else ":5")),
                      (["check", "--short", "-"], UNKNOWN, place + ("" if is_marked else ":19") + ": error C2 Unknown: "),
                      (["check", "-"], UNKNOWN, (place + ":\n") * is_marked + "ctxbound: %s\n" % refusal),
                      *((words, UNKNOWN, "ctxbound: %s\n" % refusal)
                        for words in (["replay", "-", "0"], ["explore", "-"], ["explain", "-", "0"])))
            has = ((["suite", "-"], UNKNOWN, refusal + " (%s)" % place * is_marked + "\n"),
                   (["suite", "-"], LOADS + "# Expect: bad\n", after + " looks like `# expect:` and isn't  0\n"),
                   (["suite", "-"], LOADS + "# expect: good\n", after + ": one `# expect:` is wanted"),
                   (["verify", "-"], WAITS, "But W12 RanOut at %s: " % (place if is_marked else "%d:3" % (line + 1))))
            for words, text, wanted in begins + has:
                out, err, _ = self.run(words, (head + text))
                is_so = (err + out).startswith(wanted) if (words, text, wanted) in begins else wanted in out + err
                self.compare([name, *words], wanted if is_so else err + out, wanted)
            out, _, _ = self.run(["check", "--json", "-"], (head + "mutex x;\nthread A { }\n"))
            found = json.loads(out)
            self.compare([name, "check", "--json"], [found[key] for key in ("file", "line", "column", "end")]
                         + [(note.get("file", "-"), note["line"]) for note in found["notes"]],
                         [file, line, 7, {"line": line, "column": 8}, declared])

    def suites_cut_short(self):
        """Where the search without a bound is cut short, or finds a schedule with preemptions, one with
        fewest is looked for up to these. Where that is cut short too, the first one counts."""
        for file, words, wanted in (
                ("failing_eights.guest", ["--limit", "100"], ("bad", 0, 0, 1, "")),
                ("late.guest", ["--limit", "100", "--bound", "0"], ("bad", 1, 1, 1, "")),
                ("late.guest", ["--limit", "1"], ("incomplete", None, None, 1, "")),
                ("crowd.guest", ["--limit", "1"], ("bad", None, 1, 1, "fewer preemptions may do")),
                ("crowd.guest", [], ("bad", 0, 0, 1, "")),
                ("expects_none.guest", [], ("bad", 0, 0, 0, "expected")),
                ("expects_none.guest", ["--limit", "1"],
                 ("bad", None, 1, 3, "bad 0 was expected; fewer preemptions may do")),
                ("expects_two.guest", ["--limit", "1"],
                 ("bad", None, 1, 1, "bad 2 was expected; fewer preemptions may do"))):
            words = ["suite", "--json", file] + words
            out, _, status = self.run(words)
            report = json.loads(out)
            found = (report["verdict"], report["bound"], report.get("preemptions"), status, report["note"])
            self.compare(words, (found, bool(report["schedule"])), (wanted, True))

    def examples(self):
        """The examples are what they expect of themselves; each expects something."""
        words = ["suite", "--json", EXAMPLES]
        out, err, status = self.run(words)
        lines = [json.loads(line) for line in out.splitlines()]
        odd = [line["file"] for line in lines if line["expect"] is None or line["verdict"] != line["expect"].split()[0]]
        guests = sorted(map(str, EXAMPLES.rglob("*.guest")))
        self.compare(words, ([line["file"] for line in lines], odd, err, status), (guests, [], "", 0))

    def traces(self):
        """With `--trace`, a report is followed by what a replay of its schedule prints."""
        for words in (["explore", "race.guest"], ["unbounded", "race.guest"], ["explore", "clean.guest"],
                      ["explore", "race.guest", "--workers", "2"],
                      ["unbounded", "failing_eights.guest", "--limit", "100"]):
            report, _, status = self.run(words)
            schedule = json.loads(report).get("schedule")
            trace = self.run(["replay", words[1], schedule])[0] if schedule else ""
            self.answers(words + ["--trace"], report + trace, "", status)
        self.answers(["explore", "refused.guest", "--trace"], "", "ctxbound: syntax S3 Expected at 2:1\n", 2)

    def progress(self):
        """With `--progress` standard error tells how far the search is, and standard output and the
        status are as without it, for one worker and for two."""
        for words, lines in PROGRESS:
            for more in ([], ["--workers", "2"]):
                out, err, status = self.run(words + more)
                self.compare(words + more, err, "")
                self.answers(words + more + ["--progress"], out, lines, status)

    def long_progress(self):
        """A longer search tells of each bound once it is at it, and of one again only where twice as
        many schedules were tried."""
        for words, bounds in ((["explore", "eights.guest", "--bound", "14"], list(map(str, range(15)))),
                              (["unbounded", "eights.guest"], [None])):
            for more in ([], ["--workers", "2"]):
                out, _, status = self.run(words + more)
                told, err, found = self.run(words + more + ["--progress"])
                lines = [PROGRESS_LINE.fullmatch(line) for line in err.splitlines()]
                self.compare(words + more + ["--progress"], (told, found, all(lines), len(lines) > len(bounds)),
                             (out, status, True, True))
                told = [(line[1], *line.groups("0")[1:]) for line in lines if line]
                self.told_often_enough(words + more, told, bounds)

    def told_often_enough(self, words, lines, bounds):
        """The lines of a search of EIGHTS: of these bounds in their order, each number with its commas."""
        counts = [[int(number.replace(",", "")) for number in line[1:]] for line in lines]
        self.compare(words, list(dict.fromkeys(line[0] for line in lines)), bounds)
        self.compare(words, [line[1:] for line in lines], [tuple(map("{:,}".format, of)) for of in counts])
        for one, two, old, new in zip(lines, lines[1:], counts, counts[1:]):
            self.compare(words, new[0] >= old[0] * (2 if one[0] == two[0] else 1), True)
        self.compare(words, max((tried for tried, *_ in counts), default=0) <= 12870, True)
        self.compare(words, any(open_items for _, _, open_items, _ in counts), True)
        self.compare(words, [bad for _, bad, _, _ in counts], [0] * len(counts))

    def explanations(self):
        """What is explained is what a replay of the schedule shows, and the last line replays what ran of it;
        where a search finds none, a sentence says how far it went."""
        ran = {"0x3": "0x2", "7": "-"}
        for words, schedule, status in ((["race.guest"], "0,1,0", 1), (["race.guest", "--unbounded"], "0,1,0", 1),
                                        (["crowd.guest", "--limit", "1"], "0,1,0,2,3,4,5,6,7,8", 1),
                                        (["race.guest", "0x2,1"], "0x2,1", 0), (["race.guest", "0"], "0", 0),
                                        (["race.guest", "0,0,0"], "0x3", 2), (["race.guest", "7"], "7", 2)):
            text, err, found = self.run(["explain"] + words)
            self.compare(["explain"] + words, (text.split("\n")[-2], err, found),
                         ("Replay: ctxbound replay %s " % words[0] + ran.get(schedule, schedule), "", status))
            head = self.run(["explain"] + words + ["--width", "1000"])[0].split("\n")[0]
            is_told = " with 1 preemption. " in head
            self.compare(["explain"] + words, head.split(". ")[-1], head if not is_told else
                         "None with fewer preemptions is bad." if words == ["race.guest"] else
                         "Its search doesn't say whether fewer preemptions are enough.")
            told, err, found = self.run(["explain"] + words + ["--json"])
            self.compare(["explain"] + words + ["--json"], (json.loads(told)["schedule"], err, found),
                         (schedule, "", status))
            page, err, found = self.run(["explain"] + words + ["--html"])
            self.compare(["explain"] + words + ["--html"], ("<html" in page, err, found), (True, "", status))
        for words, wanted in (
                (["clean.guest"], ("clean.guest: no schedule is bad (2 tried).\n", "", 0)),
                (["clean.guest", "--unbounded"], ("clean.guest: no schedule is bad (1 tried).\n", "", 0)),
                (["pairs.guest", "--limit", "257"], ("pairs.guest: no schedule is bad (256 tried).\n", "", 0)),
                (["eights.guest", "--limit", "100"], (
                    "eights.guest: no schedule with at most 2 preemptions is bad; the search of others was cut short, and none "
                    "that it tried is bad (114 tried).\n", "", 3)),
                (["eights.guest", "--bound", "1"], (
                    "eights.guest: no schedule with at most 1 preemption is bad (16 tried).\n"
                    "That is no proof: others have more. Try --unbounded, or a higher --bound.\n", "", 0)),
                (["refused.guest"], ("", "ctxbound: syntax S3 Expected at 2:1\n", 2)),
                (["race.guest", "0,"], ("", "ctxbound: schedule Q1 BadSchedule at 2\n", 2)),
                (["gone.guest"], ("", "ctxbound: gone.guest: No such file or directory (os error 2)\n", 4)),
                (["folder"], ("", "ctxbound: folder: Is a directory (os error 21)\n", 4))):
            self.answers(["explain"] + words, *wanted)
        _, err, status = self.run(["explain", "race.guest", "--html", "--json"])
        self.compare(["explain", "--html", "--json"], (err[:7], status), ("error: ", 2))
        wide = max(map(len, self.run(["explain", "race.guest", "--all", "--width", "60"])[0].split("\n")[:-2]))
        self.compare(["explain", "--width", "60"], wide <= 60, True)

    def checks(self):
        """`check` writes on standard error alone, and names a file where there are several."""
        refused = "ctxbound: syntax S3 Expected at 2:1\n"
        warned = "ctxbound: warning W5 NeverLoaded at 1:5\n"
        gone = "ctxbound: gone.guest: No such file or directory (os error 2)\n"
        for words, begins, status in (
                (["race.guest"], [""], 0), (["race.guest", "--strict", "--deep"], [""], 0),
                (["refused.guest"], [refused], 2), (["eights.guest"], [warned], 0),
                (["eights.guest", "--strict"], [warned], 1),
                (["gone.guest", "race.guest", "refused.guest"], [gone, "refused.guest:\n", refused], 4),
                (["race.guest", "eights.guest", "--strict"], ["eights.guest:\n", warned], 1)):
            out, err, found = self.run(["check"] + words)
            place = 0
            for begin in begins:
                place = err.find(begin, place)
                self.compare(["check"] + words, (out, place >= 0, found), ("", True, status))
            self.compare(["check"] + words, err.startswith(begins[0]) and (err == "") == (begins == [""]),
                         True)

    def standard_input(self):
        """`-` is standard input, for each command."""
        for words in (["explore", "FILE"], ["unbounded", "FILE", "--trace"], ["replay", "FILE", "0,1,0"],
                      ["replay", "FILE"]):
            by_name = self.run([word.replace("FILE", "race.guest") for word in words])
            self.answers([word.replace("FILE", "-") for word in words], *by_name, given=RACE)
        self.answers(["suite", "-"], table([("-", *APART_ROW)], "1 file: 1 as expected"), "", 0, given=APART)
        self.answers(["replay", "-"], "", "ctxbound: syntax S5 TooLong at 1:1\n", 2, given=" " * 65537)

    def full_device(self):
        """A stream that can't be written is named by `suite`, `explain` and `verify`, and is `file` elsewhere."""
        named = "ctxbound: standard output: No space left on device (os error 28)\n"
        for words, line in ((["suite", "clean.guest"], named), (["explain", "race.guest"], named),
                            (["verify", "clean.guest"], named),
                            (["explore", "clean.guest"], "ctxbound: file\n")):
            with open("/dev/full", "wb") as full:
                done = subprocess.run([self.binary] + words, cwd=self.folder, stdout=full,
                                      stderr=subprocess.PIPE, timeout=self.seconds)
            self.compare(words, (done.stderr.decode(), done.returncode), (line, 4))

    def first(self, first):
        """The three commands of `ctxbound_first` print what they print here; it refuses all other words."""
        asked = lambda words: run([first, *words], cwd=self.folder)
        # A search of pairs.guest with a bound has 16! schedules before it: none ends.
        guests = [name for name in FILES if name.endswith(".guest") and name != "pairs.guest"]
        for words in (*(["explore", name, "--trace"] for name in guests), *(["explain", name] for name in guests),
                      *(["explain", "race.guest", text] for text in ("0,1,0", "-", "0", "0,", "7", "0x3")),
                      ["explain", "refused.guest", "0"], ["explain", "gone.guest"], ["explain", "folder"],
                      *(["replay", "race.guest", text] for text in ("0,1,0", "0x2,1", "-", "0", "0,", "7", "0x3")),
                      ["replay", "refused.guest", "0"], ["replay", "gone.guest", "0"], ["explore", "folder", "--trace"]):
            self.compare(words, asked(words), self.run(words))
        usage = "usage: ctxbound_first explain FILE [SCHEDULE], ctxbound_first explore FILE --trace, or ctxbound_first replay FILE SCHEDULE\n"
        for words in ([], ["explain"], ["explain", "race.guest", "0", "--html"], ["explore", "race.guest"], ["replay", "race.guest"], ["unbounded", "race.guest", "--trace"],
                      ["explore", "race.guest", "--quick"], ["explore", "race.guest", "--trace", "--quick"]):
            self.compare(["first"] + words, asked(words), ("", usage, 2))

    def test(self):
        for test in (self.words, self.memory, self.limits, self.suites, self.suites_cut_short, self.expectations, self.rows_as_they_come,
                     self.verified, self.marked, self.examples, self.traces, self.progress, self.long_progress, self.explanations,
                     self.checks, self.standard_input, self.full_device):
            test()
        if self.given.first:
            self.first(self.given.first)


if __name__ == "__main__":
    Commands.main("[first]")
