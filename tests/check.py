#!/usr/bin/env python3
"""Shows that `check` says the right thing at the right byte of each refused or odd text.

Usage: tests/check.py BINARY

Each entry of the tables below was worked out by hand from docs/FORMATS.md and docs/LANGUAGE.md. A `^`
of an entry's text stands before the byte that is marked; it isn't part of the text. The line that
is shown is that line of the text, cut round the place where it is long, and the carets lie under
the marked bytes.
"""
import json
import os
import pty
import re
import subprocess

from program import ROOT, Tester, guests, schedule_of

SHOWN = 92  # how many bytes of a line are shown

# How each statement and declaration is written, by its keyword, with words in capitals for what is to be filled in.
FORMS = {
    "var": "var NAME; or var NAME = NUMBER;",
    "mutex": "mutex NAME;",
    "cond": "cond NAME;",
    "sem": "sem NAME = COUNT;",
    "thread": "thread NAME { .. }",
    "load": "load LOCAL VAR;",
    "store": "store VAR VALUE;",
    "add": "add LOCAL VAR AMOUNT;",
    "cas": "cas LOCAL VAR OLD NEW;",
    "lock": "lock MUTEX;",
    "unlock": "unlock MUTEX;",
    "wait": "wait COND MUTEX;",
    "signal": "signal COND;",
    "broadcast": "broadcast COND;",
    "acquire": "acquire SEM;",
    "release": "release SEM;",
    "set": "set LOCAL VALUE; or set LOCAL VALUE OP VALUE;",
    "assert": "assert VALUE; or assert VALUE OP VALUE;",
    "if": "if VALUE { .. } or if VALUE OP VALUE { .. }",
    "else": "else { .. } or else { if VALUE { .. } }",
    "repeat": "repeat TIMES { .. }",
    "leave": "leave;",
}
WRITTEN = {keyword: "`%s` is written: %s" % (keyword, form) for keyword, form in FORMS.items()}
RECIPE = "not in the language: see `%s` in docs/COOKBOOK.md"
TRY_LOCK, READERS = RECIPE % "Try-lock", RECIPE % "Lock for readers and writers"
LOADED = "a variable is loaded into a local first: load LOCAL VAR;"
FILLED = {"NAME": "name", "NUMBER": "-1", "COUNT": "1", "LOCAL": "r", "VAR": "x", "VALUE": "1", "AMOUNT": "1", "OLD": "0",
          "NEW": "1", "MUTEX": "m", "COND": "c", "SEM": "s", "OP": "+", "TIMES": "2", "..": ""}
IN_TURN = "var x; mutex m; cond c; sem s = 1; thread A { repeat 1 { %s } }"
COOKBOOK = (ROOT / "docs/COOKBOOK.md").read_text(encoding="utf-8")

# The text, with ^ before the byte that is marked, how many bytes are, the short form but for its
# place, and words that the lines below it have.
REFUSED = [
    ("# caf^\xe9\nthread A { }", 1, "syntax S1 NotAscii at", "ASCII"),
    ("^\xef\xbb\xbfthread A { }", 1, "syntax S1 NotAscii at", "byte order mark"),
    ("thread A { store x 1^, }", 1, "syntax S2 BadChar at", "no commas"),
    ("mutex m; thread A { lock^(m); }", 1, "syntax S2 BadChar at", WRITTEN["lock"]),
    ("var x^, y; thread A { }", 1, "syntax S2 BadChar at", WRITTEN["var"]),
    ("thread A { assert p ^&& q; }", 1, "syntax S2 BadChar at", WRITTEN["assert"]),
    ("thread A { ^// a note\n }", 1, "syntax S2 BadChar at", "a comment begins with `#`"),
    ("thread A { set r ^!q; }", 1, "syntax S2 BadChar at", "compare with 0"),
    ("thread A { set r 6 ^/ 2; }", 1, "syntax S2 BadChar at", "no division"),
    ("thread A { set r ^$; }", 1, "syntax S2 BadChar at", "no token begins"),
    ("var x;\nthread A { store x ^}", 1, "syntax S3 Expected at", "a local or a number was expected"),
    ("thread A {\n    set r 1;\n^", 1, "syntax S3 Expected at", "this `{` is never closed"),
    ("thread A { repeat ^0 { } }", 1, "syntax S3 Expected at", "a number from 1 to 100 was expected"),
    ("var x; thread A { ^while r == 0 { load r x; } }", 5, "syntax S3 Expected at", WRITTEN["repeat"]),
    ("var x; thread A { ^x = 1; }", 1, "syntax S3 Expected at", WRITTEN["store"]),
    ("thread A { set r ^= 1; }", 1, "syntax S3 Expected at", WRITTEN["set"]),
    ("thread A { set r 1 + 2 ^+ 3; }", 1, "syntax S3 Expected at", "`;` was expected"),
    ("thread A { if r { } else ^if q { } }", 2, "syntax S3 Expected at", WRITTEN["else"]),
    ("thread A { ^var r; }", 3, "syntax S3 Expected at", "a local isn't declared"),
    ("sem s^; thread A { }", 1, "syntax S3 Expected at", WRITTEN["sem"]),
    ("var x; thread A { add x ^1; }", 1, "syntax S3 Expected at", WRITTEN["add"]),
    ("var x; thread A { store x 1\n ^store x 2; }", 5, "syntax S3 Expected at",
     "is a `;` missing after `1`"),
    ("thread A { } ^}", 1, "syntax S3 Expected at", "closes no block"),
    ("thread A { } ^var x;", 3, "syntax S3 Expected at", "before the first thread"),
    ("thread ^if { }", 2, "syntax S3 Expected at", "a name that is no keyword"),
    ("thread A {\n    if 1 {\n        set r 1;\n    set q r;\n}\n^thread B {\n}", 6,
     "syntax S3 Expected at",
     "this `{` is closed by the `}` at 5:1: is one missing after line 3?"),
    ("var x = ^9223372036854775808;", 19, "syntax S4 NumberTooBig at", "9223372036854775807"),
    ("sem s = ^65536;", 5, "syntax S4 NumberTooBig at", "a number from 0 to 65535 was expected"),
    ("thread A { repeat ^101 { } }", 3, "syntax S4 NumberTooBig at", "a number from 1 to 100 was expected"),
    ("^" + "#" * 65537, 1, "syntax S5 TooLong at", "65,536 bytes"),
    ("thread A {\n" + "if 1 { " * 32 + "if 1 ^{", 1, "syntax S6 TooDeep at", "32 blocks"),
    ("var x;\nmutex ^x;\nthread A { }", 1, "check C1 Duplicate at", "the first is this variable"),
    ("thread A { lock ^m; }", 1, "check C2 Unknown at", "declare it: mutex m;"),
    ("var balance;\nthread A { load r balance; store ^balnce r; }", 6, "check C2 Unknown at",
     "did you mean `balance` (declared at 1:5)?"),
    ("mutex queue; var quene; thread A { lock ^quee; unlock queue; load r quene; }", 4,
     "check C2 Unknown at", "did you mean `queue` (declared at 1:7)?"),
    # three bytes of four are others
    ("var wxyd; thread A { load r ^abcd; store wxyd r; }", 4, "check C2 Unknown at",
     "declare it: var abcd;"),
    ("var x;\nthread A { lock ^x; }", 1, "check C3 WrongKind at", "the name of a mutex was expected"),
    ("var x; thread A { if ^x == 0 { } }", 1, "check C3 WrongKind at", LOADED),
    ("var x; var y; thread A { store x ^y; }", 1, "check C3 WrongKind at", LOADED),
    ("var x;\nthread A { set ^x 1; }", 1, "check C3 WrongKind at", WRITTEN["store"]),
    ("mutex m; cond c; thread A { wait ^m c; }", 1, "check C3 WrongKind at", WRITTEN["wait"]),
    ("mutex a; mutex b; mutex c; mutex d; mutex e; mutex f; mutex g; mutex h;\nmutex ^i;", 1,
     "check C5 TooMany at", "the 9th mutex: at most 8"),
    ("thread A { ^leave; }", 5, "check C7 LeaveOutside at", "no `repeat` is round this"),
    ("var x;\n\tthread A {\t\tlock ^x; }", 1, "check C3 WrongKind at", "a mutex"),
    ("var x; " + " " * 100 + "thread A { lock ^x; }" + " " * 200, 1, "check C3 WrongKind at",
     "a mutex"),
    # at the end of the text, and after lines without a piece
    ("var x;\nthread A { store x 1^", 1, "syntax S3 Expected at", "is a `;` missing after `1` in line 2?"),
    ("var x; thread A { store x 1\n\n# a note\n ^store x 2; }", 5, "syntax S3 Expected at",
     "is a `;` missing after `1` in line 1?"),
    ("var x; thread A { load r x; assert r == 1^.5; }", 1, "syntax S2 BadChar at", "numbers are whole"),
    ("var x^: 1; thread A { }", 1, "syntax S2 BadChar at", "a declaration has no type"),
    ("thread A { set r^: 1; }", 1, "syntax S2 BadChar at", "no token begins"),
    ("cond c; thread A { signal ^other; }", 5, "check C2 Unknown at", "no condition has this name"),
    ("sem s = 1; thread A { acquire ^other; }", 5, "check C2 Unknown at", "no semaphore has this name"),
    ("mutex m; thread A { unlock ^other; }", 5, "check C2 Unknown at", "no mutex has this name"),
    # two edits from the first name, one from the second
    ("var balanced; var balance; thread A { load r ^balnce; load r balanced; }", 6,
     "check C2 Unknown at", "did you mean `balance` (declared at 1:19)?"),
    ("var x; thread A { ^sotre x 1; }", 5, "syntax S3 Expected at", WRITTEN["store"]),
    ("var x; ^thraed A { }", 6, "syntax S3 Expected at", WRITTEN["thread"]),
    # one edit from `lock` and from `unlock`, the first of which is told
    ("mutex m; thread A { ^ulock m; }", 5, "syntax S3 Expected at", WRITTEN["lock"]),
    ("mutex m; thread A { ^unlok m; }", 5, "syntax S3 Expected at", WRITTEN["unlock"]),
    ("var x; thread A { if r ^= 1 { } }", 1, "syntax S3 Expected at", WRITTEN["if"]),
    ("var x ^== 1; thread A { }", 2, "syntax S3 Expected at", WRITTEN["var"]),
    ("var x; thread A { set r -^q; }", 1, "syntax S3 Expected at", WRITTEN["set"]),
    ("var x; thread A { ^x += 2; }", 1, "syntax S3 Expected at", WRITTEN["add"]),
    ("var x; thread A { ^x -= 2; }", 1, "syntax S3 Expected at", WRITTEN["add"]),
    ("var x; thread A { ^x++; }", 1, "syntax S3 Expected at", WRITTEN["add"]),
    ("var x; thread A { ^x = x + 1; }", 1, "syntax S3 Expected at", WRITTEN["store"]),
    ("var x; thread A { ^x = y * 2; }", 1, "syntax S3 Expected at", WRITTEN["store"]),
    ("var x; thread A { ^x = -1; }", 1, "syntax S3 Expected at", WRITTEN["store"]),
    ("var x; thread A { ^x = !x; }", 1, "syntax S3 Expected at", WRITTEN["store"]),
    # a word for a truth value would be a local, which is 0
    ("var x; thread A { ^x = true; }", 1, "syntax S3 Expected at", WRITTEN["store"]),
    ("var x; thread A { ^r = x; }", 1, "syntax S3 Expected at", WRITTEN["load"]),
    ("var x; thread A { store x ^= 1; }", 1, "syntax S3 Expected at", WRITTEN["store"]),
    ("thread A { assert p ^|| q; }", 1, "syntax S2 BadChar at", WRITTEN["assert"]),
    # words of other languages, some of which are near to another keyword
    ("var x; thread A { ^write x 1; }", 5, "syntax S3 Expected at", WRITTEN["store"]),
    ("var x; thread A { ^get r x; }", 3, "syntax S3 Expected at", WRITTEN["load"]),
    ("var x; thread A { ^fetch_add x 1; }", 9, "syntax S3 Expected at", WRITTEN["add"]),
    ("var x; thread A { ^CAS r x 0 1; }", 3, "syntax S3 Expected at", WRITTEN["cas"]),
    ("cond c; thread A { ^notify c; }", 6, "syntax S3 Expected at", WRITTEN["signal"]),
    ("cond c; thread A { ^signal_all c; }", 10, "syntax S3 Expected at", WRITTEN["broadcast"]),
    ("sem s = 1; thread A { ^P(s); }", 1, "syntax S3 Expected at", WRITTEN["acquire"]),
    ("sem s = 1; thread A { ^up s; }", 2, "syntax S3 Expected at", WRITTEN["release"]),
    ("mutex m; thread A { ^mutex_lock m; }", 10, "syntax S3 Expected at", WRITTEN["lock"]),
    ("thread A { ^let r = 1; }", 3, "syntax S3 Expected at", WRITTEN["set"]),
    ("thread A { ^fail; }", 4, "syntax S3 Expected at", "`assert` is written: assert VALUE; or"),
    ("thread A { ^sleep 1; }", 5, "syntax S3 Expected at", "= leave it out: a thread may be interrupted"),
    ("thread A { ^join B; } thread B { }", 4, "syntax S3 Expected at", "acquire a semaphore that the other thread releases"),
    ("thread A { ^continue; }", 8, "syntax S3 Expected at", "`leave` leaves the nearest `repeat`"),
    ("^const x = 1; thread A { }", 5, "syntax S3 Expected at", WRITTEN["var"]),
    ("^semaphore s = 1; thread A { }", 9, "syntax S3 Expected at", WRITTEN["sem"]),
    ("thread A { set r 1;^; }", 1, "syntax S3 Expected at", "is this `;` one too many?"),
    # a sign is no value of its own
    ("var x; thread A { cas r x -1 ^; }", 1, "syntax S3 Expected at", "a local or a number was expected"),
    (" ".join("var v%02d;" % n for n in range(16)) + " var ^v16; thread A { }", 3,
     "check C5 TooMany at", "the 17th variable: at most 16"),
    (" ".join("cond c%d;" % n for n in range(8)) + " cond ^c8; thread A { }", 2,
     "check C5 TooMany at", "the 9th condition: at most 8"),
    (" ".join("sem s%d = 1;" % n for n in range(8)) + " sem ^s8 = 1; thread A { }", 2,
     "check C5 TooMany at", "the 9th semaphore: at most 8"),
    ("thread T { } " + " ".join("thread T%02d { }" % n for n in range(15)) + "\nthread ^T15 { }", 3,
     "check C5 TooMany at", "the 17th thread: at most 16"),
    ("thread A { " + " ".join("set r%02d 1;" % n for n in range(16)) + " set ^r16 1; }", 3,
     "check C5 TooMany at", "the 17th local of its thread: at most 16"),
]

# What a person writes who comes from another language: a statement of a thread of the text below, marked
# as above, how many bytes are, the number and the name of the refusal, what is said of the place, and
# all notes.
IN_THREAD = "var x; var y; mutex m; cond c; sem s = 1;\nthread A {\n    %s\n}\nthread B { }\n"
STATEMENTS = [
    ("^x = y;", 1, "S3 Expected", "a statement begins with its keyword", [WRITTEN["store"]]),
    ("^x = y + 1;", 1, "S3 Expected", "a statement begins with its keyword", [WRITTEN["store"]]),
    ("^x = x + y;", 1, "S3 Expected", "a statement begins with its keyword", [WRITTEN["store"]]),
    ("^x = x + y + 1;", 1, "S3 Expected", "a statement begins with its keyword", [WRITTEN["store"]]),
    ("^x = -y;", 1, "S3 Expected", "a statement begins with its keyword", [WRITTEN["store"]]),
    ("^r = !x;", 1, "S3 Expected", "a statement begins with its keyword", [WRITTEN["set"]]),
    ("^r = x == 1;", 1, "S3 Expected", "a statement begins with its keyword", [WRITTEN["load"]]),
    ("^r := 1;", 1, "S3 Expected", "a statement or `}` was expected", [WRITTEN["set"]]),
    ("^x = ;", 1, "S3 Expected", "a statement begins with its keyword; after the `=` a value is missing",
     [WRITTEN["store"]]),
    ("^r = ;", 1, "S3 Expected", "a statement begins with its keyword; after the `=` a value is missing",
     [WRITTEN["set"]]),
    ("^x = (y + 1) * 2;", 1, "S3 Expected", "a statement begins with its keyword", [WRITTEN["store"]]),
    ("^r = q / 2;", 1, "S3 Expected", "a statement begins with its keyword", [WRITTEN["set"]]),
    ("^m = 1;", 1, "S3 Expected", "a statement begins with its keyword", []),
    ("^r = 1.5;", 1, "S3 Expected", "a statement begins with its keyword", [WRITTEN["set"]]),
    ("^r = f(x);", 1, "S3 Expected", "a statement begins with its keyword", [WRITTEN["set"]]),
    ("^r = x.load();", 1, "S3 Expected", "a statement begins with its keyword", [WRITTEN["load"]]),
    ("^r = x.fetch_add(1);", 1, "S3 Expected", "a statement begins with its keyword", [WRITTEN["add"]]),
    ("^x = y = 1;", 1, "S3 Expected", "a statement begins with its keyword", [WRITTEN["store"]]),
    ("^x += y;", 1, "S3 Expected", "a statement or `}` was expected", [WRITTEN["add"]]),
    ("^x += y + 1;", 1, "S3 Expected", "a statement or `}` was expected", [WRITTEN["add"]]),
    ("^x += r + 1;", 1, "S3 Expected", "a statement or `}` was expected", [WRITTEN["add"]]),
    ("^x -= r;", 1, "S3 Expected", "a statement or `}` was expected", [WRITTEN["add"]]),
    ("^r -= q - 1;", 1, "S3 Expected", "a statement or `}` was expected", [WRITTEN["set"]]),
    ("^x -= 9223372036854775807;", 1, "S3 Expected", "a statement or `}` was expected", [WRITTEN["add"]]),
    ("^x *= 2;", 1, "S3 Expected", "a statement or `}` was expected", [WRITTEN["store"]]),
    ("^r *= 2;", 1, "S3 Expected", "a statement or `}` was expected", [WRITTEN["set"]]),
    ("^x--;", 1, "S3 Expected", "a statement or `}` was expected", [WRITTEN["add"]]),
    ("^r++;", 1, "S3 Expected", "a statement or `}` was expected", [WRITTEN["set"]]),
    ("^++x;", 1, "S3 Expected", "a statement or `}` was expected", [WRITTEN["add"]]),
    ("^m++;", 1, "S3 Expected", "a statement or `}` was expected", []),
    ("^int r = 0;", 3, "S3 Expected", "a local isn't declared: it is 0 until it gets a value", [WRITTEN["set"]]),
    ("^int r = x;", 3, "S3 Expected", "a local isn't declared: it is 0 until it gets a value", [WRITTEN["load"]]),
    ("^int r;", 3, "S3 Expected", "a local isn't declared: it is 0 until it gets a value", []),
    ("^let mut r = x;", 3, "S3 Expected", "a local isn't declared: it is 0 until it gets a value", [WRITTEN["load"]]),
    ("^var r = 1;", 3, "S3 Expected", "a local isn't declared: it is 0 until it gets a value", [WRITTEN["set"]]),
    ("^let r: i64 = 1;", 3, "S3 Expected", "a local isn't declared: it is 0 until it gets a value", [WRITTEN["set"]]),
    ("^bool done = false;", 4, "S3 Expected", "a local isn't declared: it is 0 until it gets a value",
     [WRITTEN["set"]]),
    ("^while (r == 0) { load r x; }", 5, "S3 Expected", "there is no `while`: every run of a guest ends",
     [WRITTEN["repeat"]]),
    ("^while true { store x 1; }", 5, "S3 Expected", "there is no `while`: every run of a guest ends",
     [WRITTEN["repeat"]]),
    ("^for i in range(3) { store x 1; }", 3, "S3 Expected", "there is no `for`: every run of a guest ends",
     [WRITTEN["repeat"]]),
    ("^for i in 0..3 { store x 1; }", 3, "S3 Expected", "there is no `for`: every run of a guest ends",
     [WRITTEN["repeat"]]),
    ("^loop { store x 1; }", 4, "S3 Expected", "there is no `loop`: every run of a guest ends", [WRITTEN["repeat"]]),
    ("^do :: x = 1; od;", 2, "S3 Expected", "there is no `do`: every run of a guest ends", [WRITTEN["repeat"]]),
    ("if ^(r == 0) { store x 1; }", 1, "S2 BadChar", "there are no parentheses", [WRITTEN["if"]]),
    ("if ^(x == 0) { store x 1; }", 1, "S2 BadChar", "there are no parentheses", [WRITTEN["if"]]),
    ("if ^(!r) { store x 1; }", 1, "S2 BadChar", "there are no parentheses", [WRITTEN["if"]]),
    ("if not ^r { store x 1; }", 1, "S3 Expected", "an operator or `{` was expected", [WRITTEN["if"]]),
    ("if ^!(r == 0) { store x 1; }", 1, "S2 BadChar", "there is no `!`: compare with 0, as r == 0", [WRITTEN["if"]]),
    ("if ^x == y { store x 1; }", 1, "C3 WrongKind", "`x` is a variable (1:5); a local or a number was expected",
     [LOADED]),
    ("if r == 0 ^&& q == 1 { store x 1; }", 1, "S2 BadChar", "one operator a statement, and none of these",
     [WRITTEN["if"]]),
    ("if r ^|| q { store x 1; }", 1, "S2 BadChar", "one operator a statement, and none of these", [WRITTEN["if"]]),
    ("if r ^and q { store x 1; }", 3, "S3 Expected", "an operator or `{` was expected", [WRITTEN["if"]]),
    ("if r + 1 ^== 2 { store x 1; }", 2, "S3 Expected", "`{` was expected", [WRITTEN["if"]]),
    ("if 0 < r ^< 3 { store x 1; }", 1, "S3 Expected", "`{` was expected", [WRITTEN["if"]]),
    ("if ^m { store x 1; }", 1, "C3 WrongKind", "`m` is a mutex (1:21); a local or a number was expected",
     [WRITTEN["if"]]),
    ("if r { store x 1; } else ^if q { store x 2; }", 2, "S3 Expected", "`{` was expected", [WRITTEN["else"]]),
    ("if r { store x 1; } ^elif q { store x 2; }", 4, "S3 Expected", "a statement or `}` was expected",
     [WRITTEN["else"]]),
    ("^return;", 6, "S3 Expected", "a statement or `}` was expected",
     ["a thread ends at the end of its braces; put the rest into an `if`"]),
    ("repeat 2 { ^break; }", 5, "S3 Expected", "a statement or `}` was expected", [WRITTEN["leave"]]),
    ("^switch r { }", 6, "S3 Expected", "a statement or `}` was expected",
     ["an `if` for each case, one in the `else` of another, does the same"]),
    ("^{ store x 1; }", 1, "S3 Expected", "a statement or `}` was expected",
     ["a block belongs to a thread, an `if`, an `else` or a `repeat`"]),
    ("^m.lock();", 1, "S3 Expected", "a statement or `}` was expected", [WRITTEN["lock"]]),
    ("lock^(&m);", 1, "S2 BadChar", "there are no parentheses", [WRITTEN["lock"]]),
    ("^let g = m.lock();", 3, "S3 Expected", "a local isn't declared: it is 0 until it gets a value",
     [WRITTEN["lock"]]),
    ("^LOCK m;", 4, "S3 Expected", "a statement or `}` was expected", [WRITTEN["lock"]]),
    ("lock m ^{ store x 1; }", 1, "S3 Expected", "`;` was expected", [WRITTEN["lock"]]),
    ("wait c^;", 1, "S3 Expected", "the name of a mutex was expected", [WRITTEN["wait"]]),
    ("^c.wait(m);", 1, "S3 Expected", "a statement or `}` was expected", [WRITTEN["wait"]]),
    ("wait c^, m;", 1, "S2 BadChar", "there are no commas", [WRITTEN["wait"]]),
    ("signal c^, m;", 1, "S2 BadChar", "there are no commas", [WRITTEN["signal"]]),
    ("^c.notifyAll();", 1, "S3 Expected", "a statement or `}` was expected", [WRITTEN["broadcast"]]),
    ("^sem_wait(&s);", 8, "S3 Expected", "a statement or `}` was expected", [WRITTEN["acquire"]]),
    ("^x.store(1);", 1, "S3 Expected", "a statement or `}` was expected", [WRITTEN["store"]]),
    ("store ^1 x;", 1, "S3 Expected", "the name of a variable was expected", [WRITTEN["store"]]),
    ("store x^;", 1, "S3 Expected", "a local or a number was expected", [WRITTEN["store"]]),
    ("store x r ^+ 1;", 1, "S3 Expected", "`;` was expected", [WRITTEN["store"]]),
    ("store x x ^+ 1;", 1, "S3 Expected", "`;` was expected", [WRITTEN["store"]]),
    ("store x r ^+ q + 1;", 1, "S3 Expected", "`;` was expected", [WRITTEN["store"]]),
    ("store x -^r;", 1, "S3 Expected", "a local or a number was expected", [WRITTEN["store"]]),
    ("store x ^!r;", 1, "S2 BadChar", "there is no `!`: compare with 0, as r == 0", [WRITTEN["store"]]),
    ("load x^;", 1, "S3 Expected", "the name of a variable was expected", [WRITTEN["load"]]),
    ("load ^x r;", 1, "C3 WrongKind", "`x` is a variable (1:5); the name of a local was expected", [WRITTEN["load"]]),
    ("load ^x y;", 1, "C3 WrongKind", "`x` is a variable (1:5); the name of a local was expected", [WRITTEN["load"]]),
    ("load r ^1;", 1, "S3 Expected", "the name of a variable was expected", [WRITTEN["load"]]),
    ("load r x ^+ 1;", 1, "S3 Expected", "`;` was expected", [WRITTEN["load"]]),
    ("add r x ^y;", 1, "C3 WrongKind", "`y` is a variable (1:12); a local or a number was expected", [LOADED]),
    ("add ^x r 1;", 1, "C3 WrongKind", "`x` is a variable (1:5); the name of a local was expected", [WRITTEN["add"]]),
    ("cas^(x, 0, 1);", 1, "S2 BadChar", "there are no parentheses", [WRITTEN["cas"]]),
    ("^r = cas(x, 0, 1);", 1, "S3 Expected", "a statement begins with its keyword", [WRITTEN["cas"]]),
    ("^x.compare_exchange(0, 1);", 1, "S3 Expected", "a statement or `}` was expected", [WRITTEN["cas"]]),
    ("cas r x ^y 1;", 1, "C3 WrongKind", "`y` is a variable (1:12); a local or a number was expected", [LOADED]),
    ("set ^x x + 1;", 1, "C3 WrongKind", "`x` is a variable (1:5); the name of a local was expected",
     [WRITTEN["store"]]),
    ("set r ^x + y;", 1, "C3 WrongKind", "`x` is a variable (1:5); a local or a number was expected", [LOADED]),
    ("set r 1 + 2 ^+ 3;", 1, "S3 Expected", "`;` was expected", [WRITTEN["set"]]),
    ("set r ^(1 + 2);", 1, "S2 BadChar", "there are no parentheses", [WRITTEN["set"]]),
    ("set r ^(q + 1) * 2;", 1, "S2 BadChar", "there are no parentheses", [WRITTEN["set"]]),
    ("set r ^+= 1;", 1, "S3 Expected", "a local or a number was expected", [WRITTEN["set"]]),
    ("set r^++;", 1, "S3 Expected", "a local or a number was expected", [WRITTEN["set"]]),
    ("assert ^x == 1;", 1, "C3 WrongKind", "`x` is a variable (1:5); a local or a number was expected", [LOADED]),
    ("assert ^x == y;", 1, "C3 WrongKind", "`x` is a variable (1:5); a local or a number was expected", [LOADED]),
    ("assert^(x == 1);", 1, "S2 BadChar", "there are no parentheses", [WRITTEN["assert"]]),
    ("assert r ^= 1;", 1, "S3 Expected", "an operator or `;` was expected", [WRITTEN["assert"]]),
    ("assert x == 1 ^&& y == 2;", 1, "S2 BadChar", "one operator a statement, and none of these", [WRITTEN["assert"]]),
    ("assert r + 1 ^== 2;", 2, "S3 Expected", "`;` was expected", [WRITTEN["assert"]]),
    ("assert 0 < r ^< 2;", 1, "S3 Expected", "`;` was expected", [WRITTEN["assert"]]),
    ("assert ^m == 0;", 1, "C3 WrongKind", "`m` is a mutex (1:21); a local or a number was expected",
     [WRITTEN["assert"]]),
    ("set ^B 1;", 1, "C3 WrongKind", "`B` is a thread (5:8); the name of a local was expected", [WRITTEN["set"]]),
    ("^await x == 1;", 5, "S3 Expected", "a statement or `}` was expected",
     [RECIPE % "Await"]),
    ("^thread B { }", 6, "S3 Expected", "a statement or `}` was expected",
     ["threads stand beside each other, and none is inside another"]),
    ("^while x == 0 { store y 1; }", 5, "S3 Expected", "there is no `while`: every run of a guest ends",
     [WRITTEN["repeat"]]),
    ("^while r != 1 { load r x; }", 5, "S3 Expected", "there is no `while`: every run of a guest ends",
     [WRITTEN["repeat"]]),
    ("set r p ^& -1;", 1, "S2 BadChar", "there are no operators on bits", [WRITTEN["set"]]),
    # words of other languages: what stands for them, or where the cookbook has it
    ("^trylock m;", 7, "S3 Expected", "a statement or `}` was expected", [TRY_LOCK]),
    ("^try_lock(&m);", 8, "S3 Expected", "a statement or `}` was expected", [TRY_LOCK]),
    ("^m.try_lock();", 1, "S3 Expected", "a statement or `}` was expected", [TRY_LOCK]),
    ("^r = pthread_mutex_trylock(&m);", 1, "S3 Expected", "a statement begins with its keyword", [TRY_LOCK]),
    ("if ^(trylock(m)) { store x 1; }", 1, "S2 BadChar", "there are no parentheses", [TRY_LOCK]),
    ("^tryacquire s;", 10, "S3 Expected", "a statement or `}` was expected", [TRY_LOCK]),
    ("^sem_trywait(&s);", 11, "S3 Expected", "a statement or `}` was expected", [TRY_LOCK]),
    ("^rdlock m;", 6, "S3 Expected", "a statement or `}` was expected", [READERS]),
    ("^rlock m;", 5, "S3 Expected", "a statement or `}` was expected", [READERS]),
    ("^wlock m;", 5, "S3 Expected", "a statement or `}` was expected", [READERS]),
    ("^runlock m;", 7, "S3 Expected", "a statement or `}` was expected", [READERS]),
    ("^swap r x 1;", 4, "S3 Expected", "a statement or `}` was expected", [RECIPE % "Swap"]),
    ("^xchg r x 1;", 4, "S3 Expected", "a statement or `}` was expected", [RECIPE % "Swap"]),
    ("^exchange r x 1;", 8, "S3 Expected", "a statement or `}` was expected", [RECIPE % "Swap"]),
    ("^r = x.swap(1);", 1, "S3 Expected", "a statement begins with its keyword", [RECIPE % "Swap"]),
    ("^sub r x 1;", 3, "S3 Expected", "a statement or `}` was expected", ["an amount may be negative: add LOCAL VAR -1;"]),
    ("^x.fetch_sub(1);", 1, "S3 Expected", "a statement or `}` was expected", ["an amount may be negative: add LOCAL VAR -1;"]),
    ("^fence;", 5, "S3 Expected", "a statement or `}` was expected",
     ["leave it out: each step sees all that the steps before it did"]),
    ("^spin_lock m;", 9, "S3 Expected", "a statement or `}` was expected", [WRITTEN["lock"]]),
    ("^spin_unlock m;", 11, "S3 Expected", "a statement or `}` was expected", [WRITTEN["unlock"]]),
    ("^wait_timeout c m;", 12, "S3 Expected", "a statement or `}` was expected", [RECIPE % "Time-out"]),
    ("^send c;", 4, "S3 Expected", "a statement or `}` was expected", [RECIPE % "Bounded channel"]),
    ("^select { }", 6, "S3 Expected", "a statement or `}` was expected", [RECIPE % "Select"]),
    ("^barrier;", 7, "S3 Expected", "a statement or `}` was expected", [RECIPE % "Barrier"]),
    ("^park;", 4, "S3 Expected", "a statement or `}` was expected", [RECIPE % "Park and unpark"]),
    # a local of such a name
    ("^up = 1;", 2, "S3 Expected", "a statement begins with its keyword", [WRITTEN["set"]]),
    # the call is what is wrong, not the statement round it
    ("if x^.load() == 0 { store x 1; }", 1, "S2 BadChar", "no token begins with this byte", [WRITTEN["load"]]),
    # a type of another language, near a keyword
    ("^long t;", 4, "S3 Expected", "a local isn't declared: it is 0 until it gets a value", []),
    ("store ^t 1;", 1, "C2 Unknown", "no variable has this name", ["declare it: var t;"]),
    ("set t 1; store ^t 1;", 1, "C2 Unknown", "no variable has this name", [WRITTEN["set"]]),
]

# The same of declarations, before a thread.
BEFORE_THREAD = "%s\nthread A { }\n"
DECLARATIONS = [
    ("^int x = 0;", 3, "S3 Expected", "a declaration or `thread` was expected", [WRITTEN["var"]]),
    ("^let mut x = 0;", 3, "S3 Expected", "a declaration or `thread` was expected", [WRITTEN["var"]]),
    ("^static int x = 0;", 6, "S3 Expected", "a declaration or `thread` was expected", [WRITTEN["var"]]),
    ("var x^, y, z;", 1, "S2 BadChar", "there are no commas: each name has a declaration of its own", [WRITTEN["var"]]),
    ("var x = 1^, y = 2;", 1, "S2 BadChar", "there are no commas: each name has a declaration of its own",
     [WRITTEN["var"]]),
    ("sem s = 1^, t = 2;", 1, "S2 BadChar", "there are no commas: each name has a declaration of its own",
     [WRITTEN["sem"]]),
    ("mutex m^, n;", 1, "S2 BadChar", "there are no commas: each name has a declaration of its own",
     [WRITTEN["mutex"]]),
    ("var x ^y;", 1, "S3 Expected", "`=` or `;` was expected", [WRITTEN["var"]]),
    ("var x = ^;", 1, "S3 Expected", "a number was expected", [WRITTEN["var"]]),
    ("var x^: int = 3;", 1, "S2 BadChar", "a declaration has no type: all values are numbers", [WRITTEN["var"]]),
    ("var x ^:= 3;", 1, "S2 BadChar", "a declaration has no type: all values are numbers", [WRITTEN["var"]]),
    ("var x ^3;", 1, "S3 Expected", "`=` or `;` was expected", [WRITTEN["var"]]),
    ("var x^(3);", 1, "S2 BadChar", "there are no parentheses", [WRITTEN["var"]]),
    ("var x = ^+1;", 1, "S3 Expected", "a number was expected", [WRITTEN["var"]]),
    ("var x = ^true;", 4, "S3 Expected", "a number was expected", [WRITTEN["var"]]),
    ("var int ^x;", 1, "S3 Expected", "`=` or `;` was expected", [WRITTEN["var"]]),
    ("var x = 1 ^+ 2;", 1, "S3 Expected", "`;` was expected", [WRITTEN["var"]]),
    ("var a^[3];", 1, "S2 BadChar", "there are no arrays", [WRITTEN["var"]]),
    ("var ^3x;", 1, "S3 Expected", "a name that is no keyword was expected", [WRITTEN["var"]]),
    ("sem s^;", 1, "S3 Expected", "`=` with an opening count was expected", [WRITTEN["sem"]]),
    ("sem s = ^-1;", 1, "S3 Expected", "a number from 0 to 65535 was expected", [WRITTEN["sem"]]),
    ("sem s^(1);", 1, "S2 BadChar", "there are no parentheses", [WRITTEN["sem"]]),
    ("sem s ^1;", 1, "S3 Expected", "`=` with an opening count was expected", [WRITTEN["sem"]]),
    ("sem s = ^;", 1, "S3 Expected", "a number from 0 to 65535 was expected", [WRITTEN["sem"]]),
    ("mutex m ^= 0;", 1, "S3 Expected", "`;` was expected", [WRITTEN["mutex"]]),
    ("mutex m^();", 1, "S2 BadChar", "there are no parentheses", [WRITTEN["mutex"]]),
    ("^VAR x;", 3, "S3 Expected", "a declaration or `thread` was expected", [WRITTEN["var"]]),
    ("^semaphore s;", 9, "S3 Expected", "a declaration or `thread` was expected", [WRITTEN["sem"]]),
    ("^condition c;", 9, "S3 Expected", "a declaration or `thread` was expected", [WRITTEN["cond"]]),
    ("^pthread_mutex_t m;", 15, "S3 Expected", "a declaration or `thread` was expected", [WRITTEN["mutex"]]),
    ("^x = 0;", 1, "S3 Expected", "a declaration or `thread` was expected", [WRITTEN["var"]]),
    ("^x = 1, y;", 1, "S3 Expected", "a declaration or `thread` was expected", [WRITTEN["var"]]),
]

# The same of whole texts.
TEXTS = [
    ("var x\n^thread A { }", 6, "S3 Expected", "`=` or `;` was expected", ["is a `;` missing after `x` in line 1?"]),
    ("var x; thread A ^, B { }", 1, "S2 BadChar", "each thread has one name and a block of its own",
     [WRITTEN["thread"]]),
    ("var x; thread A ^B { }", 1, "S3 Expected", "`{` was expected", [WRITTEN["thread"]]),
    ("var x; thread A { ^thread B { } }", 6, "S3 Expected", "a statement or `}` was expected",
     ["threads stand beside each other, and none is inside another"]),
    ("var x; thread A { store x 1; ^thread B { store x 2; } }", 6, "S3 Expected", "a statement or `}` was expected",
     ["threads stand beside each other, and none is inside another"]),
    ("var x; thread A^() { }", 1, "S2 BadChar", "there are no parentheses", [WRITTEN["thread"]]),
    ("var x; thread A^;", 1, "S3 Expected", "`{` was expected", [WRITTEN["thread"]]),
    ("var x; ^fn main() { }", 2, "S3 Expected", "a declaration or `thread` was expected", [WRITTEN["thread"]]),
    ("var x; ^int main() { }", 3, "S3 Expected", "a declaration or `thread` was expected", [WRITTEN["thread"]]),
    ("var x; ^proctype A() { store x 1; }", 8, "S3 Expected", "a declaration or `thread` was expected",
     [WRITTEN["thread"]]),
    ("var x; ^process A { }", 7, "S3 Expected", "a declaration or `thread` was expected", [WRITTEN["thread"]]),
    ("var x; ^init { }", 4, "S3 Expected", "a declaration or `thread` was expected", [WRITTEN["thread"]]),
    ("var x; ^A { store x 1; }", 1, "S3 Expected", "a declaration or `thread` was expected", [WRITTEN["thread"]]),
    ("var x; ^THREAD A { }", 6, "S3 Expected", "a declaration or `thread` was expected", [WRITTEN["thread"]]),
    ("var x; ^store x 1;\nthread A { }", 5, "S3 Expected", "a declaration or `thread` was expected",
     ["a statement is inside the braces of its thread"]),
    ("var x; ^class A { }", 5, "S3 Expected", "a declaration or `thread` was expected", []),
]

# Refusals without a place.
WHOLE = [
    ("var x;", "check C4 NoThreads", "at least one thread"),
    ("thread A { } thread B { repeat 100 { repeat 11 { assert r; } } }",
     "check C6 CodeTooLong in thread 1", "1,024 instructions"),
]

# A text with a warning, marked as above, how many bytes are marked, the warning, words of it, and the
# text repaired.
WARNED = [
    ("var x;\nthread A { load total x; assert ^totl == 0; store x 1; }", 4, "W1 NeverSet", "no statement of A gives `totl` a value: it is 0",
     "var x;\nthread A { load total x; assert total == 0; store x 1; }"),
    ("var x;\nthread A { load ^r x; store x 1; }", 1, "W2 NeverRead", "no statement of A reads `r`",
     "var x;\nthread A { load r x; assert r == 0; store x 1; }"),
    ("var ^x;\nthread A { }", 1, "W3 Unused", "no statement names this variable", "thread A { }"),
    ("mutex ^m;\nthread A { }", 1, "W3 Unused", "no statement names this mutex", "mutex m;\nthread A { lock m; unlock m; }"),
    ("cond ^c;\nthread A { }", 1, "W3 Unused", "no statement names this condition", "cond c;\nthread A { signal c; }"),
    ("sem ^s = 1;\nthread A { }", 1, "W3 Unused", "no statement names this semaphore", "sem s = 1;\nthread A { acquire s; }"),
    ("var ^x;\nthread A { load r x; assert r == 0; }", 1, "W4 NeverStored", "no statement writes this variable",
     "var x;\nthread A { load r x; assert r == 0; store x 1; }"),
    ("var ^x;\nthread A { store x 1; }", 1, "W5 NeverLoaded", "no statement reads this variable",
     "var x;\nthread A { add old x 1; }"),
    ("var x;\nthread A { repeat 2 { add r x 1; leave; ^store x 2; } }", 5, "W7 Unreached", "no run comes here",
     "var x;\nthread A { repeat 2 { add r x 1; if r { leave; } store x 2; } }"),
    ("mutex m; var x;\nthread A { ^lock m; add r x 1; if r { unlock m; } }", 4, "W8 MayKeep", "A may end with this mutex locked: on some way to its end nothing unlocks it",
     "mutex m; var x;\nthread A { lock m; add r x 1; if r { unlock m; } else { unlock m; } }"),
    ("mutex m; var x;\nthread A { add r x 1; if r { lock m; } ^unlock m; }", 6, "W9 MayLack", "A may come here without this mutex",
     "mutex m; var x;\nthread A { add r x 1; if r { lock m; unlock m; } }"),
    ("mutex m; cond c;\nthread A { ^wait c m; } thread B { signal c; }", 4, "W9 MayLack", "A may come here without this mutex",
     "mutex m; cond c;\nthread A { lock m; wait c m; unlock m; } thread B { signal c; }"),
    ("mutex m; var x;\nthread A { repeat 3 { ^lock m; add r x 1; if r { leave; } unlock m; } }", 4,
     "W8 MayKeep", "A may end with this mutex locked",
     "mutex m; var x;\nthread A { repeat 3 { lock m; add r x 1; unlock m; if r { leave; } } }"),
    # tests that differ, a local of the test that is set between them, on one way alone, and the other side of the same test
    ("mutex m; var x;\nthread A { add c x 1; if c == 1 { ^lock m; } if c == 2 { unlock m; } }", 4,
     "W8 MayKeep", "A may end with this mutex locked",
     "mutex m; var x;\nthread A { add c x 1; if c == 2 { lock m; } if c == 2 { unlock m; } }"),
    ("mutex m; var x;\nthread A { add c x 1; if c == 1 { lock m; } if c { ^unlock m; } }", 6, "W9 MayLack", "A may come here without this mutex",
     "mutex m; var x;\nthread A { add c x 1; if c { lock m; } if c { unlock m; } }"),
    ("mutex m; var x;\nthread A { add c x 1; if c == 1 { ^lock m; } add c x 1; if c == 1 { unlock m; } }", 4,
     "W8 MayKeep", "A may end with this mutex locked",
     "mutex m; var x;\nthread A { add c x 1; if c == 1 { lock m; } add d x 1; if c == 1 { unlock m; } }"),
    ("mutex m; var x;\nthread A { add c x 1; add d x 1; if d == c { lock m; } if c == 2 { set c 0; } if d == c { ^unlock m; } }", 6,
     "W9 MayLack", "A may come here without this mutex",
     "mutex m; var x;\nthread A { add c x 1; add d x 1; if d == c { lock m; } if c == 2 { set e 0; assert e == c; } if d == c { unlock m; } }"),
    ("mutex m; var x;\nthread A { add c x 1; if c { ^lock m; } if c { store x 5; } else { unlock m; } }", 4,
     "W8 MayKeep", "A may end with this mutex locked",
     "mutex m; var x;\nthread A { add c x 1; if c { store x 4; } else { lock m; } if c { store x 5; } else { unlock m; } }"),
    # the loop may end with the lock
    ("mutex m; var x;\nthread A { repeat 3 { add c x 1; if c { ^lock m; } if c == 2 { leave; } if c { unlock m; } } }", 4,
     "W8 MayKeep", "A may end with this mutex locked",
     "mutex m; var x;\nthread A { repeat 3 { add c x 1; if c { lock m; } add d x 1; if c { unlock m; } if d == 2 { leave; } } }"),
    # of another mutex
    ("mutex m; mutex n; var x;\nthread A { add c x 1; if c { ^lock m; } if c { unlock n; } }", 4,
     "W8 MayKeep", "A may end with this mutex locked",
     "mutex m; mutex n; var x;\nthread A { add c x 1; if c { lock m; lock n; } if c { unlock m; unlock n; } }"),
    # the second of two locks on the way to here is the fault, not the last unlock
    ("mutex m; var x;\nthread A { lock m; load r x; if r { ^lock m; store x 2; unlock m; } unlock m; }",
     4, "W15 LocksAgain", "A comes here with this mutex locked by itself",
     "mutex m; var x;\nthread A { lock m; load r x; if r { store x 2; } unlock m; }"),
    # only in the second turn
    ("mutex m; var x;\nthread A { repeat 2 { ^lock m; store x 1; } unlock m; }", 4, "W15 LocksAgain",
     "A comes here with this mutex locked by itself",
     "mutex m; var x;\nthread A { repeat 2 { lock m; store x 1; unlock m; } }"),
    # nothing is loaded after it
    ("mutex m; cond c; var x;\nthread A { lock m; load r x; if r == 0 { ^wait c m; } unlock m; }\n"
     "thread B { store x 1; signal c; }", 4, "W14 WaitNotLookedAtAgain",
     "on some way from here no value is loaded and tested",
     "mutex m; cond c; var x;\nthread A { lock m; repeat 2 { load r x; if r { leave; } wait c m; } unlock m; }"
     "\nthread B { store x 1; signal c; }"),
    # what was loaded after it isn't tested
    ("mutex m; cond c; var x;\nthread A { lock m; ^wait c m; load r x; assert r; store x 0; unlock m; }\n"
     "thread B { store x 1; signal c; }", 4, "W14 WaitNotLookedAtAgain",
     "on some way from here no value is loaded and tested",
     "mutex m; cond c; var x;\nthread A { lock m; wait c m; load r x; if r { store x 0; } unlock m; }\n"
     "thread B { store x 1; signal c; }"),
    # a test of what was loaded before it
    ("mutex m; cond c; var x;\nthread A { lock m; load r x; ^wait c m; if r { store x 0; } unlock m; }\n"
     "thread B { store x 1; signal c; }", 4, "W14 WaitNotLookedAtAgain", "",
     "mutex m; cond c; var x;\nthread A { lock m; wait c m; cas r x 1 0; unlock m; if r { lock m; unlock m; } }\n"
     "thread B { store x 1; signal c; }"),
    ("mutex m; cond ^c;\nthread A { lock m; wait c m; unlock m; }", 1, "W16 NeverSignalled",
     "no statement signals this condition",
     "mutex m; cond c;\nthread A { lock m; wait c m; unlock m; } thread B { broadcast c; }"),
    ("cond ^c;\nthread A { signal c; }", 1, "W17 NeverWaitedFor", "no statement waits for this condition",
     "mutex m; cond c;\nthread A { signal c; } thread B { lock m; wait c m; unlock m; }"),
    ("sem ^s = 0;\nthread A { acquire s; }", 1, "W18 NeverReleased", "no statement releases it",
     "sem s = 0;\nthread A { acquire s; } thread B { release s; }"),
    ("mutex m; mutex n; cond c;\nthread A { lock m; ^wait c m; unlock m; }\n"
     "thread B { lock n; wait c n; unlock n; broadcast c; }", 4, "W19 WaitsElsewhere",
     "another statement waits for this condition with another mutex",
     "mutex m; mutex n; cond c;\nthread A { lock m; wait c m; unlock m; }\n"
     "thread B { lock n; unlock n; broadcast c; }"),
]

# Texts of which nothing is said.
CLEAN = [
    # the second copy of the `store` is reached by no path, the first is
    "var x;\nthread A { repeat 2 { store x 1; leave; } }\nthread B { load r x; assert r < 2; }",
    # the last `unlock` is come to with the mutex alone
    "mutex m; var x;\nthread A { add r x 1; lock m; if r { store x 1; } unlock m; }",
    # starts above 0
    "sem s = 1;\nthread A { acquire s; }",
    # two pairs, each under a test of its own
    "mutex m; var x;\nthread A { add c x 1; if c == 1 { lock m; } add d x 1; if c == 1 { unlock m; }\n"
    "if d == 2 { lock m; } store x 7; if d == 2 { unlock m; } }",
    # a `lock` and what needs it under one test, with another test between them; after each turn of a loop the test is another
    "mutex m; cond c; var x;\nthread A { repeat 3 { add r x 1; if r == 1 { lock m; } if r { store x 5; }\n"
    "if r == 1 { wait c m; # allow W14\nunlock m; } } }\nthread B { signal c; }",
    # an assertion of numbers alone, as of what must not be come to
    "thread A { assert 1 == 1; assert 0; }",
]

# Warnings of `--deep`, with words of it, and further options.
DEEP = [
    ("var x;\nthread A { load r x; if r == 5 { ^assert r == 1; } }\nthread B { store x 1; }", 6,
     "warning W10 NeverRun", "no schedule comes to this assertion", []),
    ("var x;\nthread A { ^repeat 2 { load r x; if r { leave; } } }\nthread B { store x 1; }", 6,
     "warning W12 RanOut", "", []),
    # before any step
    ("var x;\nthread A { set r 0; ^repeat 2 { if r { leave; } } store x 1; }", 6,
     "warning W12 RanOut", "", []),
    # in the last step of four
    ("var x;\nthread A { store x 1; store x 1; ^repeat 2 { load r x; if r { leave; } } }\n"
     "thread B { load s x; if s { store x 0; } }", 6, "warning W12 RanOut", "", []),
    # in the last of three schedules, which is the last one allowed
    ("var x;\nthread B { store x 1; }\nthread A { ^repeat 2 { load r x; if r { leave; } } }", 6,
     "warning W12 RanOut", "", ["--limit", "3"]),
    # of two nested loops, the inner one
    ("var x;\nthread A { repeat 2 { ^repeat 2 { load r x; if r { leave; } } store x 1; leave; } }", 6,
     "warning W12 RanOut", "", []),
    # a `cas` that hits, and one that misses: each leads one way
    ("var x;\nthread A { cas r x 0 1; if r == 0 { ^assert r == 1; } }", 6, "warning W10 NeverRun", "", []),
    ("var x;\nthread A { cas r x 1 0; if r { ^assert r == 1; } }", 6, "warning W10 NeverRun", "", []),
    # it holds in no schedule, whatever is loaded
    ("var x;\nthread A { load r x; ^assert r == 5; }\nthread B { store x 1; }", 6,
     "warning W20 NeverHolds", "in each schedule that comes here it fails", []),
    # two wait in the schedules where both come before it
    ("mutex m; cond c;\nthread A { lock m; wait c m; unlock m; }\nthread B { lock m; wait c m; unlock m; }\n"
     "thread C { ^signal c; }", 6, "warning W13 SignalToOneOfMany", "two threads or more wait", []),
]

# Texts of which `--deep` says none of these.
DEEP_CLEAN = [
    ("var x;\nthread A { load r x; if r { assert r == 2; } }\nthread B { store x 1; store x 2; }",
     ["W10", "W12", "W20"], []),
    ("var x;\nthread A { add r x 1; repeat 2 { load r x; if r { leave; } } }", ["W12"], []),
    # one thread alone waits
    ("mutex m; cond c;\nthread A { lock m; wait c m; unlock m; }\nthread B { signal c; }", ["W13"], []),
    # a broadcast wakes all
    ("mutex m; cond c;\nthread A { lock m; wait c m; unlock m; }\nthread B { lock m; wait c m; unlock m; }\n"
     "thread C { broadcast c; }", ["W13"], []),
    # it holds, always with the same values
    ("var x = 3;\nthread A { load r x; assert r != 5; }\nthread B { load r x; store x r; }", ["W"], ["--remarks"]),
    # what must not be come to
    ("var x;\nthread A { load r x; if r { assert 0; } store x 0; }", ["W10", "W20"], []),
    # the limit was reached: of two schedules, one comes to the assertion
    ("var x;\nthread A { load r x; if r == 1 { assert r == 1; } }\nthread B { store x 1; store x 2; }",
     ["W10", "W20"], ["--remarks", "--limit", "1"]),
    # it runs out in the third schedule alone, which is one more than may be gone through
    ("var x;\nthread B { store x 1; }\nthread A { repeat 2 { load r x; if r { leave; } } }", ["W12"],
     ["--limit", "2"]),
]

# A text with two warnings, the name of one, and comments that silence it and that don't.
ALLOWED = [" # allow W5", "# allow W9 W5", " # allow W5 since nobody asks", " #  allow\tW5\r"]
NOT_ALLOWED = ["", " # W5", " # allow W4", " # allow  ", " # don't allow W5", " ## allow W5", " #allow W5", " # allow W55",
               " # allow xW5", " # allowed W5"]

# Texts with the lines of `--short`, after the name of the file.
SHORT = [
    ("var x;\nthread A { store x 1; assert totl == 0; }",
     ["1:5: warning W5 NeverLoaded: no statement reads this variable",
      "2:30: warning W1 NeverSet: no statement of A gives `totl` a value: it is 0"]),
    # the first is given back on each path
    ("mutex m; var x;\nthread A { lock m; unlock m; lock m; add r x 1; }",
     ["2:30: warning W8 MayKeep: A may end with this mutex locked: on some way to its end nothing unlocks it"]),
    ("thread A { lock m; }", ["1:17: error C2 Unknown: no mutex has this name"]),
    ("thread A { set r 1 }", ["1:20: error S3 Expected: an operator or `;` was expected"]),
    # of the whole text
    ("var x;", ["1:1: error C4 NoThreads: a program has at least one thread: thread A { .. }"]),
    ("thread A { set r 1; assert r; }", []),
]

# The same as JSON, but for the file, with all keys in the order of their bytes.
JSON = [
    ("var x;\nvar yes;\nthread A { store x 1; load r yes; assert r == 0; store yess 1; }", [
        {"code": "C2 Unknown", "column": 56, "end": {"column": 60, "line": 3}, "line": 3,
         "message": "no variable has this name",
         "notes": [{"column": None, "end": None, "line": None,
                    "message": "did you mean `yes` (declared at 2:5)?"}], "severity": "error"}]),
    ("var x;\nmutex x;\nthread A { }", [
        {"code": "C1 Duplicate", "column": 7, "end": {"column": 8, "line": 2}, "line": 2,
         "message": "`x` is declared already",
         "notes": [{"column": 5, "end": {"column": 6, "line": 1}, "line": 1,
                    "message": "the first is this variable"}],
         "severity": "error"}]),
    ("var abc;\nthread A { store abc 1; }", [
        {"code": "W5 NeverLoaded", "column": 5, "end": {"column": 8, "line": 1}, "line": 1,
         "message": "no statement reads this variable", "notes": [], "severity": "warning"}]),
    ("var x;", [
        {"code": "C4 NoThreads", "column": None, "end": None, "line": None,
         "message": "a program has at least one thread: thread A { .. }", "notes": [],
         "severity": "error"}]),
]

CLEAN_EXAMPLES = {
    # what each example is warned of, where it is
    "aba_stack": ["W4"],
    "aba_stack_fixed": ["W4"],
    "forgotten_unlock": ["W8", "W8"],
    "lost_wakeup": ["W14"],
    "pruned_away": ["W5"],
    "wait_without_loop": ["W14", "W14"],
}


def shown(byte):
    return byte if 32 <= byte <= 126 else (32 if byte in (9, 13) else 63)


def marked(text):
    """The text's bytes, and the line and the column of its mark."""
    data = text.encode("latin-1")
    at = data.index(b"^")
    data = data[:at] + data[at + 1:]
    line = data.count(b"\n", 0, at) + 1
    column = at - (data.rfind(b"\n", 0, at) + 1) + 1
    return data, line, column


def block(data, line, column, length):
    """The source line and the line below it, up to the last caret."""
    source = (data.split(b"\n") + [b""])[line - 1]
    start = 0
    if len(source) > SHOWN and column - 1 > SHOWN // 2:
        start = min(column - 1 - SHOWN // 2, len(source) - SHOWN)
    seen = bytes(shown(b) for b in source[start:start + SHOWN]).decode()
    return ["%5d | %s" % (line, seen), "      | " + " " * (column - 1 - start) + "^" * length]


class Checks(Tester):
    def told(self, text, *words):
        """The status of a check of a text, and what it writes on both streams."""
        out, err, status = super().run("check", *words, self.write("text.guest", text))
        return status, out, err

    def run(self, data, *words):
        status, _, err = self.told(data, *words)
        return status, err

    def place(self, text, length, head, words, status, *options):
        data, line, column = marked(text)
        got, err = self.run(data, *options)
        lines = err.split("\n")
        head = "ctxbound: %s %d:%d" % (head, line, column)
        at = lines.index(head) if head in lines else -1
        self.expect("%r: %s" % (text[:80], head), at >= 0 and got == status, err)
        source, carets = block(data, line, column, length)
        below = lines[at + 1:at + 3]
        self.expect("%r: the carets" % text[:80],
                    len(below) == 2 and below[0] == source and below[1].startswith(carets + " "),
                    err)
        self.expect("%r: %s" % (text[:80], words), words in err, err)

    def slip(self, text, length, name, said, notes):
        """All that is told of a text, and that what it points to is there."""
        data, line, column = marked(text)
        got, err = self.run(data)
        source, carets = block(data, line, column, length)
        kind = "check" if name[0] == "C" else "syntax"
        want = ["ctxbound: %s %s at %d:%d" % (kind, name, line, column), source, "%s %s" % (carets, said)]
        want += ["      = %s" % note for note in notes] + [""]
        self.expect("%r" % text[:80], got == 2 and err.split("\n") == want, err)
        self.pointed(text)

    def pointed(self, text):
        """Each form that a note has is one of the language: with its words in capitals filled in, a text may have it. Each recipe
        that a note names is in the cookbook."""
        _, err = self.run(marked(text)[0])
        for note in re.findall(r"^      = (.*)$", err, re.M):
            form = re.search(r"(?:is written|first|be negative): (.*)$", note)
            for way in form[1].split(" or ") if form else []:
                code = re.sub(r"[A-Z]+|\.\.", lambda word: FILLED[word[0]], way)
                whole = IN_TURN % ("if 1 { } " * code.startswith("else") + code)
                if code.split()[0] in ("var", "mutex", "cond", "sem", "thread"):
                    whole = code + ("" if code.startswith("thread") else " thread A { }")
                status, seen = self.run(whole.encode())
                self.expect("%r: %s" % (text[:80], way), status == 0, seen)
            recipe = re.search(r"see `(.*)` in docs/COOKBOOK.md$", note)
            if recipe:
                self.expect(note, "\n## %s\n" % recipe[1] in COOKBOOK, note)

    def replays(self, text):
        """The schedule that is named with a loop runs, and leads a thread past that loop: to its end here."""
        data, _, _ = marked(text)
        _, err = self.run(data, "--deep")
        named = re.findall(r"replay: (\S+)$", err, re.M)
        done = super().run("explain", "text.guest", *named, "--json")
        self.expect("%r: one schedule is named" % text, len(named) == 1, err)
        told = json.loads(done.out)
        looped = [t["status"] for t in told["threads"] if t["name"] == "A"]
        self.expect("%r: %s" % (text, named), told["refused"] is None and looped in (["ended"], ["enabled"]), done.out)

    def crowded(self):
        """In the schedule that is told with W13, both others wait when the signal is sent."""
        text, _, _ = marked(DEEP[-1][0])
        _, err = self.run(text, "--deep")
        named = re.findall(r"replay: (\S+)$", err, re.M)
        steps = schedule_of(named[0]) if named else []
        self.expect("W13: %s" % named, sorted(steps) == [0, 0, 1, 1, 2] and steps[-1] == 2, err)

    def in_order(self):
        """Warnings are in the order of the text, those of `--deep` among the others."""
        text = (b"var x;\nthread A { repeat 2 { load r x; if r { leave; } } }\n"
                b"thread B { store x 1; load unused x; }\n"
                b"thread C { repeat 2 { leave; store x 5; } load q x; assert p == 0; }\n")
        _, err = self.run(text, "--deep")
        places = [tuple(map(int, at.split(":"))) for at in re.findall(r"^ctxbound: warning .* at (\S+)$", err, re.M)]
        self.expect("the order", len(places) == 5 and places == sorted(places), err)

    def allowed(self):
        """A comment silences the warnings that it names, in its line."""
        for comment in ALLOWED + NOT_ALLOWED:
            text = "var x;%s\nvar y; thread A { store x 1; }" % comment
            status, err = self.run(text.encode(), "--strict")
            self.expect("%r: W5" % comment, ("W5" in err) == (comment in NOT_ALLOWED), err)
            self.expect("%r: W3" % comment, "W3" in err and status == 1, err)
        status, err = self.run(b"var x; # allow W5\nthread A { store x 1; }", "--strict")
        self.expect("all is allowed", status == 0 and err == "", err)

    def folders(self):
        """Each guest of a folder is told of, and the greatest status is that of the command."""
        folder = self.folder / "guests"
        for name, text in (("a", "var x; thread A { }"), ("b", "thread A { lock m; }"),
                           ("c", "var y; thread A { }"), ("d", "thread A { }")):
            self.write("guests/%s.guest" % name, text)
        for words in ([str(folder)], [str(folder / (name + ".guest")) for name in "abcd"]):
            done = super().run("check", "--strict", "--short", *words)
            lines = [line.split(": ")[0] for line in done.out.splitlines()]
            want = ["%s/%s.guest:%s" % (folder, name, at) for name, at in
                    (("a", "1:5"), ("b", "1:17"), ("c", "1:5"))]
            self.expect("a folder: %s" % words, lines == want and done.status == 2, done.out)

    def forms(self):
        """What is told in short lines and as JSON, on standard output."""
        path = str(self.folder / "text.guest")
        for text, lines in SHORT:
            status, out, err = self.told(text, "--short")
            want = "".join("%s:%s\n" % (path, line) for line in lines)
            refused = any(": error " in line for line in lines)
            self.expect("%r: short" % text, (out, err) == (want, "") and status == (2 if refused else 0), out + err)
        for text, objects in JSON:
            status, out, err = self.told(text, "--json")
            seen = [json.loads(line) for line in out.splitlines()]
            want = [dict(o, file=path) for o in objects]
            self.expect("%r: JSON" % text, seen == want and err == "", out + err)
            self.expect("%r: keys" % text, all(list(o) == sorted(o) for o in seen), out)
            refused = any(o["severity"] == "error" for o in objects)
            self.expect("%r: status" % text, status == (2 if refused else 0), out)
        _, out, _ = self.told(DEEP[-1][0].replace("^", ""), "--deep", "--limit", "1", "--json")
        self.expect("a remark", '"severity":"remark"' in out, out)

    def on_terminal(self, text, *words):
        """What a command writes on standard error where that is a terminal."""
        path = self.write("text.guest", text)
        ours, theirs = pty.openpty()
        subprocess.run([self.binary, words[0], str(path), *words[1:]], stdout=subprocess.DEVNULL, stderr=theirs,
                       timeout=60)
        os.close(theirs)
        seen = b""
        try:
            while True:
                part = os.read(ours, 4096)
                if not part:
                    break
                seen += part
        except OSError:  # the end, as a pseudo terminal tells it
            pass
        os.close(ours)
        return seen.decode().replace("\r\n", "\n")

    def says_more(self):
        """Where a person sees that a text is refused, the command that says more is named; nowhere else."""
        more = "(ctxbound check %s says more)\n" % (self.folder / "text.guest")
        first = "ctxbound: check C2 Unknown at 1:17\n"
        refused = "thread A { lock m; }"
        for words in (["replay"], ["explore"], ["unbounded"], ["explain"]):
            seen = self.on_terminal(refused, *words)
            self.expect("%s on a terminal" % words, seen == first + more, seen)
            done = super().run(*words, "text.guest")
            self.expect("%s in a pipe" % words, done.err == first, done.err)
        # the schedule is refused, not the text
        seen = self.on_terminal("var x; thread A { store x 1; }", "replay", "5")
        self.expect("a refused schedule", seen == "ctxbound: schedule P1 NoSuchThread at 0\n", seen)
        seen = self.on_terminal(refused, "check")
        self.expect("check on a terminal", "says more" not in seen and seen.startswith(first), seen)

    def test(self):
        for text, length, head, words in REFUSED:
            self.place(text, length, head, words, 2)
            self.pointed(text)
        for form, slips in ((IN_THREAD, STATEMENTS), (BEFORE_THREAD, DECLARATIONS), ("%s", TEXTS)):
            for text, *told in slips:
                self.slip(form % text, *told)
        for text, head, words in WHOLE:
            status, err = self.run(text.encode())
            self.expect("%r" % text, status == 2 and words in err
                         and err.startswith("ctxbound: %s\n" % head), err)
        for text, length, name, words, repaired in WARNED:
            self.place(text, length, "warning %s at" % name, words, 0)
            self.place(text, length, "warning %s at" % name, "", 1, "--strict")
            status, err = self.run(repaired.encode(), "--strict")
            self.expect("%r" % repaired, name not in err, err)
        for text in CLEAN:
            status, err = self.run(text.encode(), "--strict")
            self.expect("%r" % text, status == 0 and err == "", err)
        for text, length, head, words, options in DEEP:
            self.place(text, length, "%s at" % head, words, 0, "--deep", *options)
            if head == "warning W12 RanOut":
                self.replays(text)
        for text, names, options in DEEP_CLEAN:
            status, err = self.run(text.encode(), "--deep", *options)
            self.expect("%r" % text, status == 0 and not any(w in err for w in names), err)
            cut = "W21 CutShort after %s schedule" % options[-1] in err if "--limit" in options else "W21" not in err
            self.expect("%r: the limit" % text, cut, err)
        self.crowded()
        self.in_order()
        self.allowed()
        self.forms()
        self.folders()
        self.says_more()
        for path in guests("examples"):
            status, err = self.run(path.read_bytes())
            want = CLEAN_EXAMPLES.get(path.stem, [])
            seen = [line.split()[2] for line in err.split("\n") if line.startswith("ctxbound: w")]
            self.expect(path.name, status == 0 and seen == want, err)


if __name__ == "__main__":
    Checks.main()
