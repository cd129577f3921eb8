#!/usr/bin/env python3
"""Tries that searches under prefixes join to what one search answers, and that what is missing is told.

Usage: tests/parts.py BINARY [--programs N] [--seed S]

Guests are those of examples/, examples/real/ and tests/explain/, and N made at random (200).

- What `join` makes of the parts under the prefixes that `prefixes` lists, in a random order and some twice, is what
  `explore` or `unbounded` answers: the same bytes, the same status.
- Of small guests each line of a part is what is worked out here from all schedules, which the interpreter of
  tests/simulator.py runs: it shares no code with the program. So are those under prefixes that nobody lists.
- A line that is missing, cut, cut short by a limit, of another guest, or of other prefixes is told in one line, and
  nothing is printed. A line in which a byte is another one is refused, or read as the same.
- Words that ask for nothing are refused, and the comparison notices each field that is another.
"""
import hashlib
import json
import os
from collections import namedtuple
from concurrent.futures import ThreadPoolExecutor

from prefixes import nodes, run_of
from program import EXAMPLES, Tester, TooMany, compact, guests, schedule_of, schedule_text, text_of
from simulator import Guest, Maker

# How many prefixes are asked for, and of how many guests one is asked for so many.
COUNTS = ((1, 1), (7, 1), (64, 8), (1000, 60))
BOUNDS = (2, 1, 0)
LIMIT = 20000
MOST_PREFIXES = 150
# The line of a part, and why it is that of none where something in it is something else.
LINE = ('{"beyond":true,"bound":1,"ends":[{"kind":"done","vars":[50,-7]},{"kind":"stuck","vars":[]}],"failed":0,'
        '"guest":{"bytes":3,"sha256":"ba7816bf8f01cfea414140de5dae2223b00361a396177a9cb410ff61f20015ad"},'
        '"schedule":"0x2,1","stuck":2,"tried":6,"under":"0","version":1}')
NO_LINES = {
    "no JSON": [("{", ""), ('"tried":6', '"tried":6,'), ('"tried":6', '"tried":06'), ('"tried":6', '"tried":6}')],
    "parts are of version 1, not 2": [('"version":1', '"version":2')],
    "version is not a count": [('"version":1', '"version":"1"')],
    "no key version": [(',"version":1', "")],
    "no key beyond": [('"beyond":true,', "")],
    "no key under": [('"under":"0"', '"UNDER":"0"')],
    "beyond is not true or false": [("true", "1")],
    "bound is not a bound": [('"bound":1', '"bound":4294967296')],
    "bound is not a count": [('"bound":1', '"bound":"1"')],
    "tried is not a count": [
        ('"tried":6', '"tried":-6'), ('"tried":6', '"tried":6.5'), ('"tried":6', '"tried":18446744073709551616')],
    "cause is not limit or stopped": [('"failed"', '"cause":"late","failed"')],
    "schedule is not a schedule": [('"0x2,1"', '"0x2,"')],
    "under is not a schedule": [
        ('"under":"0"', '"under":"256"'), ('"under":"0"', '"under":"0x32769"'), ('"under":"0"', '"under":null')],
    "sha256 is not 64 hex digits": [("15ad", "15a"), ("15ad", "15ag")],
    "no key bytes": [('"bytes":3,', "")],
    "kind is not done, failed or stuck": [('stuck","vars"', 'late","vars"')],
    "vars is not a list of values": [("-7", "9223372036854775808")],
    "ends, failed, stuck and schedule do not fit one another": [
        ('"stuck","vars":[]', '"done","vars":[]'), ('"0x2,1"', "null")],
    "a key or a spelling that no part has": [
        ('"0x2,1"', '"0,0,1"'), ("15ad", "15AD"), ('"vars":[]', '"vars":[],"x":0')],
}
Complete = namedtuple("Complete", "schedule preemptions kind values")
# A search: the command, its words, and those of `prefixes` and `join` for it.
Search = namedtuple("Search", "command words listed joined")


def search_of(bound):
    if bound is None:
        return Search("unbounded", (), ("--unbounded",), ("--unbounded",))
    words = ("--bound", str(bound))
    return Search("explore", words, (), words)


def complete(guest, schedule):
    run = run_of(guest, schedule)
    stops = any(thread.stop for thread in run.threads)
    kind = "failed" if stops else "done" if all(thread.status == "ended" for thread in run.threads) else "stuck"
    return Complete(schedule, run.preemptions, kind, tuple(run.values.values()))


def completes(guest, pruned):
    """The complete schedules, pruned or not, where there are few, in rising order."""
    found = nodes(guest, pruned, MOST_PREFIXES)
    return sorted(complete(guest, prefix) for prefix, is_complete in found if is_complete)


def level(tried, beyond, bound, prefix, text):
    """The line on what was tried under a prefix at a bound."""
    bad = [one.schedule for one in tried if one.kind != "done"]
    ends = sorted({(one.kind, one.values) for one in tried})
    told = {"beyond": beyond, "bound": bound, "ends": [{"kind": kind, "vars": list(values)} for kind, values in ends],
            "failed": sum(one.kind == "failed" for one in tried), "stuck": sum(one.kind == "stuck" for one in tried),
            "guest": {"bytes": len(text), "sha256": hashlib.sha256(text).hexdigest()}, "tried": len(tried),
            "schedule": schedule_text(bad[0]) if bad else None, "under": schedule_text(prefix), "version": 1}
    return compact(told)


def changed(line, **values):
    """A line with other values of some keys."""
    return compact(dict(json.loads(line), **values))


def levels(everything, bound, prefix, text):
    """The lines of a part, and its status."""
    under = [one for one in everything if one.schedule[:len(prefix)] == prefix]
    if bound is None:
        return level(under, False, None, prefix, text), int(any(one.kind != "done" for one in under))
    lines = ""
    for at in range(bound + 1):
        tried = [one for one in under if one.preemptions <= at]
        is_bad, beyond = any(one.kind != "done" for one in tried), len(tried) < len(under)
        lines += level(tried, beyond, at, prefix, text)
        if is_bad or not beyond:
            break
    return lines, int(is_bad)


def begun_by_none(prefix, others):
    """The shortest beginning of a prefix with which none of the others begins."""
    others = list(others)
    return next(prefix[:length] for length in range(len(prefix) + 1)
                if not any(other[:length] == prefix[:length] for other in others))


class Parts(Tester):
    def __init__(self, given, folder):
        super().__init__(given, folder)
        self.guests, self.lines = 0, 0
        self.pool = ThreadPoolExecutor(os.cpu_count() or 1)

    def prefixes(self, path, search, count):
        return self.run("prefixes", path, "--at-least", count, *search.listed).out.split()

    def under(self, path, search, prefix, *more):
        return self.run(search.command, path, *search.words, "--under", prefix, *more)

    def parts(self, path, search, prefixes, *more):
        return list(self.pool.map(lambda prefix: self.under(path, search, prefix, *more), prefixes))

    def join(self, path, search, lines):
        return self.run("join", path, *search.joined, given="".join(lines))

    # ---- whole searches

    def guest(self, path):
        for bound in (self.bound_for(path), None):
            if bound is None and self.run("unbounded", path, "--limit", LIMIT)[2] == 3:
                continue
            search = search_of(bound)
            for count, of in COUNTS:
                if self.guests % of == 0:
                    self.whole(path, search, count)
            self.small(path, bound)
        self.guests += 1

    def bound_for(self, path):
        """A bound up to which a guest is searched soon."""
        fits = (bound for bound in BOUNDS if self.run("explore", path, "--bound", bound, "--limit", LIMIT)[2] != 3)
        return next(fits, 0)

    def whole(self, path, search, count):
        wanted = self.run(search.command, path, *search.words)
        prefixes = self.prefixes(path, search, count)
        parts = self.parts(path, search, prefixes)
        name = "%s %s %s in %d parts" % (search.command, path, " ".join(search.words), len(prefixes))
        bad = ['"schedule":"' in out for out, _, _ in parts]
        self.expect(name + ": a status", [part[1:] for part in parts] == [("", int(one)) for one in bad], parts)
        lines = [line for out, _, _ in parts for line in out.splitlines(True)]
        lines += self.chance.sample(lines, min(3, len(lines)))
        self.chance.shuffle(lines)
        got = self.join(path, search, lines)
        self.expect(name, got == wanted, got, wanted)

    def small(self, path, bound):
        """The lines of parts of a guest with few schedules."""
        text, search = path.read_bytes(), search_of(bound)
        guest = Guest(text.decode())
        try:
            everything = completes(guest, bound is None)
            all_prefixes = [prefix for prefix, _ in nodes(guest, False, MOST_PREFIXES)]
        except TooMany:
            return
        tried = self.chance.sample(all_prefixes, min(6, len(all_prefixes)))
        for prefix, got in zip(tried, self.parts(path, search, map(schedule_text, tried))):
            lines, status = levels(everything, bound, prefix, text)
            name = "%s %s --under %s" % (search.command, path, schedule_text(prefix))
            self.expect(name, got == (lines, "", status), got, (lines, status))
            self.lines += lines.count("\n")

    def far(self, bound):
        """Under a prefix with more preemptions than a bound can have: the two schedules that are left have 68 and 67."""
        path, search, prefix = self.folder / "far.guest", search_of(bound), (0, 1) * 34
        path.write_text("var x; thread A { repeat 35 { store x 1; } } thread B { repeat 35 { store x 2; } }")
        guest, text = Guest(path.read_text()), path.read_bytes()
        wanted, status = levels([complete(guest, prefix + (0, 1)), complete(guest, prefix + (1, 0))], bound, prefix, text)
        got = self.under(path, search, schedule_text(prefix))
        self.expect("%s under 67 preemptions" % search.command, got == (wanted, "", status), got, wanted)

    # ---- what is missing or refused

    def refused(self, what, path, search, lines, told, status):
        got = self.join(path, search, lines)
        self.expect(what, got == ("", "ctxbound: %s\n" % told, status), got, told)

    def missing(self, path, search):
        prefixes = self.prefixes(path, search, 7)
        parts = [out.splitlines(True) for out, _, _ in self.parts(path, search, prefixes)]
        lines = [line for part in parts for line in part]
        for at, prefix in enumerate(prefixes):
            left = [line for part in parts[:at] + parts[at + 1:] for line in part]
            bare = begun_by_none(schedule_of(prefix), map(schedule_of, prefixes[:at] + prefixes[at + 1:]))
            self.refused("%s is missing" % prefix, path, search, left, "parts: nothing under " + schedule_text(bare), 3)
            more = self.under(path, search, schedule_text(bare))[0]
            self.expect("%s is found" % schedule_text(bare),
                        self.join(path, search, left + [more]) == self.join(path, search, lines))
        self.refused("all is missing", path, search, [], "parts: nothing under -", 3)
        longest = max(parts, key=len)
        self.refused("a bound is missing", path, search, [line for line in lines if line != longest[1]],
                     "parts: nothing at bound 1 under " + prefixes[parts.index(longest)], 3)
        self.limited(path, search, prefixes, lines, parts.index(longest))
        self.disagree(path, search, prefixes, lines)
        whole = self.under(path, search, "-")[0].splitlines(True)
        self.expect("the whole as a part", self.join(path, search, whole) == self.join(path, search, lines))
        self.refused("a prefix and one under it", path, search, whole + lines, "parts: - holds %s too" % prefixes[0], 2)

    def limited(self, path, search, prefixes, lines, at):
        """A part that is cut short, alone and beside what it lacks."""
        prefix = prefixes[at]
        out, err, status = self.under(path, search, prefix, "--limit", 1)
        self.expect("a part that is cut short", (err, status) == ("", 3) and '"cause":"limit"' in out.splitlines()[-1],
                    out, err, status)
        others = [line for line in lines if json.loads(line)["under"] != prefix]
        self.refused("one was cut short", path, search, others + [out], "parts: cut short at bound 0 under " + prefix, 3)
        self.expect("cut short, and made whole", self.join(path, search, [out] + lines) == self.join(path, search, lines),
                    self.join(path, search, [out] + lines))

    def disagree(self, path, search, prefixes, lines):
        told = json.loads(lines[0])
        self.refused("two that differ", path, search, lines + [changed(lines[0], tried=told["tried"] + 1)],
                     "parts: two parts disagree at bound %s under %s" % (told["bound"], told["under"]), 2)

    def untrue(self, path, search):
        """A schedule that isn't complete, doesn't run, isn't under its prefix or isn't within its bound, of lines that
        count and of one without a bound, which doesn't."""
        lines = [line for out, _, _ in self.parts(path, search, self.prefixes(path, search, 3)) for line in
                 out.splitlines(True)]
        line = next(line for line in lines if json.loads(line)["schedule"])
        told, other = json.loads(line), json.loads(lines[0])["under"]
        for bound, under, schedule in ((1, told["under"], told["under"]), (1, told["under"], told["schedule"] + ",1"),
                                       (1, other, told["schedule"]), (0, told["under"], told["schedule"]),
                                       (None, told["under"], told["under"])):
            place = "%s under %s" % ("" if bound is None else " at bound %d" % bound, under)
            self.refused("%s%s" % (schedule, place), path, search,
                         lines + [changed(line, bound=bound, under=under, schedule=schedule)],
                         "parts: an untrue schedule" + place, 2)

    def of_another(self, path, search, other):
        lines = [out for out, _, _ in self.parts(other, search, self.prefixes(other, search, 1))]
        out, err, status = self.join(path, search, lines)
        self.expect("another guest", (out, err, status) == ("", "ctxbound: -: another guest under -\n", 2), out, err)
        self.refused("another version", other, search, [lines[0], changed(lines[0].splitlines()[0], version=2)],
                     "-:%d: parts are of version 1, not 2" % (lines[0].count("\n") + 1), 2)

    def hostile(self, path, search):
        """Each byte of a line is another one, beside the line as it is; and the line ends at each place."""
        lines = [out for out, _, _ in self.parts(path, search, self.prefixes(path, search, 3))]
        line = max((one for out in lines for one in out.splitlines()), key=len)
        wanted = self.join(path, search, lines)
        changed = [(at, line[:at] + text_of(bytes([byte])) + line[at + 1:]) for at in range(len(line))
                   for byte in (0, 9, 34, 44, 45, 48, 57, 92, 120, 125, 128, 255)]
        cut = [(at, line[:at]) for at in range(1, len(line))]
        tried = self.pool.map(lambda one: self.join(path, search, lines + [one[1] + "\n"]), changed + cut)
        for (at, text), got in zip(changed + cut, tried):
            is_refused = (got.out, got.status) == ("", 2) and got[1].startswith("ctxbound: ") and got[1].count("\n") == 1
            self.expect("a line with another byte at %d" % at, is_refused or got == wanted, text, got)
            if len(text) < len(line):
                self.expect("a line that ends at %d is taken" % at, is_refused, text, got)

    def no_lines(self, path, search):
        """Lines and texts that are refused by their first bad line, and what there is where none is bad."""
        for why, changes in NO_LINES.items():
            for old, new in changes:
                self.refused("%s is %s" % (old, new), path, search, [LINE.replace(old, new, 1)], "-:1: " + why, 2)
        for text, told, status in (
                ("", "parts: nothing under -", 3), ("\n \n\t\r\n", "parts: nothing under -", 3),
                ("%s", "-: another guest under 0", 2), ("%s\n\n%s\r\n", "-: another guest under 0", 2),
                ("\n%s\n{}\nx", "-:3: no key version", 2), ("%s %s", "-:1: no JSON", 2)):
            self.refused("lines as %r" % text, path, search, [text.replace("%s", LINE)], told, status)

    # ---- words

    def words(self, path):
        for words in (["explore", path, "--under"], ["explore", path, "--under", "-", "--quick"],
                      ["unbounded", path, "--under", "-", "--quick"], ["explore", path, "--under", "-", "--trace"],
                      ["explain", path, "--under", "-"], ["join"], ["join", path, "--bound", "1", "--unbounded"],
                      ["join", path, "--bound", "65"], ["join", path, "--workers", "2"], ["join", "-"],
                      ["join", "-", "-"], ["join", "-", "a", "-"]):
            out, err, status = self.run(*words)
            self.expect("%s: taken" % words, (status, out) == (2, "") and err, out, err)
        for prefix, told in (("0,", "Q1"), ("x", "Q1"), ("99", "P1 NoSuchThread at 0"), ("0x99", "P2 NotEnabled at ")):
            out, err, status = self.run("explore", path, "--under", prefix)
            self.expect("under %s" % prefix, (out, status) == ("", 2) and err.startswith("ctxbound: schedule " + told),
                        out, err)
        self.expect("no file", self.run("explore", "no/such", "--under", "-") == (
            "", "ctxbound: no/such: No such file or directory (os error 2)\n", 4))
        self.expect("no program", self.run("explore", "-", "--under", "-", given="var") == (
            "", "ctxbound: syntax S3 Expected at 1:4\n", 2))
        self.expect("a program from standard input", self.run("explore", "-", "--under", "1", given=path.read_bytes())
                    == self.run("explore", path, "--under", "1"))

    def files(self, path, search):
        """Parts in files, beside standard input and with blank lines."""
        outs = [out for out, _, _ in self.parts(path, search, self.prefixes(path, search, 3))]
        wanted = self.run(search.command, path, *search.words)
        named = []
        for at, out in enumerate(outs):
            named.append(self.write("%d.part" % at, "\n" * at + out))
        self.expect("files", self.run("join", path, *named, *search.joined) == wanted)
        self.expect("files and standard input",
                    self.run("join", path, "-", *named[1:], *search.joined, given=outs[0]) == wanted)
        self.expect("the guest from standard input",
                    self.run("join", "-", *named, *search.joined, given=path.read_bytes()) == wanted)
        named[1].write_text("\n\n" + outs[1][:-5] + "\n")
        out, err, status = self.run("join", path, *named, *search.joined)
        self.expect("the place of what is refused", (out, status) == ("", 2) and err.startswith(
            "ctxbound: %s:%d: " % (named[1], 2 + outs[1].count("\n"))) and err.count("\n") == 1, err)
        gone = self.folder / "gone.part"
        self.expect("a file that isn't there", self.run("join", path, gone, *search.joined) == (
            "", "ctxbound: %s: No such file or directory (os error 2)\n" % gone, 4))

    def notices(self):
        """That another schedule, end, count or bound makes another line."""
        one = Complete((0, 1), 1, "done", (1,))
        wanted = levels([one, one._replace(preemptions=0)], 1, (0,), b"")
        for other in (one._replace(kind="failed"), one._replace(values=(2,)), one._replace(preemptions=2),
                      one._replace(schedule=(1, 0)), one._replace(kind="stuck")):
            self.expect("%s isn't noticed" % (other,), levels([other, one._replace(preemptions=0)], 1, (0,), b"") != wanted)
        self.expect("too few lines were compared", self.lines > 300, self.lines)

    def test(self):
        paths, maker = guests(), Maker(self.chance)
        paths += [self.write("made%d.guest" % number, maker.guest()) for number in range(self.given.programs)]
        for path in paths:
            self.guest(path)
        first, fixed = EXAMPLES / "first.guest", EXAMPLES / "lost_update_fixed.guest"
        self.missing(fixed, search_of(2))
        self.of_another(fixed, search_of(2), first)
        self.no_lines(first, search_of(2))
        self.untrue(first, search_of(2))
        for bound in (64, None):
            self.far(bound)
        for bound in (2, None):
            self.hostile(first, search_of(bound))
            self.files(first, search_of(bound))
        self.words(first)
        self.notices()


if __name__ == "__main__":
    Parts.main(programs=200, seed=1)
