#!/usr/bin/env python3
"""Tries that what `ctxbound prefixes` lists covers a guest: each schedule begins with exactly one line.

Usage: tests/prefixes.py BINARY [--programs N] [--seed S]

Guests are those of examples/, examples/real/ and tests/explain/, and N made at random (100). They are run here by the
interpreter of tests/simulator.py, which shares no code with the program; who sleeps is worked out here.

- Each complete schedule begins with exactly one line, and with `--unbounded` each that sleep sets leave: all of them
  where there are few, else some drawn at random.
- The lines rise; each runs; each is as long as the longest, or a complete schedule; there are as many as asked for, or
  all are complete; and one step shorter there are fewer.
- Words that ask for nothing are refused, a text is read from standard input, too, and a cover that lacks a line, or has
  one beside its beginning, is noticed.
"""
from program import EXAMPLES, Tester, TooMany, guests, schedule_of
from simulator import PARTS, Guest, Maker, Run

COUNTS = (1, 7, 64, 1000)
MOST_SCHEDULES = 400
MOST_STEPS = 30000
DRAWN = 20
TRIED_LINES = 60


def run_of(guest, schedule):
    """The run of a schedule; None where it doesn't run."""
    run = Run(guest)
    return run if run.carry_out(schedule) is None else None


def accesses(thread):
    """The objects of a thread's next step, each with whether it is written: a `load` alone writes none."""
    names = [part for part, kind in zip(thread.at.parts, PARTS[thread.at.word]) if kind == "o"]
    if thread.status == "woken":
        names = names[1:]  # The mutex, which it takes again.
    return {name: thread.at.word != "load" for name in names}


def are_independent(run, t, u):
    a, b = accesses(run.threads[t]), accesses(run.threads[u])
    return not any(name in b and (a[name] or b[name]) for name in a)


def sleepers(run, able, asleep, t):
    return {v for v in able if v != t and (v in asleep or v < t) and are_independent(run, t, v)}


def nodes(guest, pruned, most):
    """Each prefix of the guest's schedules, pruned or not, with whether it is complete, while there are few."""
    found, steps, todo = [], 0, [((), frozenset())]
    while todo:
        prefix, asleep = todo.pop()
        steps += len(prefix)
        if len(found) > most or steps > MOST_STEPS:
            raise TooMany
        run = run_of(guest, prefix)
        able = run.enabled()
        found.append((prefix, not able))
        for t in able:
            if t not in asleep:
                after = sleepers(run, able, asleep, t) if pruned else ()
                todo.append((prefix + (t,), frozenset(after)))
    return found


def drawn(guest, pruned, chance):
    """Complete schedules at random; pruned, such as sleep sets leave, if any is met."""
    for _ in range(DRAWN):
        run, asleep, schedule = Run(guest), set(), ()
        while True:
            able = run.enabled()
            awake = [t for t in able if t not in asleep]
            if not awake:
                break
            t = chance.choice(awake)
            asleep = sleepers(run, able, asleep, t) if pruned else set()
            run.step(run.threads[t])
            schedule += (t,)
        if not able:
            yield schedule


def begun(lines, schedule):
    """How many lines a schedule begins with."""
    return sum(schedule[:length] in lines for length in range(len(schedule) + 1))


class Prefixes(Tester):
    def guest(self, path):
        guest = Guest(path.read_text())
        for pruned in (False, True):
            try:
                all_nodes = nodes(guest, pruned, MOST_SCHEDULES)
                wholes = [prefix for prefix, is_complete in all_nodes if is_complete]
            except TooMany:
                all_nodes, wholes = None, list(drawn(guest, pruned, self.chance))
            for count in COUNTS:
                self.listing(guest, path, pruned, count, all_nodes, wholes)

    def listing(self, guest, path, pruned, count, all_nodes, wholes):
        words = [path, "--at-least", count] + ["--unbounded"] * pruned
        out, err, status = self.run("prefixes", *words)
        name = " ".join(map(str, ["prefixes", *words]))
        self.expect(name, status == 0 and not err, err, status)
        lines = [tuple(schedule_of(line)) for line in out.splitlines()]
        known = set(lines)
        self.expect(name + ": rising", lines == sorted(known) and out.endswith("\n"), lines[:9])
        twice = [schedule for schedule in wholes if begun(known, schedule) != 1]
        self.expect(name + ": a schedule begins with none or two", not twice, twice[:1])
        longest = max(map(len, lines))
        tried = lines if len(lines) <= TRIED_LINES else self.chance.sample(lines, TRIED_LINES)
        over = {line: not run.enabled() if run else None
                for line, run in ((line, run_of(guest, line)) for line in tried)}
        self.expect(name + ": a line doesn't run", None not in over.values(), over)
        self.expect(name + ": a line is short", all(len(line) == longest or over[line] for line in tried), over)
        if len(lines) < count:
            self.expect(name + ": there are more", all(over[line] for line in tried), over)
        if not pruned and longest:
            shorter = {line[:longest - 1] for line in lines}
            self.expect(name + ": a shorter length is enough", len(shorter) < count, len(shorter))
        if all_nodes is not None:
            want = self.wanted(all_nodes, count)
            self.expect(name + ": another list", lines == want, (lines[:9], want[:9]))

    def wanted(self, all_nodes, count):
        """The list, from all prefixes that there are."""
        for length in range(len(max((prefix for prefix, _ in all_nodes), key=len)) + 1):
            want = sorted(prefix for prefix, is_complete in all_nodes
                          if len(prefix) == length or is_complete and len(prefix) < length)
            if len(want) >= count:
                break
        return want

    def words(self, path):
        for words in ([], ["a", "b"], ["a", "--at-least", "0"], ["a", "--at-least", "1048577"], ["a", "--bound", "1"],
                      ["a", "--at-least", "x"], ["a", "--at-least"]):
            out, err, status = self.run("prefixes", *words)
            self.expect("prefixes %s: taken" % words, (status, out) == (2, "") and err, out, err)
        text = path.read_text()
        self.expect("standard input", self.run("prefixes", "-", given=text) == self.run("prefixes", path), path)
        self.expect("the count that is asked for", self.run("prefixes", path) == self.run("prefixes", path, "--at-least", "64"))
        self.expect("the greatest count", self.run("prefixes", path, "--at-least", "1048576")[2] == 0)
        self.expect("no file", self.run("prefixes", "no/such/file")[1:] == (
            "ctxbound: no/such/file: No such file or directory (os error 2)\n", 4), self.run("prefixes", "no/such/file"))
        self.expect("a refused text", self.run("prefixes", "-", given="var")[1:] == ("ctxbound: syntax S3 Expected at 1:4\n", 2),
                    self.run("prefixes", "-", given="var"))

    def notices(self):
        """That a list which is no cover is noticed."""
        cover = {(0, 0), (0, 1), (1,)}
        for lines, told in ((cover, 1), (cover - {(0, 1)}, 0), (cover | {(0,)}, 2)):
            self.expect("lines that are no cover", begun(lines, (0, 1, 0)) == told, lines)

    def test(self):
        for path in guests():
            self.guest(path)
        maker = Maker(self.chance)
        for number in range(self.given.programs):
            self.guest(self.write("made%d.guest" % number, maker.guest()))
        self.words(EXAMPLES / "first.guest")
        self.notices()


if __name__ == "__main__":
    Prefixes.main(programs=100, seed=1)
