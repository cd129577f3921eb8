#!/usr/bin/env python3
"""Compares what BINARY answers where of equal threads only the lowest steps with the definition of that.

Usage: tests/symmetry.py BINARY [--programs N] [--seed S]

Guests are N made at random (250), of two to six threads, of which two to four have one body, with other names, and others
may have another body in common; a large one; and those of examples/, examples/real/ and tests/explain/. All complete
schedules of a guest that was made are listed by the interpreter of tests/reference.py, and those left out here that have a
step of a hidden thread. Within a bound the thread that stepped last isn't hidden, and hides none.

- With `--symmetry` a report has the counts of what is left, and all else as without, with a bound and without, by one
  worker or several; so has a quick one, whose counts may be less where one is bad.
- What is left ends in all ways, and with a bound has the first bad schedule.
- `--trace`, `--limit` and `--progress` go with it, `--under` is refused; `verify`, `suite` and `explain` have its counts.
- Of the guests that aren't made all but the counts is as without `--symmetry`, and the counts are no greater.
"""
import json
import re

from program import EXAMPLES, compact, guests, schedule_of, schedule_text
from reference import (Comparer, Guest, Maker, enabled, explored, is_cut_short, is_within, is_quick_answer, left_by_sleep_sets,
                       start, stepped, summary, trace_of, unbounded, updates)

BOUNDS, WORKERS = (0, 1, 2, 3, 64), (1, 2, 8)
COUNTS = ("tried", "failed", "stuck")
# So many statements has a body, at most, where there are two threads, three, ..
STATEMENTS = {2: 5, 3: 4, 4: 3, 5: 2, 6: 1}
# Three equal threads with more schedules than a round tries.
OWNS = [("load", "p", 0), ("if", ("p", "==", 1), [("lock", 0)], []), ("set", "p", (0,)), ("store", 1, 1), ("unlock", 0)]
# One with more schedules than a round tries, and one whose equal threads differ by who owns the mutex alone.
FIXED = [Guest([("v0", 1)], [], [], [], [updates(2, 1009)] * 3),
         Guest([("v0", 0), ("v1", 0)], ["m0"], [], [], [OWNS, OWNS, [("store", 0, 1), ("store", 0, 0)]])]


class Rule:
    """Which threads of a program are equal, which are hidden then, and which schedules are left."""

    def __init__(self, program):
        self.program, self.locals = program, [{} for _ in program.threads]
        self.codes = [[(word, *numbered(rest, names)) for word, *rest in thread.code]
                      for thread, names in zip(program.threads, self.locals)]
        self.after, self.hidden = {}, {}

    def values(self, state, t):
        """What a thread's locals hold, in the order of their first use."""
        values = dict(state.places[t].locals)
        return [values.get(name, 0) for name in self.locals[t]]

    def are_equal(self, state, t, u):
        a, b = state.places[t], state.places[u]
        return self.codes[t] == self.codes[u] and a.place == b.place and a.status == b.status \
            and self.values(state, t) == self.values(state, u) \
            and swapped(state.owners, t, u) == state.owners and swapped(state.queues, t, u) == state.queues

    def hides(self, state, last, t):
        """Whether a thread is hidden where `last` has stepped, or none."""
        return any(u < t and last not in (t, u) and self.are_equal(state, t, u) for u in enabled(self.program, state))

    def leaves(self, schedule, spares_last):
        """Whether no step of the schedule is one of a thread that is hidden then."""
        state, last = start(self.program), None
        for t in schedule:
            at = (state, last if spares_last else None, t)
            if at not in self.hidden:
                self.hidden[at], self.after[state, t] = self.hides(*at), stepped(self.program, state, t)[0]
            if self.hidden[at]:
                return False
            state, last = self.after[state, t], t
        return True


def numbered(part, names):
    """A part of an instruction with its locals numbered in the order of their first use."""
    if isinstance(part, (tuple, list)):
        return tuple(numbered(one, names) for one in part)
    return names.setdefault(part, "local %d" % len(names)) if str(part).isidentifier() else part


def swapped(part, t, u):
    """The same with two threads swapped."""
    return tuple(swapped(one, t, u) for one in part) if isinstance(part, tuple) else {t: u, u: t}.get(part, part)


def renamed(part, names):
    """A part of a body with other names of locals."""
    return type(part)(renamed(one, names) for one in part) if isinstance(part, (tuple, list)) else names.get(part, part)


class Twins(Maker):
    """A program at random in which some threads have one body, with other names."""

    def __init__(self, seed):
        super().__init__(seed)
        draw = self.random
        equal = draw.randint(2, 4)
        others = min(6 - equal, draw.choice((0, 1, 1, 2, 2, 3, 4)))
        most, is_parting = STATEMENTS[equal + others], draw.random() < 0.3
        if is_parting:
            self.mutexes, self.conditions = self.mutexes or ["m0"], self.conditions or ["c0"]
        body = lambda: self.block(draw.randint(1, most), 0)
        tree = self.parting() if is_parting else body()
        ways = [body, lambda: self.nearly(tree), lambda: [("signal", 0)] if is_parting else self.nearly(tree)]
        odd = [draw.choice(ways)() for _ in range(others)]
        if others > 1 and draw.random() < 0.5:
            odd = [self.same(odd[0]) for _ in odd]
        self.trees = [self.same(tree) for _ in range(equal)] + odd
        draw.shuffle(self.trees)

    def same(self, tree):
        return renamed(tree, dict(zip("rqp", self.random.sample(["r", "q", "p", "other", "_"], 3))))

    def nearly(self, tree):
        """The body but for one statement, which is left out or has other locals."""
        at = self.random.randint(0, len(tree))
        return tree[:at] + self.random.choice([[], renamed(tree[at:at + 1], {"p": "q", "q": "p", "r": "q"})]) + tree[at + 1:]

    def parting(self):
        """A body of which two threads may come to one place, while one alone has a mutex, a value or waited."""
        made = [("cas", "r", 0, self.variables[0][1], 3), ("if", ("r",), [("lock", 0)], None), ("set", "r", (0,))]
        made = [one for one in made if self.random.random() < 0.9]
        ways = [("wait", 0, 0), ("unlock", 0), ("store", 0, "r"), ("assert", ("r", "<", 1)), ("add", "r", 0, 1)]
        return made + self.random.sample(ways, self.random.randint(1, 2))


def within(report, kept):
    """The summary of those schedules that are kept and within the report's bound."""
    return summary([c for c in kept if report["bound"] is None or c.preemptions <= report["bound"]])


def once(report, kept):
    """The report with equal threads once: its counts are of the schedules that are kept."""
    counts = within(report, kept)
    return dict(report, symmetry=True, **{key: counts[key] for key in COUNTS})


class Symmetry(Comparer):
    hiding = 0

    def reports(self, command, words, plain, wanted, kept):
        """A search without equal threads once, and with them once, quick or not, by each number of workers."""
        self.same(self.text + "ends", within(plain, kept)["ends"], plain["ends"])
        self.expect(self.text + "the first bad one goes", command == "unbounded" or plain["verdict"] == "clean"
                    or plain["schedule"] in [schedule_text(c.schedule) for c in kept], plain)
        self.search(command, words, plain.__eq__, plain)
        for workers in WORKERS:
            more = words + ["--symmetry", "--workers", str(workers)]
            self.search(command, more, wanted.__eq__, wanted)
            self.search(command, more + ["--quick"], lambda a: is_quick_answer(a, wanted), wanted)

    def options(self, program, kept, wanted, whole):
        """A search with a bound that also prints a trace, or tells how far it is, or is cut short, and one without so."""
        words, is_bad = ["--symmetry", "--bound", str(wanted["bound"])], wanted["verdict"] == "bad"
        trace = trace_of(program, schedule_of(wanted["schedule"]))[0] if is_bad else ""
        answer = self.run("explore", "program.guest", "--trace", *words)
        self.same(self.text + "--trace", answer, (compact(wanted) + trace, "", int(is_bad)))
        answer = self.run("explore", "program.guest", "--progress", *words)
        for bound, tried, bad in re.findall(r"^bound (\d+): (\d+) tried, (\d+) bad, 0 open", answer.err, re.MULTILINE):
            counts = within({"bound": int(bound)}, kept)
            self.same(self.text + "--progress", (int(tried), int(bad)), (counts["tried"], counts["failed"] + counts["stuck"]))
        self.same(self.text + "--progress", (answer.out, answer.err[:8]), (compact(wanted), "bound 0:"))
        limit = self.chance.randint(1, 2 * len(kept))
        self.search("explore", words + ["--limit", str(limit)],
                    lambda a: a == wanted or a["symmetry"] and is_cut_short(a, limit, kept, wanted["bound"]), wanted)
        self.search("unbounded", ["--symmetry", "--limit", str(limit)],
                    lambda a: a == whole or a["symmetry"] and limit <= a["tried"] and is_within(a, whole), whole)

    def defaults(self, whole, by_bound, kept):
        """What `verify`, `suite` and `explain` count."""
        least = whole.get("preemptions", 0)
        told, row = by_bound(least) if least else whole, json.loads(self.run("suite", "--json", "program.guest").out)
        self.same(self.text + "suite", dict(list(row.items())[4:]), told)  # After its file, what is expected, status and note.
        counts = re.findall(r"\((\d+) tried, equal threads once\)$", self.run("verify", "program.guest").out, re.MULTILINE)
        tried = [within({"bound": bound}, kept)["tried"] for bound in range(min(told["bound"] + 1, least) if least else 0)]
        self.same(self.text + "verify", counts, [str(count) for count in [whole["tried"]] + tried])
        found = json.loads(self.run("explain", "--json", "program.guest").out)["search"]
        self.same(self.text + "explain", found, by_bound(64))

    def compared(self, program, everything, chance):
        rule, awake = Rule(program), set(left_by_sleep_sets(program, start(program), ()))
        kept = [c for c in everything if rule.leaves(c.schedule, True)]
        pruned = [c for c in everything if c.schedule in awake and rule.leaves(c.schedule, False)]
        self.hiding += len(kept) < len(everything)
        by_bound = lambda bound: once(explored(everything, bound), kept)
        for bound in BOUNDS:
            self.reports("explore", ["--bound", str(bound)], explored(everything, bound), by_bound(bound), kept)
        whole = once(unbounded(program, everything), pruned)
        self.reports("unbounded", [], unbounded(program, everything), whole, pruned)
        self.options(program, kept, by_bound(self.chance.choice(BOUNDS)), whole)
        self.defaults(whole, by_bound, kept)

    def beside(self, path, words):
        """A guest with and without `--symmetry`: all but the counts is alike."""
        plain, found = (json.loads(self.run(*words, path, *more).out) for more in ([], ["--symmetry"]))
        rest = lambda report: {key: report[key] for key in report if key not in COUNTS}
        self.same("%s %s" % (words, path), rest(found), dict(rest(plain), symmetry=True))
        self.expect("%s %s: more" % (words, path), all(found[key] <= plain[key] for key in COUNTS), plain, found)

    def test(self):
        for path in guests():
            for words in (["explore"], ["explore", "--bound", "1", "--workers", "2"], ["unbounded"]):
                self.beside(path, words)
        for command in ("explore", "unbounded"):
            out, err, status = self.run(command, EXAMPLES / "first.guest", "--symmetry", "--under", "0")
            self.expect(command + " --under", (out, status) == ("", 2) and "--symmetry" in err and "--under" in err, out, err)
        print("%s; of %d a schedule isn't tried" % (self.programs(Twins, FIXED), self.hiding))


if __name__ == "__main__":
    Symmetry.main(programs=250, seed=1)
