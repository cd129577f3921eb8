#!/usr/bin/env python3
"""reference.py BINARY [--programs N] [--seed S] [--minutes M]

Makes small guest programs at random, of the whole language, and compares what BINARY answers of each
with the definitions: all complete schedules of the program are listed, filtered and summed here, with
no bound on a walk, no book, no undoing and no worker. It stops after N programs (300), or after M
minutes. The same seed makes the same programs. A program that is answered wrongly is printed with the
command and both answers.
"""
import json
import random
import time
from collections import namedtuple

from program import Tester, TooMany, compact, schedule_text

BOUNDS = (0, 1, 2, 3, 4, 64)
WORKERS = (1, 2, 3, 8, 16)
MOST_SCHEDULES = 1500
MOST_OF_LARGE = 100000
MOST_COUNT = 65535

# ---- the language: instructions, states, steps

# A thread of a program: its name, and its code as a list of tuples.
Thread = namedtuple("Thread", "name code")
Program = namedtuple("Program", "variables mutexes conditions semaphores threads")
# Where a thread is: its place in the code, its locals, and `at`, `waiting`, `woken`, `ended` or
# ("stopped", why).
Place = namedtuple("Place", "place locals status")
State = namedtuple("State", "values owners queues counts places")

LOCAL = {"set", "assert", "skip", "skip_if_zero"}


def wrapped(number):
    return (number + 2**63) % 2**64 - 2**63


def replaced(items, at, item):
    return items[:at] + (item,) + items[at + 1:]


def value_of(operand, local):
    return operand if isinstance(operand, int) else local.get(operand, 0)


def result_of(expression, local):
    if len(expression) == 1:
        return value_of(expression[0], local)
    left, operator, right = expression
    a, b = value_of(left, local), value_of(right, local)
    return {"+": lambda: wrapped(a + b), "-": lambda: wrapped(a - b), "*": lambda: wrapped(a * b),
            "==": lambda: int(a == b), "!=": lambda: int(a != b), "<": lambda: int(a < b),
            "<=": lambda: int(a <= b), ">": lambda: int(a > b), ">=": lambda: int(a >= b)}[operator]()


def local_run(code, place, local):
    """Where a thread is after its local statements from this place on."""
    local = dict(local)
    while place < len(code):
        word, *rest = code[place]
        if word not in LOCAL:
            return Place(place, tuple(sorted(local.items())), "at")
        if word == "set":
            local[rest[0]] = result_of(rest[1], local)
        elif word == "assert" and result_of(rest[0], local) == 0:
            return Place(place, tuple(sorted(local.items())), ("stopped", "assert"))
        elif word == "skip":
            place += rest[0]
        elif word == "skip_if_zero" and result_of(rest[0], local) == 0:
            place += rest[1]
        place += 1
    return Place(place, tuple(sorted(local.items())), "ended")


def start(program):
    return State(tuple(value for _, value in program.variables), (None,) * len(program.mutexes),
                 ((),) * len(program.conditions), tuple(count for _, count in program.semaphores),
                 tuple(local_run(thread.code, 0, ()) for thread in program.threads))


def next_of(program, state, thread):
    """The next step of a thread: a word and what it names; None where it has none."""
    at = state.places[thread]
    if at.status == "at":
        return program.threads[thread].code[at.place]
    if at.status == "woken":
        return ("retake", program.threads[thread].code[at.place][2])
    return None


def is_enabled(program, state, thread):
    step = next_of(program, state, thread)
    if step is None:
        return False
    if step[0] in ("lock", "retake"):
        return state.owners[step[1]] is None
    return step[0] != "acquire" or state.counts[step[1]] > 0


def enabled(program, state):
    return [t for t in range(len(program.threads)) if is_enabled(program, state, t)]


def stepped(program, state, thread):
    """The state after a step of an enabled thread, and what it did, as a trace says it."""
    values, owners, queues, counts, places = state
    word, *rest = next_of(program, state, thread)
    local = dict(places[thread].locals)
    ends, told, waits = None, None, False
    if word == "load":
        local[rest[0]] = values[rest[1]]
        told = "load %s %d" % (program.variables[rest[1]][0], values[rest[1]])
    elif word == "store":
        new = value_of(rest[1], local)
        values = replaced(values, rest[0], new)
        told = "store %s %d" % (program.variables[rest[0]][0], new)
    elif word == "add":
        old, new = values[rest[1]], wrapped(values[rest[1]] + value_of(rest[2], local))
        values, local[rest[0]] = replaced(values, rest[1], new), old
        told = "add %s %d %d" % (program.variables[rest[1]][0], old, new)
    elif word == "cas":
        old, expected, new = values[rest[1]], value_of(rest[2], local), value_of(rest[3], local)
        hit = old == expected
        values = replaced(values, rest[1], new) if hit else values
        local[rest[0]] = int(hit)
        told = "cas %s %d %s" % (program.variables[rest[1]][0], old, "hit %d" % new if hit else "miss")
    elif word in ("lock", "retake"):
        owners = replaced(owners, rest[0], thread)
        told = "%s %s" % (word, program.mutexes[rest[0]])
    elif word == "unlock":
        told = "unlock %s" % program.mutexes[rest[0]]
        if owners[rest[0]] == thread:
            owners = replaced(owners, rest[0], None)
        else:
            ends = "not-held"
    elif word == "wait":
        told = "wait %s %s" % (program.conditions[rest[0]], program.mutexes[rest[1]])
        if owners[rest[1]] == thread:
            owners = replaced(owners, rest[1], None)
            queues = replaced(queues, rest[0], queues[rest[0]] + (thread,))
            waits = True
        else:
            ends = "not-held"
    elif word in ("signal", "broadcast"):
        told = "%s %s" % (word, program.conditions[rest[0]])
        queue = queues[rest[0]]
        woken = queue[:1] if word == "signal" else queue
        queues = replaced(queues, rest[0], queue[len(woken):])
        for t in woken:
            places = replaced(places, t, places[t]._replace(status="woken"))
    elif word == "acquire":
        counts = replaced(counts, rest[0], counts[rest[0]] - 1)
        told = "acquire %s" % program.semaphores[rest[0]][0]
    elif word == "release":
        told = "release %s" % program.semaphores[rest[0]][0]
        if counts[rest[0]] < MOST_COUNT:
            counts = replaced(counts, rest[0], counts[rest[0]] + 1)
        else:
            ends = "sem-full"
    at = places[thread]
    if waits:
        after = at._replace(status="waiting")
    elif ends:
        after = at._replace(status=("stopped", ends))
    else:
        after = local_run(program.threads[thread].code, at.place + 1, local)
    return State(values, owners, queues, counts, replaced(places, thread, after)), told


def kind_of(state):
    """How a complete schedule ended."""
    statuses = [place.status for place in state.places]
    if any(isinstance(status, tuple) for status in statuses):
        return "failed"
    return "done" if all(status == "ended" for status in statuses) else "stuck"


def accesses(program, state, thread):
    """The objects of the thread's next step, each with whether it is written."""
    word, *rest = next_of(program, state, thread)
    if word == "load":
        return {("variable", rest[1]): False}
    if word in ("add", "cas"):
        return {("variable", rest[1]): True}
    if word == "store":
        return {("variable", rest[0]): True}
    if word in ("lock", "unlock", "retake"):
        return {("mutex", rest[0]): True}
    if word == "wait":
        return {("condition", rest[0]): True, ("mutex", rest[1]): True}
    if word in ("signal", "broadcast"):
        return {("condition", rest[0]): True}
    return {("semaphore", rest[0]): True}


def are_independent(program, state, t, u):
    a, b = accesses(program, state, t), accesses(program, state, u)
    return not any(which in b and (a[which] or b[which]) for which in a)


# ---- all schedules, and what a search is to say of them

# A complete schedule: its threads, how many preemptions it has, its kind and the last values.
Complete = namedtuple("Complete", "schedule preemptions kind values")


def all_complete(program, most):
    """All complete schedules, in rising order, where there are no more than `most`."""
    found = []

    def go_on(state, schedule, preemptions):
        if len(found) > most:
            raise TooMany
        able = enabled(program, state)
        if not able:
            found.append(Complete(schedule, preemptions, kind_of(state), state.values))
        for t in able:
            interrupts = bool(schedule) and schedule[-1] != t and schedule[-1] in able
            go_on(stepped(program, state, t)[0], schedule + (t,), preemptions + interrupts)

    go_on(start(program), (), 0)
    return found


def left_by_sleep_sets(program, state, asleep, schedule=()):
    """The complete schedules that sleep sets leave, in rising order."""
    able = enabled(program, state)
    if not able:
        return [schedule]
    found, tried = [], []
    for t in able:
        if t in asleep:
            continue
        still = {v for v in set(asleep) | set(tried)
                 if v in able and v != t and are_independent(program, state, t, v)}
        found += left_by_sleep_sets(program, stepped(program, state, t)[0], still, schedule + (t,))
        tried.append(t)
    return found


def is_bad(complete):
    return complete.kind != "done"


def summary(completes):
    views = sorted({(c.kind, c.values) for c in completes})
    return {"tried": len(completes), "failed": sum(c.kind == "failed" for c in completes),
            "stuck": sum(c.kind == "stuck" for c in completes),
            "ends": [{"kind": kind, "vars": list(values)} for kind, values in views]}


def report_of(completes, bound, is_whole, everything):
    """The report on a finished search: of these schedules, of which `everything` are all there are."""
    report = dict(summary(completes), bound=bound)
    bad = [c for c in (completes if bound is not None else everything) if is_bad(c)]
    if bad:
        first = min(bad, key=lambda c: c.schedule)
        return dict(report, verdict="bad", kind=first.kind, preemptions=first.preemptions,
                    schedule=schedule_text(first.schedule))
    return dict(report, verdict="clean", all=is_whole)


def explored(everything, last):
    """The report of a search up to a bound."""
    for bound in range(last + 1):
        within = [c for c in everything if c.preemptions <= bound]
        is_whole = len(within) == len(everything)
        if bound == last or is_whole or any(is_bad(c) for c in within):
            return report_of(within, bound, is_whole, everything)


def unbounded(program, everything):
    left = set(left_by_sleep_sets(program, start(program), ()))
    kept = [c for c in everything if c.schedule in left]
    report = report_of(kept, None, True, everything)
    return dict(report, ends=summary(everything)["ends"])


def is_within(part, whole):
    """Whether a summary counts at most what another one does, and has only ends of it."""
    return all(part[key] <= whole[key] for key in ("tried", "failed", "stuck")) \
        and all(end in whole["ends"] for end in part["ends"])


def is_quick_answer(answer, report):
    """Whether a quick search may answer this where a full one answers the report."""
    wanted = dict(report, quick=True)
    if report["verdict"] == "clean":
        return answer == wanted
    same = ("bound", "kind", "preemptions", "schedule", "verdict", "quick")
    return set(answer) == set(wanted) and all(answer[key] == wanted[key] for key in same) \
        and is_within(answer, report)


def is_cut_short(answer, limit, everything, last):
    """Whether a search up to a bound may be cut short with this answer."""
    bound, finished = answer["bound"], answer["finished"]
    within = [c for c in everything if c.preemptions <= bound]
    bad = [schedule_text(c.schedule) for c in within if is_bad(c)]
    below = -1 if finished is None else finished
    return answer["verdict"] == "incomplete" and answer["cause"] == "limit" \
        and limit <= answer["tried"] and is_within(answer, summary(within)) and bound <= last \
        and bound in ((0,) if finished is None else (finished, finished + 1)) \
        and not any(is_bad(c) and c.preemptions <= below for c in everything) \
        and (answer["schedule"] in bad if answer["schedule"] is not None else True)


def trace_of(program, schedule):
    """What a replay prints, and its status."""
    state, lines, preemptions = start(program), [], 0
    names = [thread.name for thread in program.threads]
    lines += ["start %s stop assert" % name for name, place in zip(names, state.places)
              if isinstance(place.status, tuple)]
    for k, t in enumerate(schedule):
        able = enabled(program, state)
        if t >= len(names):
            return "ctxbound: schedule P1 NoSuchThread at %d\n" % k, 2
        if t not in able:
            return "ctxbound: schedule P2 NotEnabled at %d\n" % k, 2
        interrupts = k > 0 and schedule[k - 1] != t and schedule[k - 1] in able
        preemptions += interrupts
        state, told = stepped(program, state, t)
        status = state.places[t].status
        stop = " stop %s" % status[1] if isinstance(status, tuple) else ""
        lines.append("%d %s %s%s%s" % (k, names[t], told, " preempt" if interrupts else "", stop))
    kind = "none" if enabled(program, state) else kind_of(state)
    values = "".join(" %s=%d" % (name, value) for (name, _), value in zip(program.variables, state.values))
    lines += ["preemptions %d" % preemptions, "kind %s" % kind, "vars%s" % values]
    return "".join(line + "\n" for line in lines), int(kind in ("failed", "stuck"))


# ---- programs at random: a tree, its text and its flat code

class Guest:
    """A program as a tree: its text, and its flat code."""

    def __init__(self, variables, mutexes, conditions, semaphores, trees):
        self.variables, self.mutexes, self.conditions = variables, mutexes, conditions
        self.semaphores, self.trees = semaphores, trees

    def text(self):
        declared = ["var %s = %d;" % pair for pair in self.variables]
        declared += ["mutex %s;" % name for name in self.mutexes]
        declared += ["cond %s;" % name for name in self.conditions]
        declared += ["sem %s = %d;" % pair for pair in self.semaphores]
        threads = ["thread T%d {\n%s}" % (k, self.text_of(tree, 1)) for k, tree in enumerate(self.trees)]
        return "\n".join(declared + threads) + "\n"

    def text_of(self, tree, depth):
        return "".join("    " * depth + self.statement_text(one, depth) + "\n" for one in tree)

    def statement_text(self, statement, depth):
        word, *rest = statement
        shown = lambda expression: " ".join(str(part) for part in expression)
        braced = lambda tree: "{\n" + self.text_of(tree, depth + 1) + "    " * depth + "}"
        if word == "if":
            test, then, other = rest
            return "if %s %s" % (shown(test), braced(then)) + (" else " + braced(other) if other else "")
        if word == "repeat":
            return "repeat %d %s" % (rest[0], braced(rest[1]))
        if word in ("set", "assert"):
            return "%s %s;" % (word, " ".join(list(rest[:-1]) + [shown(rest[-1])]))
        named = {"load": "lv", "store": "vo", "add": "lvo", "cas": "lvoo", "lock": "m", "unlock": "m",
                 "wait": "cm", "signal": "c", "broadcast": "c", "acquire": "s", "release": "s",
                 "leave": ""}[word]
        names = {"v": lambda k: self.variables[k][0], "m": lambda k: self.mutexes[k],
                 "c": lambda k: self.conditions[k], "s": lambda k: self.semaphores[k][0],
                 "l": str, "o": str}
        return " ".join([word] + [names[which](part) for which, part in zip(named, rest)]) + ";"

    def program(self):
        threads = [Thread("T%d" % k, flat(tree)) for k, tree in enumerate(self.trees)]
        return Program(self.variables, self.mutexes, self.conditions, self.semaphores, threads)


class Maker(Guest):
    """A program made at random."""

    def __init__(self, seed):
        self.random = random.Random(seed)
        pick = self.random.randint
        self.variables = [("v%d" % k, pick(-1, 2)) for k in range(pick(1, 3))]
        self.mutexes = ["m%d" % k for k in range(pick(0, 2))]
        self.conditions = ["c%d" % k for k in range(pick(0, 1))]
        self.semaphores = [("s%d" % k, self.random.choice((0, 1, 2, MOST_COUNT)))
                           for k in range(pick(0, 1))]
        threads = self.random.choice((1, 2, 2, 2, 3, 3, 4))
        self.trees = [self.block(pick(2, 8 - threads), 0) for _ in range(threads)]

    def operand(self):
        return self.random.choice(["r", "q", "p"] + [self.random.randint(-2, 3)])

    def expression(self):
        if self.random.random() < 0.3:
            return (self.operand(),)
        operators = ["+", "-", "*", "==", "!=", "<", "<=", ">", ">="]
        return (self.operand(), self.random.choice(operators), self.operand())

    def local(self):
        return self.random.choice(["r", "q", "p"])

    def visible(self):
        choose, variable = self.random.choice, self.random.randrange(len(self.variables))
        words = ["load", "store", "add", "cas"] * 3 + ["lock", "unlock"] * bool(self.mutexes)
        words += ["wait"] * bool(self.mutexes and self.conditions)
        words += ["signal", "broadcast"] * bool(self.conditions)
        words += ["acquire", "release", "release"] * bool(self.semaphores)
        word = choose(words)
        return {"load": lambda: ("load", self.local(), variable),
                "store": lambda: ("store", variable, self.operand()),
                "add": lambda: ("add", self.local(), variable, self.operand()),
                "cas": lambda: ("cas", self.local(), variable, self.operand(), self.operand()),
                "wait": lambda: ("wait", 0, self.random.randrange(len(self.mutexes))),
                "signal": lambda: ("signal", 0), "broadcast": lambda: ("broadcast", 0),
                "acquire": lambda: ("acquire", 0), "release": lambda: ("release", 0),
                "lock": lambda: ("lock", self.random.randrange(len(self.mutexes))),
                "unlock": lambda: ("unlock", self.random.randrange(len(self.mutexes)))}[word]()

    def critical(self, depth):
        """Statements under a mutex, which random words alone seldom make."""
        mutex = self.random.randrange(len(self.mutexes))
        inside = self.block(self.random.randint(1, 2), depth + 1)
        if self.conditions and self.random.random() < 0.5:
            inside.append(("wait", 0, mutex) if self.random.random() < 0.5 else ("signal", 0))
        return [("lock", mutex)] + inside + [("unlock", mutex)]

    def read_twice(self):
        """Two reads that agree unless somebody comes in between: a failure that takes an interruption."""
        variable = self.random.randrange(len(self.variables))
        return [("load", "p", variable), ("load", "q", variable), ("assert", ("p", "==", "q"))]

    def block(self, statements, depth, in_repeat=False):
        made = []
        for _ in range(statements):
            chance = self.random.random()
            if chance < 0.2 and self.mutexes and depth < 2:
                made += self.critical(depth)
            elif chance < 0.28:
                made += self.read_twice()
            elif chance < 0.72 or depth > 2:
                made.append(self.visible())
            elif chance < 0.78:
                made.append(("set", self.local(), self.expression()))
            elif chance < 0.82:
                claim = (self.local(), self.random.choice(["!=", "<", "<="]), self.random.randint(1, 4))
                made.append(("assert", claim))
            elif chance < 0.9:
                other = self.block(1, depth + 1, in_repeat) if self.random.random() < 0.5 else None
                made.append(("if", self.expression(), self.block(1, depth + 1, in_repeat), other))
            elif chance < 0.96:
                body = self.block(self.random.randint(1, 2), depth + 1, True)
                made.append(("repeat", self.random.randint(1, 3), body))
            elif in_repeat:
                made.append(("leave",))
        return made


def flat(tree):
    """The flat code of a block; a `leave` is left as a word, with no number."""
    code = []
    for word, *rest in tree:
        if word == "if":
            test, then, other = rest
            then, other = flat(then), flat(other or [])
            jump = [("skip", len(other))] if rest[2] else []
            code += [("skip_if_zero", test, len(then) + len(jump))] + then + jump + other
        elif word == "repeat":
            body = flat(rest[1])
            whole = body * rest[0]
            code += [("skip", len(whole) - at - 1) if one == ("leave",) else one
                     for at, one in enumerate(whole)]
        else:
            code.append((word, *rest))
    return code


def updates(times, factor):
    """A thread that reads, computes and writes some times, so that each order has ends of its own."""
    return [("load", "r", 0), ("set", "r", ("r", "*", factor)), ("set", "r", ("r", "+", factor)),
            ("store", 0, "r")] * times


# Programs with more schedules than a round tries, reports of many ends, or more open items than a round has; and one with
# a local that is set before its thread's first step.
FIXED = [
    Guest([("v0", 0)], [], [], [], [[("load", "q", 0), ("store", 0, 1)], [("set", "r", (5,)), ("store", 0, "r")]]),
    Guest([("v0", 1)], [], [], [], [updates(2, 1009), updates(2, 10007), updates(2, 100003)]),
    Guest([("v%d" % k, 0) for k in range(4)], [], [], [],
          [[("store", k, one) for one in range(2)] for k in range(4)]),
    Guest([("v0", 0)], ["m0"], ["c0"], [("s0", 0)],
          [[("lock", 0), ("wait", 0, 0), ("unlock", 0), ("load", "r", 0)],
           [("lock", 0), ("signal", 0), ("unlock", 0), ("store", 0, 1), ("release", 0)],
           [("acquire", 0), ("load", "r", 0), ("assert", ("r", "==", 1)), ("store", 0, 2)]]),
]

# ---- comparing

class Comparer(Tester):
    text = ""

    def asked(self, command, words):
        out, err, status = self.run(command, "program.guest", *words)
        return out + err, status

    def check(self, is_right, words, printed, wanted):
        self.expect("%s\n$ ctxbound %s" % (self.text, words), is_right, "printed: %s" % (printed,), "defined: %s" % (wanted,))

    def search(self, command, words, is_right, wanted):
        printed, status = self.asked(command, words)
        try:
            answer = json.loads(printed)
            states = {"clean": 0, "bad": 1, "incomplete": 3}
            fine = printed == compact(answer) and status == states[answer["verdict"]] and is_right(answer)
        except (ValueError, KeyError):
            fine = False
        self.check(fine, " ".join([command, "program.guest"] + words), printed, json.dumps(wanted))

    def searches(self, program, everything, chance):
        whole = unbounded(program, everything)
        for workers in WORKERS:
            many = ["--workers", str(workers)]
            for bound in BOUNDS:
                report = explored(everything, bound)
                self.search("explore", ["--bound", str(bound)] + many, report.__eq__, report)
            self.search("unbounded", many, whole.__eq__, whole)
            bound, limit = chance.choice(BOUNDS), chance.randint(1, 2 * len(everything))
            report = explored(everything, bound)
            words = ["--bound", str(bound)] + many
            self.search("explore", words + ["--quick"], lambda a: is_quick_answer(a, report), report)
            self.search("unbounded", many + ["--quick"], lambda a: is_quick_answer(a, whole), whole)
            self.search("explore", words + ["--limit", str(limit)],
                        lambda a: a == report or is_cut_short(a, limit, everything, bound), report)

    def replays(self, program, everything, chance):
        for _ in range(4):
            schedule = chance.choice(everything).schedule
            cut = schedule[:chance.randint(0, len(schedule))]
            wrong = cut + (chance.randrange(len(program.threads) + 1),) + schedule[len(cut):]
            for asked in (schedule, cut, wrong):
                wanted = trace_of(program, asked)
                printed = self.asked("replay", [schedule_text(asked)])
                self.check(printed == wanted, "replay program.guest " + schedule_text(asked), printed, wanted)

    def guest(self, guest, seed, most=MOST_SCHEDULES):
        """Compares all that is asked of one program; False where it has too many schedules."""
        program, self.text = guest.program(), guest.text()
        try:
            everything = all_complete(program, most)
        except TooMany:
            return False
        self.write("program.guest", self.text)
        self.compared(program, everything, random.Random(seed))
        return True

    def compared(self, program, everything, chance):
        self.searches(program, everything, chance)
        self.replays(program, everything, chance)

    def programs(self, maker, fixed):
        """Compares these programs and those that are made at random; how many there are."""
        minutes, compared, seed = getattr(self.given, "minutes", 0), 0, 1000003 * self.given.seed
        until = time.monotonic() + 60 * minutes
        for guest in fixed:
            self.guest(guest, seed, MOST_OF_LARGE)
        while time.monotonic() < until if minutes else compared < self.given.programs:
            compared += self.guest(maker(seed), seed)
            seed += 1
        return "%d programs, and %d that aren't made at random" % (compared, len(fixed))

    def test(self):
        print(self.programs(Maker, FIXED))


if __name__ == "__main__":
    Comparer.main(programs=300, seed=1, minutes=0.0)
