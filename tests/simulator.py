#!/usr/bin/env python3
"""Carries guests out by itself, and compares every field of `ctxbound explain --json` with what it gets.

Usage: tests/simulator.py BINARY [--programs N] [--seed S]

It reads a guest's text and runs it as docs/LANGUAGE.md says, and tells a run as docs/FORMATS.md says. It
shares no code with the program or with another test: a thread is a generator that walks over the tree of
its statements. Its flat code is laid out only to say what a test passes over.

- Each guest of examples/, examples/real/ and tests/explain/ is explained by the schedule that a search
  finds, and by schedules drawn at random: complete ones, some cut short, some that name a thread which
  can't go on, some that go on past the end. So are N programs made at random (300), and a few that have
  what chance seldom makes: several circles, waits through conditions and semaphores.
- The whole output is compared, byte for byte. Where it differs, the first fields that do are named. So is the text but for the
  form of its table: the lines of the head, what each step changed, and the lines on who waits, and who could end the waits.
- Each field must have been seen with two values at least, so that no guest is too poor to show a
  constant one; and the comparison must notice each field of an explanation that is changed, left out or
  put in, one at a time.
"""
import copy
import json
import re

from program import EXAMPLES, ROOT, Tester, compact, guests, schedule_of, schedule_text

MOST_COUNT = 65535

# ---- the text of a guest

PIECE = re.compile(r"[ \t\r\n]+|#[^\n]*|(?P<name>[A-Za-z_]\w*)|(?P<number>\d+)|(?P<mark>[=!<>]=|[-+*<>={};])")
# What comes after the word of a statement: a local, an object, an operand or an expression.
PARTS = {"load": "lo", "store": "ov", "add": "lov", "cas": "lovv", "lock": "o", "unlock": "o", "wait": "oo",
         "signal": "o", "broadcast": "o", "acquire": "o", "release": "o", "set": "le", "assert": "e", "leave": ""}
OPERATORS = ("+", "-", "*", "==", "!=", "<", "<=", ">", ">=")


# What a preprocessor writes: the line and the file of the line after it.
MARK = re.compile(r'#line (\d+)(?: "([^"]*)"[0-9 \r]*)?|# (\d+) "([^"]*)"[0-9 \r]*')


def origins(text):
    """The file and the line that each line of a text comes from, by the marks before it, or None."""
    here, told = None, []
    for line in text.split("\n"):
        told.append(here)
        mark = MARK.fullmatch(line)
        if mark:
            name = mark[2] or mark[4] or (here and here[0])
            here = (name, int(mark[1] or mark[3])) if name else None
        elif here:
            here = (here[0], here[1] + 1)
    return told


class Statement:
    """A statement: its word and parts, where it begins, and where its `;` ends, and where its line comes from."""

    def __init__(self, word, begin, origin):
        self.word, self.begin, self.end, self.origin = word, begin, None, origin
        self.parts, self.blocks, self.has_else = [], [], False

    def spelled(self):
        shown = [" ".join(map(str, part)) if isinstance(part, tuple) else str(part) for part in self.parts]
        return " ".join([self.word] + shown)

    def place(self):
        (line, column), (end_line, end_column) = self.begin, self.end
        told = {"from": {"file": self.origin[0], "line": self.origin[1]}} if self.origin else {}
        return {"line": line, "column": column, "end": {"line": end_line, "column": end_column}, **told}


class Reader:
    """The tokens of a text, each with the places of its first byte and of the byte after it."""

    def __init__(self, text):
        self.origins = origins(text)
        self.tokens, line, first, at = [], 1, 0, 0
        while at < len(text):
            found = PIECE.match(text, at)
            if found.lastgroup:
                column = at - first + 1
                self.tokens.append((found.lastgroup, found.group(), (line, column), (line, column + len(found.group()))))
            for feed in re.finditer("\n", found.group()):
                line, first = line + 1, at + feed.end()
            at = found.end()
        self.at = 0

    def peek(self):
        return self.tokens[self.at][1] if self.at < len(self.tokens) else None

    def take(self):
        self.at += 1
        return self.tokens[self.at - 1]

    def word(self):
        return self.take()[1]

    def number(self):
        sign = -1 if self.peek() == "-" and self.word() else 1
        return sign * int(self.word())

    def operand(self):
        kind = self.tokens[self.at][0]
        return self.word() if kind == "name" else self.number()

    def expression(self):
        parts = [self.operand()]
        if self.peek() in OPERATORS:
            parts += [self.word(), self.operand()]
        return tuple(parts)

    def block(self):
        """The statements between braces."""
        statements = []
        self.word()
        while self.peek() != "}":
            statements.append(self.statement())
        self.word()
        return statements

    def statement(self):
        _, word, begin, _ = self.take()
        statement = Statement(word, begin, self.origins[begin[0] - 1])
        if word in ("if", "repeat"):
            statement.parts.append(self.expression() if word == "if" else self.number())
            statement.end = self.tokens[self.at - 1][3]
            statement.blocks.append(self.block())
            if word == "if":
                statement.has_else = self.peek() == "else" and bool(self.word())
                statement.blocks.append(self.block() if statement.has_else else [])
            return statement
        read = {"l": self.word, "o": self.word, "v": self.operand, "e": self.expression}
        statement.parts = [read[part]() for part in PARTS[word]]
        statement.end = self.take()[3]
        return statement


class Guest:
    """The objects of a text, by kind, each with what it is at the start, and its threads."""

    def __init__(self, text):
        self.objects = {"var": {}, "mutex": {}, "cond": {}, "sem": {}}
        self.threads = []
        reader = Reader(text)
        while reader.peek() in self.objects:
            kind, name, value = reader.word(), reader.word(), 0
            if reader.peek() == "=":
                reader.word()
                value = reader.number()
            reader.word()
            self.objects[kind][name] = value
        while reader.peek():
            reader.word()
            self.threads.append((reader.word(), reader.block()))


def locals_of(block):
    """The names of the locals in a block."""
    for statement in block:
        for form, part in zip(PARTS.get(statement.word, "e"), statement.parts):
            words = {"l": (part,), "v": (part,), "e": part, "o": ()}[form] if statement.word != "repeat" else ()
            yield from (word for word in words if isinstance(word, str) and word not in OPERATORS)
        for inner in statement.blocks:
            yield from locals_of(inner)


def laid_out(block):
    """The instructions of a block: of each its statement, its word (`if`, and `else` at the end of a first block),
    and how many of the next it may pass over; None where a `leave` leaves the block."""
    code = []
    for statement in block:
        inner = [laid_out(one) for one in statement.blocks]
        if statement.word == "if":
            code += [[statement, "if", len(inner[0]) + statement.has_else], *inner[0]]
            code += [[statement, "else", len(inner[1])], *inner[1]] if statement.has_else else []
        elif statement.word == "repeat":
            turns = [list(one) for _ in range(statement.parts[0]) for one in inner[0]]
            for at, one in enumerate(turns):
                one[2] = len(turns) - at - 1 if one[2] is None else one[2]
            code += turns
        else:
            code.append([statement, statement.word, None if statement.word == "leave" else 0])
    return code


def instructions_of(block):
    """The instructions of a block, with the locals by number, in the order of their first use."""
    names = list(dict.fromkeys(locals_of(block)))
    number = lambda word: ("local", names.index(word)) if word in names else word
    told = {"o": lambda part: part, "l": number, "v": number, "e": lambda part: tuple(map(number, part))}
    return [(word, skip, [told[form](part) for form, part in zip(PARTS.get(statement.word, "e"), statement.parts)])
            for statement, word, skip in laid_out(block)]


def has_equal_threads(guest):
    """Whether two threads have the same instructions."""
    codes = [instructions_of(block) for _, block in guest.threads]
    return any(code in codes[:at] for at, code in enumerate(codes))


def turns_in(block, outer=()):
    """Of each instruction of a block the turns that it is in, each with how many its loop has, the outer loop first;
    a loop with one turn doesn't count."""
    turns = []
    for statement in block:
        if statement.word == "repeat":
            of = statement.parts[0]
            for turn in range(1, of + 1):
                turns += turns_in(statement.blocks[0], outer + ((turn, of),) * (of > 1))
        else:
            turns.append(outer)
            for at, inner in enumerate(statement.blocks):
                turns += [outer] * (at == 1 and statement.has_else) + turns_in(inner, outer)
    return turns


def all_in(block):
    """The statements in a block that are carried out, in the order of the text."""
    for statement in block:
        for inner in statement.blocks:
            yield from all_in(inner)
        if not statement.blocks:
            yield statement


def used_by(statement):
    """The locals whose values a statement uses."""
    parts = statement.parts[1:] if statement.word in ("add", "cas", "set", "store") else \
        statement.parts if statement.word in ("assert", "if") else []
    words = [word for part in parts for word in (part if isinstance(part, tuple) else (part,))]
    names = words[1:] if statement.word in ("add", "cas") else words
    return {word for word in names if isinstance(word, str) and word not in OPERATORS}


def has_leave(block):
    """Whether a `leave` in a block leaves the loop that the block is of."""
    return any(one.word == "leave" or one.word == "if" and any(map(has_leave, one.blocks)) for one in block)


def used_variable(event):
    """The variable that an event reads, writes or may write, or None."""
    return event.get("reads") or event.get("writes")


# ---- a run

def wrapped(number):
    return (number + 2**63) % 2**64 - 2**63


class Failed(Exception):
    """An assertion that doesn't hold."""


class Thread:
    """A thread of a run. `at` is the statement that it has come to, None at its end."""

    def __init__(self, number, name, block, events):
        self.number, self.name, self.locals, self.sets = number, name, {}, []
        # What happened so far in the run, and the events that the value of each local came from.
        self.events, self.origins, self.step = events, {}, None
        # The loops with a `leave` that it came out of last with no turn left.
        self.ran_out = []
        self.code, self.turns_at, self.place = laid_out(block), turns_in(block), 0
        # The statements that it carried out in a turn after the first, an `else` apart from its `if`.
        self.again = set()
        self.status, self.stop = "running", None
        self.waits_on = None
        # Where it is in the tree: blocks with a place in them, branches of an `if` by their number, and bodies
        # of a `repeat` by how many turns were made and how many are to come.
        self.path = []
        self.walk = self.over(block)
        self.go_on()

    def value(self, operand):
        return operand if isinstance(operand, int) else self.locals.get(operand, 0)

    def result(self, expression):
        if len(expression) == 1:
            return self.value(expression[0])
        a, b = self.value(expression[0]), self.value(expression[2])
        return {"+": wrapped(a + b), "-": wrapped(a - b), "*": wrapped(a * b), "==": int(a == b), "!=": int(a != b),
                "<": int(a < b), "<=": int(a <= b), ">": int(a > b), ">=": int(a >= b)}[expression[1]]

    def note(self, statement, word, place, **told):
        """Puts down what happened at an instruction."""
        turns = tuple((at + 1, of.parts[0]) for kind, of, at in self.path if kind == "repeat" and of.parts[0] > 1)
        assert turns == self.turns_at[place], (turns, self.turns_at[place])
        self.again |= {(id(statement), word == "else")} if any(turn > 1 for turn, _ in turns) else set()
        self.events.append({"at": len(self.events), "thread": self.number, "step": self.step, "place": place, "statement": statement,
                            "word": word, "uses": used_by(statement) if word != "else" else set(), **told})

    def set(self, statement, local, value, from_events=()):
        """The event that was put down last sets a local, to a value that came from these events, too."""
        self.locals[local] = value
        self.origins[local] = {len(self.events) - 1, *from_events}
        self.events[-1].update(sets=local, value=value)
        self.sets.append({**statement.place(), "local": local, "value": value})

    def over(self, block, first=0):
        """Walks over a block, whose first instruction has this number: yields each visible statement, and does
        the others on the way. The answer is whether it was left."""
        path = ["block", block, 0]
        self.path.append(path)
        place = first
        for at, statement in enumerate(block):
            path[2] = at
            word, parts = statement.word, statement.parts
            size = len(laid_out([statement]))
            if word in ("if", "repeat"):
                left = yield from (self.branch if word == "if" else self.turns)(statement, place)
                if left:
                    self.path.pop()
                    return True
            elif word == "set":
                value = self.result(parts[1])
                self.note(statement, word, place)
                came_from = [self.origins.get(one, set()) for one in self.events[-1]["uses"]]
                self.set(statement, parts[0], value, set().union(*came_from))
            elif word == "assert":
                self.at = statement
                holds = bool(self.result(parts[0]))
                self.note(statement, word, place, stops=not holds)
                if not holds:
                    raise Failed
            elif word == "leave":
                self.note(statement, word, place, passes=self.code[place][2])
                self.path.pop()
                return True
            else:
                self.place = place
                yield statement
            place += size
        self.path.pop()
        return False

    def branch(self, statement, place):
        which = 0 if self.result(statement.parts[0]) else 1
        self.note(statement, "if", place, passes=self.code[place][2] * which, was=which == 0)
        self.path.append(["if", statement, which])
        size = len(laid_out(statement.blocks[0]))
        left = yield from self.over(statement.blocks[which], place + 1 + which * (size + 1))
        self.path.pop()
        if which == 0 and statement.has_else and not left:
            self.note(statement, "else", place + 1 + size, passes=self.code[place + 1 + size][2])
        return left

    def told_turns(self, place):
        """The turns in which an instruction is that are told: where its statement was carried out in one after the first."""
        statement, word, _ = self.code[place]
        return self.turns_at[place] if (id(statement), word == "else") in self.again else ()

    def turns(self, statement, place):
        size = len(laid_out(statement.blocks[0]))
        self.ran_out = [one for one in self.ran_out if one is not statement]
        for turn in range(statement.parts[0]):
            self.path.append(["repeat", statement, turn])
            left = yield from self.over(statement.blocks[0], place + turn * size)
            self.path.pop()
            if left:
                return False
        self.ran_out += [statement] * has_leave(statement.blocks[0])
        return False

    def run_out(self):
        return sorted(self.ran_out, key=lambda one: one.begin)

    def ways(self):
        """The numbers of the instructions that it comes to, if it goes on, whatever it loads; and of those that it may
        come to. A test goes as its locals have it, unless some path to it through the code sets one of them."""
        begin = self.place if self.stop != "assert" else \
            [event["place"] for event in self.events if event["thread"] == self.number][-1]
        begin = len(self.code) if self.status == "ended" else begin
        follow = lambda at: {at + 1 + self.code[at][2]} | ({at + 1} if self.code[at][1] == "if" else set())
        set_before, by_way, past = {begin: set()}, {begin}, set()
        for at in range(begin, len(self.code)):
            statement, word, skip = self.code[at]
            if at not in set_before:
                continue
            given = {statement.parts[0]} if word in ("load", "add", "cas", "set") else set()
            for after in follow(at):
                set_before[after] = set_before.get(after, set()) | set_before[at] | given
            if at in by_way:
                decided = word == "if" and not used_by(statement) & set_before[at]
                afters = {at + 1 + (0 if self.result(statement.parts[0]) else skip)} if decided else follow(at)
                by_way |= afters
                past |= {between for after in afters for between in range(at + 1, after)}
        if self.status in ("waiting", "woken") or self.stop in ("not-held", "sem-full"):
            by_way.discard(begin)
        return by_way - past, by_way

    def look(self, values):
        """Whether, woken from its wait as things are, it comes to a wait for the same condition, having done nothing
        but loads; and what it loads."""
        kept, loaded, at, word = self.locals, [], self.place + 1, None
        self.locals = dict(kept)
        while at < len(self.code):
            statement, word, skip = self.code[at]
            if word == "load":
                loaded.append(statement.parts[1])
                self.locals[statement.parts[0]] = values[statement.parts[1]]
            elif word == "set":
                self.locals[statement.parts[0]] = self.result(statement.parts[1])
            elif word in ("if", "else", "leave"):
                at += 0 if word == "if" and self.result(statement.parts[0]) else skip
            elif word != "assert" or not self.result(statement.parts[0]):
                break
            at += 1
        self.locals = kept
        return at < len(self.code) and word == "wait" and statement.parts[0] == self.waits_on, loaded

    def before(self):
        """The statements that lie before the place where it is, in the turns that were made or in this one."""
        found = []
        for kind, where, at in self.path:
            if kind == "block":
                found += all_in(where[:at])
            elif kind == "if" and at == 1:
                found += all_in(where.blocks[0])
            elif kind == "repeat" and at > 0:
                found += all_in(where.blocks[0])
        return found

    def go_on(self):
        try:
            self.at = next(self.walk)
        except StopIteration:
            self.at, self.status = None, "ended"
        except Failed:
            self.status, self.stop = "stopped", "assert"


class Run:
    """A guest that is run step by step, and what is told of each step."""

    def __init__(self, guest):
        self.guest = guest
        self.values, self.counts = dict(guest.objects["var"]), dict(guest.objects["sem"])
        self.owners = {mutex: None for mutex in guest.objects["mutex"]}
        self.queues = {condition: [] for condition in guest.objects["cond"]}
        self.events = []
        self.threads = [Thread(number, name, block, self.events) for number, (name, block) in enumerate(guest.threads)]
        self.steps, self.carried, self.preemptions = [], [], 0
        self.since, self.failures = {}, []
        self.writers, self.origins_told = {}, []
        self.step_events, self.turns_told = [], []
        self.opening = [{"name": t.name, "sets": t.sets, "next": self.next_of(t), "stop": t.stop} for t in self.threads]
        for thread in self.threads:
            self.note_failure(thread, None, None)

    def blocked_by(self, thread):
        """What a thread waits for, by a word and the object; None where it doesn't."""
        if thread.status == "waiting":
            return "signal", thread.waits_on
        if thread.status == "woken":
            return ("retake", thread.at.parts[1]) if self.owners[thread.at.parts[1]] is not None else None
        if thread.status != "running":
            return None
        word, parts = thread.at.word, thread.at.parts
        if word == "lock" and self.owners[parts[0]] is not None:
            return "lock", parts[0]
        if word == "acquire" and self.counts[parts[0]] == 0:
            return "acquire", parts[0]
        return None

    def is_enabled(self, thread):
        return thread.status in ("running", "woken") and self.blocked_by(thread) is None

    def enabled(self):
        return [t.number for t in self.threads if self.is_enabled(t)]

    def next_of(self, thread):
        statement = thread.at
        if statement is None:
            return None
        told = {**statement.place(), "text": statement.spelled()}
        if statement.word in ("lock", "acquire"):
            told["wants"] = statement.parts[0]
        return told

    def reading(self, name):
        for table in (self.values, self.owners, self.counts):
            if name in table:
                return table[name]
        return len(self.queues[name])

    def content(self, name):
        return [t.name for t in self.queues[name]] if name in self.queues else self.reading(name)

    def note_failure(self, thread, step, owners):
        """Puts down how a thread stopped, in this step or before all steps, where the owners were these."""
        if thread.stop is None:
            return
        words = thread.at.parts[0] if thread.stop == "assert" else ()
        values = [word for word in words if word not in OPERATORS and not isinstance(word, int)]
        mutex = thread.at.parts[-1] if thread.stop == "not-held" else None
        moved = mutex and self.moved(mutex, len(self.events) - 1)
        event = [event for event in self.events if event["thread"] == thread.number][-1]
        self.failures.append({
            "thread": thread.number, "name": thread.name, "step": step, "stop": thread.stop, **thread.at.place(),
            "text": thread.at.spelled(), "preemptions": self.preemptions, "mutex": mutex,
            "owner": owners[mutex] if mutex else None, "since": moved["step"] if moved else None,
            "ran_out": [{**one.place(), "turns": one.parts[0]} for one in thread.run_out()],
            "values": [{"local": name, "value": thread.locals.get(name, 0), "origins": self.origins(thread, name)}
                       for name in dict.fromkeys(values)]})
        self.turns_told.append((self.failures[-1], event))

    def origins(self, thread, local):
        """The statements that the value of a local came from, each a statement that was carried out. When a variable was
        changed before and after one that uses it is put in once the run is over."""
        events = [self.events[at] for at in sorted(thread.origins.get(local, ()))]
        told = [{"name": self.threads[event["thread"]].name, **event["statement"].place(),
                 "text": event["statement"].spelled(), "step": event["step"], "since": None, "changed": None}
                for event in events]
        self.origins_told += [pair for pair in zip(told, events) if used_variable(pair[1])]
        self.turns_told += zip(told, events)
        return told

    def change(self, variable, places):
        """The first of these steps that left the variable with another value than it found; None where none did."""
        return next((at for at in places if self.steps[at]["object"] == variable
                     and self.steps[at]["old"] != self.steps[at]["new"]), None)

    def changed_before(self, variable, step):
        return self.change(variable, range(step - 1, -1, -1))

    def changed_from(self, variable, step):
        return self.change(variable, range(step, len(self.steps)))

    def moved(self, mutex, at):
        """The last event before a place by which a thread took a mutex or gave it back, or None."""
        moves = [e for e in self.events[:at] if e["word"] in ("lock", "retake", "unlock", "wait") and not e.get("stops")
                 and e["statement"].parts[-1] == mutex]
        return moves[-1] if moves else None

    def turns_of(self, event):
        """The turns of the statement of an event, if they are told."""
        turns = self.threads[event["thread"]].told_turns(event["place"])
        return {"turns": [{"turn": turn, "of": of} for turn, of in turns]} if turns else {}

    def tell_turns(self):
        for told, event in self.turns_told + list(zip(self.steps, self.step_events)):
            told.update(self.turns_of(event))

    def tell_changes(self):
        for told, event in self.origins_told:
            told["since"] = self.changed_before(used_variable(event), event["step"])
            told["changed"] = self.changed_from(used_variable(event), event["step"])

    def carry_out(self, schedule):
        """Runs a schedule. The answer is the number that can't take the next step, if one can't."""
        for number in schedule:
            if number not in self.enabled():
                return number
            self.step(self.threads[number])
        return None

    def step(self, thread):
        """One step of a thread that is enabled."""
        statement = thread.at
        act = "retake" if thread.status == "woken" else statement.word
        parts = statement.parts
        name = parts[1] if act in ("load", "add", "cas", "retake") else parts[0]
        last = self.threads[self.steps[-1]["thread"]] if self.steps else thread
        told = {"step": len(self.steps), "thread": thread.number, "name": thread.name, **statement.place(), "act": act,
                "object": name, "old": self.reading(name),
                "preempting": last is not thread and self.is_enabled(last),
                "held": [mutex for mutex, owner in self.owners.items() if owner == thread.name], "woken": []}
        self.preemptions += told["preempting"]
        thread.sets = []
        if act == "wait":
            told["mutex"] = parts[1]
        owners = dict(self.owners)
        thread.step = told["step"]
        thread.note(statement, act, thread.place)
        self.step_events.append(self.events[-1])
        goes_on = self.take(thread, act, name, told)
        if goes_on:
            thread.go_on()
        told.update(new=self.reading(name), sets=thread.sets, stop=thread.stop, next=self.next_of(thread))
        told["after"] = {touched: self.content(touched) for touched in [name] + parts[1:] * (act == "wait")}
        self.note_failure(thread, told["step"], owners)
        self.steps.append(told)
        self.carried.append((thread, None if act == "retake" else statement))

    def take(self, thread, act, name, told):
        """What a step does. The answer is whether its thread goes on to the statement after it."""
        parts, statement = thread.at.parts, thread.at
        if act in ("load", "add", "cas"):
            old = self.values[name]
            if act == "load":
                got = old
            elif act == "add":
                got, self.values[name] = old, wrapped(old + thread.value(parts[2]))
            else:
                got = int(old == thread.value(parts[2]))
                if got:
                    self.values[name] = thread.value(parts[3])
            thread.events[-1].update(reads=name, writes=name if act == "add" or act == "cas" and got else None)
            thread.set(statement, parts[0], got, [self.writers[name]] if name in self.writers else [])
            if thread.events[-1]["writes"]:
                self.writers[name] = len(self.events) - 1
        elif act == "store":
            self.values[name] = thread.value(parts[1])
            thread.events[-1]["writes"], self.writers[name] = name, len(self.events) - 1
        elif act in ("lock", "retake"):
            self.owners[name], thread.status = thread.name, "running"
            self.since[name] = len(self.steps)
        elif act in ("unlock", "wait"):
            mutex = parts[0] if act == "unlock" else parts[1]
            if self.owners[mutex] != thread.name:
                return self.stopped(thread, "not-held")
            self.owners[mutex] = None
            if act == "wait":
                self.queues[name].append(thread)
                thread.status, thread.waits_on = "waiting", name
                return False
        elif act in ("signal", "broadcast"):
            woken = self.queues[name][:1] if act == "signal" else self.queues[name][:]
            del self.queues[name][:len(woken)]
            for other in woken:
                other.status = "woken"
            told["woken"] = [other.name for other in woken]
        elif act == "acquire":
            self.counts[name] -= 1
        elif self.counts[name] == MOST_COUNT:
            return self.stopped(thread, "sem-full")
        else:
            self.counts[name] += 1
        return True

    def stopped(self, thread, why):
        thread.status, thread.stop = "stopped", why
        thread.events[-1]["stops"] = True
        return False

    # ---- the end

    def with_ends(self):
        """What happened, and at its end, where no thread stopped, each that can't go on."""
        if any(t.status == "stopped" for t in self.threads):
            return self.events
        blocked = [(t, self.waits(t)) for t in self.threads if self.waits(t)]
        return self.events + [{"thread": t.number, "step": None, "place": t.place, "statement": t.at, "word": "blocked",
                               "uses": set(), "waits": waits} for t, waits in blocked]

    def causes(self):
        """The places of the events that are in the cause of how the run ended."""
        events = self.with_ends()
        needed = {at for at, event in enumerate(events) if event.get("stops") or event["word"] == "blocked"}
        left = sorted(needed)
        while left:
            for before in set(self.needs(events, left.pop())) - needed:
                needed.add(before)
                left.append(before)
        return needed

    def needs(self, events, at):
        """The events before the one at a place that it needs: those that wrote and set what it reads and uses last,
        the tests by which its thread came to it, writes of others since its thread used the variable, and what an
        end asks for."""
        event, before = events[at], list(enumerate(events[:at]))
        own = [(k, e) for k, e in before if e["thread"] == event["thread"]]
        last = lambda those: [k for k, _ in those][-1:]
        if event.get("reads"):
            writes = last([(k, e) for k, e in before if e.get("writes") == event["reads"]])
            yield from writes
            yield from (k for k, e in before if e["word"] == "if" and k > max(writes, default=-1)
                        and any(self.written(e)[at] == event["reads"] for at in range(e["passes"])))
        for local in event["uses"]:
            yield from last([(k, e) for k, e in own if e.get("sets") == local])
        yield from (k for k, e in own if e["word"] == "if" and event["place"] < self.reach(e))
        variable = event.get("reads") or event.get("writes")
        uses = last([(k, e) for k, e in own if variable and variable in (e.get("reads"), e.get("writes"))])
        for use in uses:
            yield from (k for k, e in before if k > use and e.get("writes") == variable and e["thread"] != event["thread"])
        yield from (k for k, e in before if self.asks(event, e))

    def written(self, test):
        """Of each instruction that a test passes by the variable that it writes, or may write, or None."""
        code = self.threads[test["thread"]].code
        return [one.parts[0 if word == "store" else 1] if word in ("store", "add", "cas") else None
                for one, word, _ in code[test["place"] + 1:test["place"] + 1 + test["passes"]]]

    def reach(self, event):
        """The number of the first instruction after all that a test passes over, and what is passed over from there."""
        code, reach, at = self.threads[event["thread"]].code, event["place"] + 1, event["place"]
        while at < min(reach, len(code)):
            reach, at = max(reach, at + 1 + code[at][2]), at + 1
        return reach

    def asks(self, end, event):
        """Whether an end of the run asks for an event: for all that is on the mutex or semaphore at which a thread
        stopped; of one that waits, for what is on its condition or semaphore, or for the step by which the owner took
        its mutex; and where a statement was passed by that could have ended the wait."""
        word, parts = event["statement"].word, event["statement"].parts
        if end.get("stops") and end["word"] != "assert":
            name = end["statement"].parts[-1]
            return word not in ("if", "leave") and name in [part for part in parts if isinstance(part, str)][-1:] \
                and word in ("lock", "unlock", "wait", "acquire", "release")
        if end["word"] != "blocked":
            return False
        waits = end["waits"]
        passed = self.passed(event, {"signal": ("signal", "broadcast"), "acquire": ("release",)}.get(
            waits["act"], ("unlock", "wait")), waits["object"])
        if waits["act"] in ("signal", "acquire"):
            ons = ("wait", "signal", "broadcast") if waits["act"] == "signal" else ("acquire", "release")
            return word in ons and parts[0] == waits["object"] or \
                passed and (waits["act"] == "acquire" or event["thread"] != end["thread"])
        is_step = event["word"] in PARTS and event["word"] not in ("set", "assert", "leave") or event["word"] == "retake"
        return is_step and event["step"] == waits["since"] or passed and event["step"] is not None and \
            event["step"] >= waits["since"] and self.threads[event["thread"]].name == waits["holder"]

    def passed(self, event, words, name):
        """Whether an event passes a statement on an object by."""
        code = self.threads[event["thread"]].code
        over = code[event["place"] + 1:event["place"] + 1 + event.get("passes", 0)]
        return any(word in words and one.parts[-1] == name for one, word, _ in over)

    def passes(self, thread, statements):
        """The steps to which the events belong by which a thread passed one of these statements by, null before the
        first step."""
        return [event["step"] for event in self.events if event["thread"] == thread.number and any(
            one is statement for statement in statements
            for one, _, _ in thread.code[event["place"] + 1:event["place"] + 1 + event.get("passes", 0)])]

    def ended_by(self, thread, why):
        """By what statement the wait of a thread could end, if that is told: of a mutex where its owner ended and has
        such statements."""
        if why[0] in ("signal", "acquire"):
            return {"acquire": "release"}.get(why[0], why[0])
        owner = next(t for t in self.threads if t.name == self.owners[why[1]])
        return "unlock" if owner.status == "ended" and any(True for _ in self.enders(thread)) else None

    def present(self, thread, name):
        """A variable's value at the end, and the one that a thread loaded last, with its step."""
        now = self.values[name]
        seen = [(step["old"], step["step"]) for step in self.steps
                if step["act"] == "load" and step["object"] == name and step["thread"] == thread.number][-1:]
        if not seen:
            return "%s is %d" % (name, now)
        return "%s is still %d" % (name, now) if seen[0][0] == now else "%s is %d, and was %d in step %d" % (
            name, now, *seen[0])

    def kind(self):
        if self.enabled():
            return None
        if any(t.status == "stopped" for t in self.threads):
            return "failed"
        return "done" if all(t.status == "ended" for t in self.threads) else "stuck"

    def enders(self, thread):
        """The statements that could end the wait of a thread, each with its thread: of a mutex those of its
        owner that give it back; of a condition or a semaphore those of others that signal or release it, and
        those of its own that lie before the wait."""
        word, name = self.blocked_by(thread)
        ends = {"signal": ("signal", "broadcast"), "acquire": ("release",)}.get(word, ("unlock", "wait"))
        for other in self.threads:
            if word in ("lock", "retake") and other.name != self.owners[name]:
                continue
            own = other is thread and word in ("signal", "acquire")
            lie_before = {id(one) for one in thread.before()} if own else None
            for statement in all_in(self.guest.threads[other.number][1]):
                if statement.word in ends and statement.parts[-1] == name and (not own or id(statement) in lie_before):
                    yield other, statement

    def waits(self, thread):
        why = self.blocked_by(thread)
        if why is None:
            return None
        told = {"act": why[0], "object": why[1], "on": [], "statements": []}
        again, loaded = thread.look(self.values) if why[0] == "signal" else (False, [])
        if why[0] == "signal":
            told.update(again=again, loads=loaded)
        for other, statement in self.enders(thread):
            taken = [at for at, (who, what) in enumerate(self.carried) if who is other and what is statement]
            sure, perhaps = ([at for at in ways if at < len(other.code) and (other is not thread or why[0] in (
                "lock", "retake"))] for ways in other.ways())
            ahead = [at for at in sure if other.code[at][0] is statement]
            is_ahead = bool(ahead) or any(other.code[at][0] is statement for at in perhaps) and "perhaps"
            changes = [at for at in perhaps if other.code[at][1] in ("store", "add", "cas") and other.code[at][0].parts[
                other.code[at][1] != "store"] in loaded]
            helps = ahead and (not again or changes and min(changes) < max(ahead))
            told["statements"].append({"name": other.name, **statement.place(), "text": statement.spelled(),
                                       "taken": taken, "passed": self.passes(other, [statement]), "ahead": is_ahead})
            if helps and other.name not in told["on"]:
                told["on"].append(other.name)
        if why[0] in ("lock", "retake"):
            told.update(holder=self.owners[why[1]], since=self.since[why[1]], on=[self.owners[why[1]]])
        return told

    def thread_at_end(self, thread):
        status = thread.status if thread.status in ("ended", "stopped") else \
            "enabled" if self.is_enabled(thread) else "blocked"
        place = thread.at.place() if thread.at else {"line": None, "column": None, "end": None}
        names = dict.fromkeys(local for block in [self.guest.threads[thread.number][1]] for local in locals_of(block))
        return {"name": thread.name, "status": status, "waits": self.waits(thread), **place,
                "locals": {name: thread.locals.get(name, 0) for name in names}}

    def end(self):
        """The objects at the end."""
        return {"variables": self.values, "semaphores": self.counts,
                "conditions": {name: self.content(name) for name in self.queues},
                "mutexes": {name: owner and {"holder": owner, "since": self.since[name]}
                            for name, owner in self.owners.items()}}

    def circles(self):
        """The sets of threads each of which waits, through one after the other, for each of them."""
        on = {t.name: set((self.waits(t) or {}).get("on", ())) for t in self.threads}
        leads = {name: self.led_to(on, name) for name in on}
        circles = []
        for name in on:
            circle = [other for other in on if other in leads[name] and name in leads[other]]
            if circle and circle not in circles:
                circles.append(circle)
        return circles

    @staticmethod
    def led_to(on, name):
        """The threads for which a thread waits, through one after the other."""
        found, new = set(), on[name]
        while new:
            found, new = found | new, {far for near in new for far in on[near]} - found - new
        return found


def explanation(name, text, schedule, search):
    """What is to be told of a schedule, and the status."""
    run = Run(Guest(text))
    objects = run.guest.objects
    refused = run.carry_out(schedule)
    kind, causes = run.kind(), run.causes()
    run.tell_changes()
    run.tell_turns()
    events = [event for at, event in enumerate(run.with_ends()) if at in causes]
    steps = {event["step"] for event in events}
    for step in run.steps:
        step["cause"] = step["step"] in steps
    told = {"file": name, "schedule": schedule_text(schedule), "kind": kind, "preemptions": run.preemptions,
            "refused": refused, "search": search,
            "opening": {"variables": objects["var"], "semaphores": objects["sem"], "declared": list(objects["var"]),
                        "mutexes": list(objects["mutex"]), "conditions": list(objects["cond"]), "threads": run.opening},
            "steps": run.steps, "threads": [run.thread_at_end(t) for t in run.threads], "circles": run.circles(),
            "failures": run.failures, "end": run.end(),
            "tests": [{"name": run.threads[event["thread"]].name, **event["statement"].place(), "step": event["step"],
                       "text": event["statement"].spelled(), "was": event["was"], **run.turns_of(event)}
                      for event in events if event["word"] == "if"]}
    return told, 2 if refused is not None else int(kind in ("failed", "stuck"))


# ---- the sentences

class Sentences:
    """What the text says above and under the table, a line for each that the text has, unwrapped; and what it says of each step
    that the step changed."""

    def __init__(self, name, text, schedule):
        self.run, self.file = Run(Guest(text)), name
        self.refused = self.run.carry_out(schedule)
        self.events, self.steps = self.run.events, self.run.steps
        code = [(line.strip(), here) for line, here in zip(text.split("\n"), origins(text))]
        # The events that set the locals whose values were said.
        self.said = []
        self.has_files = len({here and here[0] for line, here in code if line and not line.startswith("#")}) > 1

    def line(self, statement):
        origin = statement.origin and {"file": statement.origin[0], "line": statement.origin[1]}
        return self.line_of(origin, statement.begin[0])

    def line_of(self, origin, line):
        told = origin or {"file": self.file, "line": line}
        return "%(file)s:%(line)d" % told if self.has_files else "line %(line)d" % told

    def line_at(self, thread, place):
        """The line of an instruction, with its turns."""
        turns = self.run.threads[thread].told_turns(place)
        return self.line(self.run.threads[thread].code[place][0]) + "".join(", turn %d of %d" % one for one in turns)

    def line_in(self, event):
        return self.line_at(event["thread"], event["place"])

    def site_at(self, thread, place):
        return "%s: %s" % (self.line_at(thread, place), self.run.threads[thread].code[place][0].spelled())

    def site(self, event):
        return self.site_at(event["thread"], event["place"])

    def last(self, at, so):
        """The last event before a place that is so, or None."""
        return next((self.events[k] for k in range(at - 1, -1, -1) if so(self.events[k])), None)

    def lines(self):
        at = next((k for k, event in enumerate(self.events) if event.get("stops")), None)
        if at is None:
            return []
        event = self.events[at]
        loops = ["    the `repeat` in %s ran out of its %d turn%s" % (self.line(one), one.parts[0], "s" * (one.parts[0] != 1))
                 for one in self.run.threads[event["thread"]].run_out()]
        reason = self.values(at, event["statement"].parts[0], 4, 8, False) if event["word"] == "assert" else \
            self.reason(at, event)
        return [self.head(at), *reason, *loops, *self.tests(at)]

    def head(self, at):
        """What failed, where, in which thread and turns, and after how much."""
        failure, event = self.run.failures[0], self.events[at]
        few = lambda count, thing: "%d %s%s" % (count, thing, "s" * (count != 1))
        turns = "".join(", turn %d of %d" % one for one in self.run.threads[event["thread"]].told_turns(event["place"]))
        place = failure.get("from") or {"file": self.file, "line": failure["line"]}
        return "%s:%d: FAILED: %s   in %s%s after %s with %s." % (
            place["file"], place["line"], failure["text"], failure["name"], turns and turns + ",",
            few(0 if failure["step"] is None else failure["step"] + 1, "step"), few(failure["preemptions"], "preemption"))

    def reason(self, at, event):
        name = event["statement"].parts[-1]
        if event["word"] == "release":
            return ["    %s is %d, which is its limit" % (name, MOST_COUNT)]
        taken = self.run.moved(name, at)
        if taken is None:
            return ["    %s is free" % name]
        if taken["word"] in ("unlock", "wait"):
            return ["    %s is free since step %d (%s, %s)" % (
                name, taken["step"], self.run.threads[taken["thread"]].name, self.site(taken))]
        return ["    %s is held by %s (since step %d, %s)" % (
            name, self.run.threads[taken["thread"]].name, taken["step"], self.line_in(taken))]

    def tests(self, end):
        """The tests in the cause before a failure, the last one first, each statement once and four at most: what was come
        to by it, and where its values came from."""
        causes, lines, told = self.run.causes(), [], []
        for at in range(end - 1, -1, -1):
            test = self.events[at]
            if at not in causes or test["word"] != "if" or any(test["statement"] is one for one in told) or len(told) == 4:
                continue
            told.append(test["statement"])
            thread = self.run.threads[test["thread"]].name
            led = [k for k in sorted(causes) if k > at and k < len(self.events) and self.is_decided(self.events[k], test)]
            goal = next((self.events[k] for k in led if self.events[k]["word"] != "if"), None)
            read = {self.events[k].get("reads") for k in causes if at < k < len(self.events)} - {None}
            passed = next((k for k, name in enumerate(self.run.written(test), test["place"] + 1) if name in read), None)
            came = "came here" if end in led else "came to %s," % self.site(goal) if goal else \
                "passed by %s," % self.site_at(test["thread"], passed) if passed else "came to %s," % self.site(self.events[led[0]])
            lines.append("    %s%s%s" % ("" if end in led else thread + " ", came, self.decided(test)))
            lines += self.values(at, test["statement"].parts[0], 6, 3, True)
        return lines

    def decided(self, test):
        line = self.line_in(test)
        return " since `%s` in %s%s was %s" % (
            test["statement"].spelled(), line, "," * (", turn" in line), "true" if test["was"] else "false")

    def is_decided(self, event, test):
        return event["thread"] == test["thread"] and test["place"] < event["place"] < self.run.reach(test)

    def values(self, at, expression, indent, most, is_change_told):
        """A line for each local of an expression, with its value before the event at a place and where that came from;
        under one that a `set` made the locals of that; so many at most, and those that were said before not again."""
        lines, thread, tries = [], self.events[at]["thread"], [0]

        def tell(at, expression, indent):
            for name in dict.fromkeys(word for word in expression if isinstance(word, str) and word not in OPERATORS):
                if tries[0] == most:
                    return
                setter = self.last(at, lambda e: e["thread"] == thread and e.get("sets") == name)
                tries[0] += 1
                if setter and setter["at"] in self.said:
                    continue
                self.said += [setter["at"]] if setter else []
                value, words = (setter["value"], self.origin(setter, is_change_told)) if setter else (0, "from the start")
                lines.append("%s%s = %d   %s" % (" " * indent, name, value, words))
                if setter and setter["word"] == "set":
                    tell(setter["at"], setter["statement"].parts[1], indent + 2)
        tell(at, expression, indent)
        return lines

    def itself(self, thread, reader):
        return self.run.threads[thread].name + (" itself" if thread == reader else "")

    def origin(self, event, is_change_told):
        """Where the value came from that an event gave a local."""
        site, step, variable = self.site(event), event["step"], event.get("reads")
        if event["word"] == "set":
            return "set in " + site
        words = {"load": "loaded in step %d (%s) from %s" % (step, self.line_in(event), variable),
                 "add": "read in step %d (%s) from %s" % (step, site, variable),
                 "cas": "because step %d %s (%s): %s was %d" % (
                     step, "hit" if event["value"] else "missed", site, variable, self.number(step, "old"))}[event["word"]]
        writer = self.last(event["at"], lambda e: e.get("writes") == variable)
        if writer is None:
            words += ", which nobody had written before"
        else:
            since = self.run.changed_before(variable, writer["step"])
            words += ", which %s set in step %d (%s); before, %s was %d%s" % (
                self.itself(writer["thread"], event["thread"]), writer["step"], self.site(writer), variable,
                self.number(writer["step"], "old"), self.since(since))
        change = self.run.changed_from(variable, step)
        if (is_change_told or writer is None) and change not in (None, step):
            words += "; %s made it %d in step %d" % (
                self.itself(self.steps[change]["thread"], event["thread"]), self.number(change, "new"), change)
        return words

    # ---- who waits

    def reasons(self):
        """What the text says under the table, but for its command: each part with an empty line after it."""
        run = self.run
        kind, self.waiting = run.kind(), [(t, run.blocked_by(t)) for t in run.threads if run.blocked_by(t)]
        parts = []
        if self.waiting and (kind == "stuck" or run.failures):
            parts = [["Why nobody can go on" if kind == "stuck" else "Blocked meanwhile", *self.blocked()], *self.unblocking()]
        words = self.refusal(kind)
        if kind is None:
            words += "Could go on: " + ", ".join("%s (%d)" % (run.threads[n].name, n) for n in run.enabled())
        parts += [[words]] * bool(words)
        return [line for part in parts for line in (*part, "")]

    def refusal(self, kind):
        """Why the next step can't be taken, or nothing where each one was."""
        refused, run = self.refused, self.run
        if refused is None:
            return ""
        words, thread = "Step %d can't be taken: " % len(self.steps), None
        if refused >= len(run.threads):
            words += "there is no thread %d." % refused
        else:
            thread = run.threads[refused]
            why = {"stopped": "has stopped.", "ended": "has ended."}.get(thread.status) or "is blocked %s; %s." % (
                self.blocked_at(thread), self.why(thread))
            words += "%d %s %s" % (refused, thread.name, why)
        return words + {"stuck": " Nobody can go on.", None: " "}.get(kind, " The run was over before it.")

    def number_of(self, statement):
        return self.line(statement).removeprefix("line ")

    def blocked_at(self, thread):
        word, name = self.run.blocked_by(thread)
        return "at %s: %s" % (self.number_of(thread.at), "retake " + name if word == "retake" else thread.at.spelled())

    def blocked(self):
        """A line for each thread that can't go on, those of each circle first, with one that says so."""
        rows = [(t.name, self.blocked_at(t), self.why(t)) for t, _ in self.waiting]
        name, place = (max(len(row[at]) for row in rows) for at in (0, 1))
        line = {row[0]: "  %-*s  %-*s   %s" % (name, row[0], place, row[1], row[2]) for row in rows}
        for circle in self.run.circles():
            yield from (line.pop(one) for one in circle)
            yield "  %s %s" % (", ".join(circle), "wait for one another" if len(circle) > 1 else "waits for itself")
        yield from line.values()

    def why(self, thread):
        """What a thread that can't go on waits for, who has it, and since when."""
        (word, name), run = self.run.blocked_by(thread), self.run
        if word == "signal":
            return "waits for a signal on %s since step %d" % (
                name, [step["step"] for step in self.steps if step["thread"] == thread.number][-1])
        if word == "acquire":
            taken = [step for step in self.steps if step["act"] == "acquire" and step["object"] == name][-1:]
            return "%s is 0; %s took the last one (step %d, %s)" % (
                name, taken[0]["name"], taken[0]["step"], self.line_of_step(taken[0]["step"])) if taken else \
                "%s is 0 from the start" % name
        owner = next(t for t in run.threads if t.name == run.owners[name])
        end = ", which %s and owns it still" % owner.status if owner.status in ("ended", "stopped") else ""
        return "%s is held by %s (since step %d, %s)%s" % (
            name, owner.name, run.since[name], self.line_of_step(run.since[name]), end)

    def line_of_step(self, step):
        return self.line_in(self.run.step_events[step])

    def unblocking(self):
        """Of each object that is waited for, once, who could end the waits, and what came of it."""
        for at, (thread, why) in enumerate(self.waiting):
            verb = self.run.ended_by(thread, why)
            if verb and all(why[1] != other[1] for _, other in self.waiting[:at]):
                yield ["Who could %s %s" % (verb, why[1]), *self.looks(why), *self.fates(why)]

    def looks(self, why):
        """Whether each that waits so would go on if it were woken, and by which test it came to wait."""
        for thread in [t for t, other in self.waiting if other == why]:
            again, loaded = thread.look(self.run.values) if why[0] == "signal" else (False, [])
            if again or loaded:
                values = ", ".join(self.run.present(thread, name) for name in dict.fromkeys(loaded))
                yield "  %s would %s if it were woken now%s" % (
                    thread.name, "wait again" if again else "go on", values and ": " + values)
            yield from self.test_of_wait(thread) if why[0] in ("signal", "acquire") else ()

    def test_of_wait(self, thread):
        """The last test by which a thread came to where it waits, and where the values of that came from."""
        here = {"thread": thread.number, "place": thread.place}
        tests = [e for e in self.events if e["word"] == "if" and self.is_decided(here, e)]
        self.said = []
        for test in tests[-1:]:
            yield "  %s waits%s" % (thread.name, self.decided(test))
            yield from self.values(test["at"], test["statement"].parts[0], 6, 3, True)

    def fates(self, why):
        """Of each thread what came of its statements that could end such a wait; at last that nobody is left, if so."""
        those, is_one, is_ahead = [t for t, other in self.waiting if other == why], False, False
        for thread in self.run.threads:
            waiter = next((t for t in those if t is not thread), those[0])
            theirs = [one for other, one in self.run.enders(waiter) if other is thread]
            ahead = self.ahead(thread, theirs) if waiter is not thread else []
            yield from [*self.did(thread, theirs), *ahead, *self.passed_by(thread, theirs)]
            is_one, is_ahead = is_one or bool(theirs), is_ahead or bool(ahead)
        if not is_ahead:
            yield "  Nobody is left who can." if is_one else "  Nobody: no other thread has such a statement."

    def did(self, thread, theirs):
        steps = [at for at, (who, what) in enumerate(self.run.carried) if who is thread and any(what is one for one in theirs)]
        for at in steps[-1:]:
            often = "%d times, the last time " % len(steps) if len(steps) > 1 else ""
            told = "  %s did %sin step %d (%s)" % (thread.name, often, at, self.line_of_step(at))
            woken = self.steps[at]["woken"]
            calls = self.steps[at]["act"] in ("signal", "broadcast")
            yield told + (", and woke " + ", ".join(woken) if woken else ", when nobody waited" if calls else "")

    def ahead(self, thread, theirs):
        for verb, ways in zip(("has yet to", "may"), thread.ways()):
            places = [at for at in sorted(ways) if at < len(thread.code) and any(thread.code[at][0] is one for one in theirs)]
            if places:
                held = ", but is blocked " + self.blocked_at(thread) if self.run.blocked_by(thread) else \
                    ", but stopped at " + self.number_of(thread.at) if thread.status == "stopped" else ""
                return ["  %s %s come to %s%s" % (thread.name, verb, self.line_at(thread.number, places[0]), held)]
        return []

    def passed_by(self, thread, theirs):
        """How often a thread passed such statements by, when last, and by which test, with the values of that."""
        over = lambda e: [at for at in range(e["place"] + 1, e["place"] + 1 + e.get("passes", 0))
                          if any(thread.code[at][0] is one for one in theirs)]
        passes = [event for event in self.events if event["thread"] == thread.number and over(event)]
        for event in passes[-1:]:
            site = self.site_at(thread.number, over(event)[0])
            when = "at the start" if event["step"] is None else "in step %d" % event["step"]
            words = "  %s passed by %s" % (thread.name, site if len(passes) == 1 else "%d times, the last time %s (%s)" % (
                len(passes), when, site))
            test = event if event["word"] == "if" else self.last(event["at"], lambda e: e["thread"] == thread.number and e[
                "word"] == "if" and e["was"] and event["place"] <= e["place"] + thread.code[e["place"]][2])
            if test is None:
                return [words + ", by `leave` in " + self.line_in(event)]
            self.said = []
            return [words + ", " + self.decided(test).lstrip(), *self.values(test["at"], test["statement"].parts[0], 6, 3, True)]
        return []

    def changes(self, step):
        """What the table says that a step changed."""
        act, name, sets = step["act"], step["object"], step["sets"]
        if step["stop"] in ("not-held", "sem-full"):
            words = "FALSE: %s doesn't own %s" % (step["name"], step.get("mutex", name)) if step["stop"] == "not-held" else \
                "FALSE: its count can't rise"
        elif act in ("signal", "broadcast"):
            words = "wakes " + ", ".join(step["woken"]) if step["woken"] else "nobody waits"
        elif act in ("lock", "retake", "unlock"):
            words = "%s is free" % name if act == "unlock" else "%s -> %s" % (name, step["name"])
        elif act == "wait":
            words = "%s is free; waits for %s" % (step["mutex"], name)
        else:
            words = "%s %d (unchanged)" % (name, step["new"]) if step["old"] == step["new"] else \
                "%s %d -> %d" % (name, step["old"], step["new"])
        told = [words] * (act != "load")
        for one in sets:
            own = (one["line"], one["column"]) == (step["line"], step["column"])
            place = self.line_of(one.get("from"), one["line"])
            told.append("%s%s = %d%s" % ("" if own else place + ": ", one["local"], one["value"],
                                         " from " + name if own and act == "load" else ""))
        return "; ".join(told + self.lost(step))

    def lost(self, step):
        """Of a store in the cause, which other thread wrote the variable since the storing one used it last."""
        at, name = step["step"], step["object"]
        in_cause = any(self.events[k]["step"] == at for k in self.run.causes() if k < len(self.events))
        uses = [k for k in range(at) if self.steps[k]["object"] == name and self.steps[k]["thread"] == step["thread"]]
        if step["act"] != "store" or not in_cause or not uses:
            return []
        writes = [e for e in self.events if e.get("writes") == name and uses[-1] < e["step"] < at]
        return ["%s wrote %s since step %d" % (self.run.threads[e["thread"]].name, name, uses[-1]) for e in writes[-1:]]

    def number(self, step, when):
        return self.steps[step][when]

    def since(self, step):
        if step is None:
            return " from the start"
        words = " since step %d (%s, %s)" % (step, self.steps[step]["name"], self.line_in(self.run.step_events[step]))
        if self.steps[step]["preempting"]:
            words += ", where %s was interrupted" % self.steps[step - 1]["name"]
        return words


# ---- programs and schedules that chance seldom makes

SHAPES = [
    # Two circles of two, and a thread that waits for both of one.
    ("mutex a; mutex b; mutex c; mutex d; thread A { lock a; lock b; } thread B { lock b; lock a; } "
     "thread C { lock c; lock d; } thread D { lock d; lock c; } thread E { lock b; }", "0,1,2,3"),
    # A circle of three, and one that waits for itself.
    ("mutex a; mutex b; mutex c; mutex d; thread A { lock a; lock b; } thread B { lock b; lock c; } "
     "thread C { lock c; lock a; } thread D { lock d; lock d; }", "0,1,2,3"),
    # The thread that would signal waits for the one that waits for its signal.
    ("mutex o; mutex i; cond c; var x; thread A { lock o; lock i; repeat 2 { load r x; if r { leave; } wait c i; } "
     "unlock i; unlock o; } thread B { lock o; lock i; store x 1; signal c; unlock i; unlock o; }", "0x4"),
    # Semaphores in opposite orders; and one that was passed by.
    ("sem a = 1; sem b = 1; thread A { acquire a; acquire b; release b; release a; } "
     "thread B { acquire b; acquire a; release a; release b; }", "0,1"),
    ("sem a = 0; var x; thread A { load r x; if r { release a; } else { store x 2; } } thread B { acquire a; }", "0x2"),
    # A test that led to another one alone, by which a write was passed by.
    ("var x; var y; thread A { load a y; if a == 0 { if a { store x 1; } } } thread B { load r x; assert r == 1; }", "0,1"),
    # A `leave` under two tests, by which a signal is passed by.
    ("var x = 1; var y = 1; mutex m; cond c; thread A { lock m; wait c m; } thread B { load a x; load b y; repeat 1 { "
     "if a { if b { leave; } } signal c; } }", "0x2,1x2"),
    # A thread that can't carry a statement out in the second turn.
    ("mutex m; thread A { repeat 2 { lock m; } }", "0"),
    # A test by which two writes were passed by, of which the second one is of what is read.
    ("var x; var y; var z; thread A { load a y; if a { store z 1; store x 1; } } thread B { load r x; assert r == 1; }",
     "0,1"),
    # A loop that was left in one turn of the loop round it, and ran out in the next.
    ("var x = 1; thread A { repeat 2 { repeat 2 { load r x; if r { leave; } } } assert r; } thread B { store x 0; }",
     "0,1,0x2"),
    # A test that led to a wait, beside the failure of another thread.
    ("var x; var y; mutex m; cond c; thread A { lock m; load r x; if r == 0 { wait c m; } unlock m; } "
     "thread B { load s y; assert s == 1; }", "0x3,1"),
    # A mutex whose owner ended, having passed its unlock by; and one whose owner stopped before it.
    ("mutex m; var x; thread A { lock m; load r x; if r { unlock m; } } thread B { lock m; unlock m; }", "0x2"),
    ("mutex m; thread A { lock m; assert 0; unlock m; } thread B { lock m; unlock m; }", "0"),
    # A mutex that its owner gave back by a wait, took again, and ended with.
    ("mutex m; cond c; var x; thread B { lock m; wait c m; load r x; if r { unlock m; } } thread A { lock m; unlock m; } "
     "thread S { signal c; }", "0x2,2,0x2"),
    # A `leave` under no test, in two turns, before the first step; and a `cas` that misses.
    ("mutex m; cond c; thread A { lock m; wait c m; } thread B { repeat 2 { repeat 1 { leave; signal c; } } }", "0x2"),
    ("var x; thread A { cas ok x 1 2; assert ok; }", "0"),
    # Turns of nested loops, beside a loop with one; and tests in a loop, with an `else` in the same turn.
    ("var x; thread A { repeat 2 { repeat 1 { repeat 3 { add r x 1; assert r < 4; } } } } thread B { load r x; "
     "repeat 2 { load q x; assert r != 3; } }", "0x5"),
    ("var x; thread A { repeat 3 { add r x 1; assert r < 2; } }", "0x3"),
    ("var x; thread A { repeat 3 { load r x; if r == 1 { store x 2; } else { add q x 1; } } load q x; assert q == 0; }",
     "0x7"),
    # A release that is passed by twice, in two turns; the second test found what was written between.
    ("var x; sem s = 0; thread A { acquire s; } thread B { repeat 2 { load r x; if r == 1 { release s; } } } "
     "thread C { store x 2; }", "1,2,1"),
    # A signal behind a test of a local that is set no more, and one behind a test of what is loaded first.
    ("var x; mutex m; cond c; thread A { lock m; wait c m; unlock m; } thread B { load r x; lock m; lock m; "
     "if r { signal c; } load q x; if q { signal c; } }", "0x2,1x2"),
    # A wake-up that helps nobody: what the sleeper looks at is written by nobody but itself.
    ("var x = 1; var y = 1; mutex m; cond c; thread A { lock m; repeat 2 { load r x; if r == 0 { leave; } wait c m; } "
     "store x 0; broadcast c; unlock m; } thread B { lock m; repeat 2 { load r x; if r == 0 { leave; } wait c m; } "
     "store y 0; broadcast c; unlock m; }", "0x3,1x3"),
    # Signals that find nobody, before the wait, by a statement that is carried out twice.
    ("mutex m; cond c; thread A { lock m; wait c m; unlock m; } thread B { repeat 2 { signal c; } }", "1x2,0x2"),
    # Three are woken at once, in the order in which they came.
    ("mutex m; cond c; thread A { lock m; wait c m; } thread B { lock m; wait c m; } thread C { lock m; wait c m; } "
     "thread D { broadcast c; }", "2x2,0x2,1x2,3,1"),
    # A signal woke one of two, a thread ended with a mutex, and nobody releases.
    ("var a; mutex m; cond c; sem s = 0; var b; thread Sleeper { acquire s; } thread Called { lock m; wait c m; "
     "unlock m; } thread Left { lock m; wait c m; unlock m; } thread Caller { lock m; signal c; unlock m; "
     "acquire s; } thread Owner { load r a; store b r; lock m; }", "1x2,2x2,3x3,4x3"),
    # All releases were carried out, and one is wanted more.
    ("sem slots = 2; sem done = 0; var n; thread W1 { acquire slots; add o n 1; release done; } thread W2 { "
     "acquire slots; add o n 1; release slots; release done; } thread W3 { acquire slots; add o n 1; release slots; "
     "release done; } thread Main { repeat 4 { acquire done; } load t n; assert t == 3; }", "0x3,1x4,2x4,3x3"),
    # Two that would broadcast wait for each other.
    ("mutex g; cond changed; var readers; var pending; thread Reader { lock g; repeat 3 { load p pending; "
     "if p == 0 { leave; } wait changed g; } assert p == 0; add old readers 1; unlock g; lock g; repeat 3 { "
     "load p pending; if p == 0 { leave; } wait changed g; } assert p == 0; add old readers 1; unlock g; lock g; "
     "add old readers -1; broadcast changed; unlock g; lock g; add old readers -1; broadcast changed; unlock g; } "
     "thread Writer { lock g; store pending 1; repeat 5 { load n readers; if n == 0 { leave; } wait changed g; } "
     "assert n == 0; unlock g; lock g; store pending 0; broadcast changed; unlock g; }", "0x4,1x4,0x3"),
    # Each release was passed by.
    ("var permits; var head; var ws_0 = 1; var ws_1 = 1; sem park_1 = 0; sem park_2 = 0; thread Acquire1 { "
     "acquire park_1; repeat 3 { load s permits; set left s - 1; cas ok permits s left; if ok { leave; } } "
     "assert ok; store head 1; if left > 0 { load w ws_1; if w { cas r ws_1 1 0; release park_2; } } } "
     "thread Acquire2 { acquire park_2; load s permits; set left s - 1; cas ok permits s left; store head 2; } "
     "thread Release1 { add old permits 1; load h head; if h == 0 { load w ws_0; if w { cas r ws_0 1 0; "
     "release park_1; } } if h == 1 { load w ws_1; if w { cas r ws_1 1 0; release park_2; } } } thread Release2 { "
     "add old permits 1; load h head; if h == 0 { load w ws_0; if w { cas r ws_0 1 0; release park_1; } } "
     "if h == 1 { load w ws_1; if w { cas r ws_1 1 0; release park_2; } } }", "2x5,0x3,3x3,0"),
    # The owner of a mutex failed.
    ("mutex m; sem s = 0; var x; thread A { lock m; load r x; assert r == 1; unlock m; } thread B { lock m; "
     "store x 1; unlock m; } thread C { load r x; if r { release s; } acquire s; release s; }", "0x2,2"),
    # A write between two uses of the variable by another thread, which overwrites what was written.
    ("var x; var y; thread A { load r x; store x r; load q x; assert q == 1; } "
     "thread B { store y 1; store x 1; }", "0,1x2,0x2"),
    # The owner of a mutex ends, having passed the unlock by.
    ("var x; var y; mutex m; thread A { store y 1; lock m; load c x; if c { unlock m; } } thread B { lock m; }", "0x3"),
    # A semaphore whose release is passed by.
    ("var x; var y; sem s = 1; thread A { acquire s; load c x; if c { release s; } } thread B { store y 1; "
     "acquire s; }", "0x2,1"),
    # An unlock of a mutex that another thread owns; what comes after it doesn't count.
    ("var x; mutex m; thread A { unlock m; } thread B { lock m; store x 1; unlock m; }", "1x2,0,1"),
    # The edit of the mode after it was read.
    ("var mode = 1; var turntable; var edited; var current; thread Keyboard { store turntable 1; store mode 1; "
     "store mode 2; store turntable 2; store edited 1; } thread Treat { load m mode; if m == 1 { store current 100; "
     "} else { store current 1; } load e edited; if e { load m mode; if m == 1 { store current 100; } else { "
     "store current 1; } } load t turntable; load c current; if t == 2 { assert c == 1; } }", "1x3,0x5,1x2"),
    # A reader that is overlooked by one grace period and taken for a new one by the next.
    ("var gp = 1; var reader; var current = 1; var freed; thread Reader { load g gp; store reader g; "
     "load p current; load f freed; assert f < p; store reader 0; } thread Updater { store current 2; store gp 3; "
     "repeat 2 { load r reader; set quiet r == 0; if r == 3 { set quiet 1; } if quiet { leave; } } if quiet { "
     "store freed 1; store current 3; store gp 1; repeat 2 { load r reader; set quiet r == 0; if r == 1 { "
     "set quiet 1; } if quiet { leave; } } if quiet { store freed 2; } } }", "0,1x3,0x2,1x5,0"),
    # A store of the value that is there, before one that counts.
    ("mutex table_lock; mutex log_lock; var rows = 1; var replica = 1; sem ended = 0; thread Delete { lock table_lock; "
     "store rows 0; unlock table_lock; lock log_lock; store replica 0; unlock log_lock; release ended; } thread Insert { "
     "lock table_lock; store rows 1; lock log_lock; store replica 1; unlock log_lock; unlock table_lock; release ended; } "
     "thread Compare { acquire ended; acquire ended; load master rows; load slave replica; assert slave == master; }",
     "0x3,1x7,0x4,2x4"),
    # A reader that changes what it read before another thread does, and a loop that runs out of turns.
    ("var next_1 = 2; var next_2; thread Put1 { set e 1; set head 0; repeat 3 { if e == 0 { leave; } if e == 1 { "
     "load next next_1; store next_1 head; } else { load next next_2; store next_2 head; } set head e; set e next; } } "
     "thread Put2 { set e 1; set head 0; repeat 3 { if e == 0 { leave; } if e == 1 { load next next_1; store next_1 head; "
     "} else { load next next_2; store next_2 head; } set head e; set e next; } } thread Get { set at 1; repeat 2 { "
     "if at == 0 { leave; } if at == 1 { load at next_1; } else { load at next_2; } } assert at == 0; }", "0,1x4,0x5,2x2"),
    # Tests in tests lead to an assertion of one thread, and to what the other one did.
    ("var strong = 2; var weak = 1; var users; thread GetMut { load w weak; if w == 1 { load s strong; if s == 1 { "
     "add others users 1; assert others == 0; add o users -1; } } } thread Other { add o weak 1; add o strong -1; "
     "load s strong; if s > 0 { cas up strong s 2; if up { add others users 1; assert others == 0; add o users -1; } } }",
     "0,1x2,0,1x3,0,1"),
    # A page that is thrown away between a write fault and the next one.
    ("var pte; var written; thread Write { set want_write 1; repeat 5 { load p pte; set found 0; if p != 0 { "
     "if want_write == 0 { set found 1; } } if found { leave; } if want_write { cas copied pte 0 2; "
     "if copied == 0 { cas reused pte 2 2; if reused { set want_write 0; } } } else { cas mapped pte 0 1; } } "
     "if found { store written p; assert p == 2; } } thread Madvise { store pte 0; }", "0x5,1,0x4"),
]

# ---- programs and schedules made at random

class Maker:
    def __init__(self, chance):
        self.chance = chance

    def pick(self, *items):
        return self.chance.choice(items)

    def number(self):
        return self.pick(0, 0, 1, 1, 1, 2, 3, -1, 2**53 + 1, 2**63 - 1, -2**63 + 1)

    def operand(self):
        return str(self.number()) if self.chance.random() < 0.6 else self.pick("r", "q", "left")

    def expression(self):
        if self.chance.random() < 0.2:
            return self.operand()
        return "%s %s %s" % (self.operand(), self.pick(*OPERATORS), self.operand())

    def visible(self):
        word = self.pick("load", "store", "add", "cas", "load", "store", "add", "lock", "unlock", "wait", "signal",
                         "signal", "broadcast", "acquire", "acquire", "release")
        local, var = self.pick("r", "q", "left"), self.pick(*self.names["var"])
        parts = {"load": [local, var], "store": [var, self.operand()], "add": [local, var, self.operand()],
                 "cas": [local, var, self.operand(), self.operand()],
                 "wait": [self.pick(*self.names["cond"]), self.pick(*self.names["mutex"])]}
        of = {"lock": "mutex", "unlock": "mutex", "signal": "cond", "broadcast": "cond", "acquire": "sem", "release": "sem"}
        return [word] + (parts[word] if word in parts else [self.pick(*self.names[of[word]])])

    def statements(self, most, depth, in_repeat):
        """Some statements, each with as much blank as may be between."""
        text = []
        for _ in range(self.chance.randint(0 if depth else 1, most)):
            draw = self.chance.random()
            if draw < 0.12 and depth < 2:
                inner = self.statements(2, depth + 1, in_repeat)
                other = " else { %s}" % self.statements(2, depth + 1, in_repeat) if self.chance.random() < 0.4 else ""
                text.append("if %s { %s}%s" % (self.expression(), inner, other))
            elif draw < 0.2 and depth < 2:
                text.append("repeat %d { %s}" % (self.chance.randint(1, 3), self.statements(2, depth + 1, True)))
            elif draw < 0.25 and in_repeat:
                text.append("leave;")
            elif draw < 0.29 and depth < 2:
                text.append(self.spin(depth))
            elif draw < 0.35:
                text.append("set %s %s;" % (self.pick("r", "q", "left"), self.expression()))
            elif draw < 0.38:
                text.append("assert %s;" % self.expression())
            elif draw < 0.6 and depth < 3:
                text.append(self.guarded(depth, in_repeat))
            else:
                blank = self.pick(" ", " ", " ", "\n\t", " # so\n ")
                text.append(blank.join(self.visible()) + self.pick("", "", " ") + ";")
        return "".join(one + self.pick(" ", "  ", "\n    ", " # and\n") for one in text)

    def spin(self, depth):
        """A loop that a test may end, and maybe what it is to have brought about."""
        found = self.pick("r == %d" % self.number(), "q", "left != r")
        inner = self.statements(1, depth + 1, True)
        return "repeat %d { load %s %s; if %s { leave; } %s}%s" % (
            self.chance.randint(1, 3), self.pick("r", "q", "left"), self.pick(*self.names["var"]), found, inner,
            self.pick("", " assert %s;" % found))

    def guarded(self, depth, in_repeat):
        """Some statements under a mutex, mostly one that isn't owned yet, maybe after a wait."""
        free = [mutex for mutex in self.names["mutex"] if mutex not in self.owned] or self.names["mutex"]
        mutex = self.pick(*(free if self.chance.random() < 0.9 else self.names["mutex"]))
        self.owned.append(mutex)
        waits = "wait %s %s; " % (self.pick(*self.names["cond"]), mutex) if self.chance.random() < 0.3 else ""
        inner = self.statements(2, depth + 1, in_repeat)
        self.owned.pop()
        return "lock %s; %s%s unlock %s;" % (mutex, waits, inner, mutex)

    def asserted(self):
        """What a thread may assert in the end, mostly of a variable that some wrote, and rarely before it writes that itself."""
        if self.chance.random() < 0.5:
            return ""
        variable, local = self.pick(*self.names["var"]), self.pick("r", "q", "left")
        wrote = "store %s %s; " % (variable, self.operand()) if self.chance.random() < 0.4 else ""
        return "load %s %s; %sassert %s == %d; " % (local, variable, wrote, local, self.number())

    def guest(self):
        self.owned = []
        self.names = {"var": ["x", "y", "_v"], "mutex": ["m", "k", "n_"], "cond": ["c", "d"], "sem": ["s", "full"]}
        text = "var x; var y = %d;\nvar _v = -3; mutex m; mutex k;\tmutex n_; cond c; cond d;\nsem s = %d; sem full = %d;\n" % (
            self.number(), self.pick(0, 1, 2), self.pick(0, MOST_COUNT, MOST_COUNT - 1))
        for name in ("A", "B", "Third", "D_4")[:self.pick(1, 2, 2, 3, 3, 4, 4)]:
            text += "thread %s {%s%s%s}\n" % (name, self.pick(" ", "\n    "), self.statements(6, 0, False), self.asserted())
        return text if self.chance.random() < 0.7 else self.marked(text)

    def marked(self, text):
        """The text with marks, and with comments that are none, before some of its lines."""
        forms = ('# %d "two.c"', '# %d "worker.inc" 1 3', '#line %d "lock.m4"', '#line %d', '# %d', ' # %d "no.c"',
                 '#line %d "no.c" a', '#line  %d "no.c"', '# %d "no.c', '#line %d ""')
        lines = text.split("\n")
        for at in range(len(lines) - 1, -1, -1):
            if self.chance.random() < 0.5:
                lines.insert(at, self.pick(*forms) % self.pick(0, 1, 12, 400, 2 ** 31))
        return "\n".join(lines)

    def schedule(self, guest):
        """A schedule, and what it is: complete, cut short, refused or past the end."""
        run, schedule = Run(guest), []
        sticky = self.chance.random()
        while run.enabled():
            enabled = run.enabled()
            stays = schedule and schedule[-1] in enabled and self.chance.random() < sticky
            number = schedule[-1] if stays else self.chance.choice(enabled)
            run.step(run.threads[number])
            schedule.append(number)
        form = self.pick("complete", "complete", "cut short", "refused", "past the end")
        if form == "cut short":
            return schedule[:self.chance.randint(0, len(schedule))]
        if form == "refused":
            at = self.chance.randint(0, len(schedule))
            return schedule[:at] + [self.chance.randint(0, 20)] + schedule[at:]
        if form == "past the end":
            return schedule + [self.chance.randint(0, len(run.threads))] * self.pick(1, 3)
        return schedule


# ---- comparing

def differences(got, want, at=""):
    """Where two values of JSON differ: the paths, with both."""
    if type(got) is not type(want):
        return ["%s: %r, not %r" % (at, got, want)]
    if isinstance(got, dict):
        found = ["%s: %s" % (at, "not told: %s" % key if key in want else "told: %s" % key)
                 for key in sorted(set(got) ^ set(want))]
        return found + [d for key in got if key in want for d in differences(got[key], want[key], "%s.%s" % (at, key))]
    if isinstance(got, list):
        found = [] if len(got) == len(want) else ["%s: %d of them, not %d" % (at, len(got), len(want))]
        return found + [d for i, pair in enumerate(zip(got, want)) for d in differences(*pair, "%s[%d]" % (at, i))]
    return [] if got == want else ["%s: %r, not %r" % (at, got, want)]


def fields(value, at="", named=False):
    """The fields of a value: each path without places and names of the guest, with what is there."""
    if isinstance(value, dict):
        yield at, "an object"
        for key, inner in value.items():
            yield from fields(inner, at + (".*" if named else "." + key), key in NAMED)
    elif isinstance(value, list):
        yield at + "[]", len(value)
        for inner in value:
            yield from fields(inner, at + "[]")
    else:
        yield at, value


# The objects whose keys are names of a guest.
NAMED = ("variables", "semaphores", "conditions", "mutexes", "locals", "after")
# What is alike in each explanation.
ALIKE = (".search.cause", ".search.symmetry")


def places(value, path=()):
    """Each place in a value, as the keys that lead there."""
    if path:
        yield path
    inner = value.items() if isinstance(value, dict) else enumerate(value) if isinstance(value, list) else ()
    for key, item in inner:
        yield from places(item, path + (key,))


def at_path(value, path):
    for key in path:
        value = value[key]
    return value


# What a sentence on who waits, or in the head, may have: each must have been said of some guest.
PHRASES = (
    "came here since", " came to line", "passed by line", " ran out of its ", " is free since step", " is held by ",
    ", which is its limit", " hit (", " missed (", " itself set ", " itself made it ", "nobody had written before", "from the start",
    " was interrupted", ", turn 2 of", "Why nobody can go on", "Blocked meanwhile", " wait for one another", " waits for itself",
    "waits for a signal on", " took the last one ", ", which ended and owns", ", which stopped and owns", ": retake ",
    "Who could signal", "Who could release", "Who could unlock", "would wait again", "would go on", " waits since `if ", " is still ", ", and was ",
    " has yet to come to", " may come to", ", but is blocked at", ", but stopped at", "passed by 2 times", "last time at the start",
    ", by `leave` in", " did in step", " did 2 times", ", when nobody waited", ", and woke ", "Nobody is left", "Nobody: no other",
    "can't be taken", "there is no thread", "has ended.", "has stopped.", "Nobody can go on.", "The run was over", "Could go on: ")


class Explanations(Tester):
    seen, told = {}, set()

    def compare(self, name, words, want):
        told, status = want
        got = self.run("explain", name, *words, "--json", cwd=ROOT)
        is_so = got == (compact(told), "", status)
        found = [] if is_so else differences(json.loads(got.out), told) if got.out.startswith("{") else [got.out]
        self.expect("explain %s %s" % (name, " ".join(words)), is_so, "status %d, not %d" % (got.status, status), got.err, *found[:8])
        if not is_so:
            return
        for at, value in fields(told):
            self.seen.setdefault(at, set()).add(value)

    def explained(self, name, text, schedule):
        self.compare(name, [schedule_text(schedule)], explanation(name, text, schedule, None))
        self.sentences(name, text, schedule)

    def sentences(self, name, text, schedule):
        """The sentences of the text are those that the simulator says."""
        lines = self.run("explain", name, schedule_text(schedule), "--all", "--width", 1000, cwd=ROOT).out.split("\n")
        table, said = lines.index("") + 1, Sentences(name, text, schedule)
        rows = [line for line in lines[table + 2:lines.index("", table)] if line[:4].strip().isdigit()]
        rows = [line[lines[table].index("what changed"):] for at, line in enumerate(rows) if line[:4] not in {
            other[:4] for other in rows[:at]}]
        head = said.lines()
        for what, got, want in (("head", lines[0 if head else 1:table - 1], head),
                                ("rows", rows, [said.changes(step) for step in said.steps]),
                                ("reasons", lines[lines.index("", table) + 1:-2], said.reasons())):
            self.expect("the %s of explain %s %s" % (what, name, schedule_text(schedule)), got == want,
                        *("%r, not %r" % pair for pair in zip(got, want) if pair[0] != pair[1]))
        self.told.update(phrase for phrase in PHRASES if any(phrase in line for line in head + said.reasons()))

    def searched(self, name, text, words):
        """A schedule that a search finds, with the report of that search, with equal threads once where there may be some: as
        far as a bound says; else up to the greatest one, and where that leaves it open, without one."""
        once = ["--symmetry"] if has_equal_threads(Guest(text)) else []
        is_open = lambda report: not report.get("schedule") and not report.get("all")
        reported = lambda *command: json.loads(self.run(*command, name, *once, *words, cwd=ROOT).out)
        report = reported("explore") if words[0] == "--bound" else reported("explore", "--bound", "64")
        if words[0] == "--limit" and is_open(report):
            far = reported("unbounded")
            report = report if is_open(far) else far
        if report.get("schedule"):
            self.compare(name, words, explanation(name, text, schedule_of(report["schedule"]), report))
            self.sentences(name, text, schedule_of(report["schedule"]))
        else:
            status = {"clean": 0, "incomplete": 3}[report["verdict"]]
            self.compare(name, words, ({"file": name, "schedule": None, "search": report}, status))

    def every_field(self):
        """Each field but those that are always an object was seen with two values."""
        for at, values in sorted(self.seen.items()):
            self.expect("%s is always %r, so nothing is seen of it" % (at, values),
                        len(values) > 1 or values == {"an object"} or at in ALIKE)
        self.expect("each phrase was said", not set(PHRASES) - self.told, *set(PHRASES) - self.told)

    def notices(self, told):
        """The comparison notices each field that is changed, left out or put in."""
        for path in places(told):
            for change in ("changed", "left out", "put in"):
                other = copy.deepcopy(told)
                holder = at_path(other, path[:-1])
                if change == "changed":
                    old = holder[path[-1]]
                    holder[path[-1]] = "other" if not isinstance(old, (bool, int)) else (not old) if isinstance(old, bool) \
                        else old + 1
                elif change == "left out":
                    del holder[path[-1]]
                elif isinstance(holder, dict):
                    holder[str(path[-1]) + "_"] = None
                else:
                    holder.append(None)
                found = differences(other, told)
                self.expect("%s is %s, and isn't noticed" % (path, change), found and compact(other) != compact(told))

    def test(self):
        maker = Maker(self.chance)
        for path in guests():
            name, text = str(path.relative_to(ROOT)), path.read_text()
            for words in (["--bound", "1"], ["--limit", "1"], ["--limit", "30"], ["--limit", "2000"]):
                self.searched(name, text, words)
            for _ in range(4):
                self.explained(name, text, maker.schedule(Guest(text)))
        for number, (text, schedule) in enumerate(SHAPES):
            self.explained(str(self.write("shape%d.guest" % number, text)), text, schedule_of(schedule))
        for number in range(self.given.programs):
            text = maker.guest()
            name = str(self.write("made%d.guest" % number, text))
            for _ in range(3):
                self.explained(name, text, maker.schedule(Guest(text)))
        self.every_field()
        for name, schedule in (("deadlock4", "0x4,2x3"), ("check_then_act", "0x3,1x7,0x4")):
            text = '#line 7 "%s.m4"\n' % name + (EXAMPLES / (name + ".guest")).read_text()
            self.notices(explanation(name, text, schedule_of(schedule), None)[0])


if __name__ == "__main__":
    Explanations.main(programs=300, seed=1)
