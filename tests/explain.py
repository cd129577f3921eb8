#!/usr/bin/env python3
"""Runs `ctxbound explain`, and compares what it prints.

Usage: tests/explain.py BINARY

- The table CASES: each has a guest of examples/ or of tests/explain/, the words after its name, the
  status, and the file of tests/explain/ that has the output byte for byte.
- What is said where a search finds nothing, that the last line is a command for a shell, and that the
  width is kept whatever the names are.
- From which line on the page says that the lines of a preprocessed text come from where.
- Of each example, with the schedule that a search finds: the text is ASCII and no line but the last is
  wider than it may be; the steps of the JSON are those of the trace, in its order; and the page has
  one script of data, which is the JSON with the text of the guest.
- A run of 31,682 steps is explained, each step once.
"""
import json
import re

from program import EXAMPLES, ROOT, Tester, guests, run, text_of, waits

HERE = ROOT / "tests" / "explain"

# folder, guest, words, status, file with the output
CASES = [
    (EXAMPLES, "deadlock4.guest", [], 1, "deadlock4.txt"),
    (EXAMPLES, "bank60.guest", [], 1, "bank60.txt"),
    (EXAMPLES, "bank60.guest", ["--steps", "53", "--width", "120"], 1, "bank60_53.txt"),
    (EXAMPLES, "deadlock4.guest", ["0x4,2x3", "--width", "60"], 1, "deadlock4_60.txt"),
    (HERE, "stops.guest", ["0x2,1"], 0, "not_held.txt"),
    (HERE, "stops.guest", ["2"], 0, "sem_full.txt"),
    (HERE, "stops.guest", ["3,0"], 2, "after_assert.txt"),
    (HERE, "start.guest", ["0"], 1, "start.txt"),
    (HERE, "unchanged.guest", ["0,1"], 1, "unchanged.txt"),
    (HERE, "far_lines.guest", ["0,1"], 1, "far_lines.txt"),
    (HERE, "stops.guest", ["0,3"], 2, "refused.txt"),
    (HERE, "stops.guest", ["0,16"], 2, "no_thread.txt"),
    (HERE, "waits.guest", ["0x2,1x2,2x5"], 1, "retake.txt"),
    (HERE, "lost_wakeup.guest", ["1,0x2"], 1, "lost_wakeup.txt"),
    (HERE, "no_slot.guest", ["-"], 1, "no_slot.txt"),
    (HERE, "sixteen.guest", ["3x5,9x4"], 1, "sixteen_100.txt"),
    (HERE, "sixteen.guest", ["3x5,9x4", "--width", "60"], 1, "sixteen_60.txt"),
    (HERE, "late_preemption.guest", ["--unbounded"], 1, "late_preemption.txt"),
    (HERE, "owner.guest", ["1,0,1x2,2x2"], 1, "owner.txt"),
    (HERE, "owner_of_wait.guest", ["1,0x2,1x2"], 1, "owner_of_wait.txt"),
    (HERE, "nested_monitor.guest", ["0x4"], 1, "nested_monitor.txt"),
    (HERE, "unrelated.guest", ["0,1x3,0x3"], 1, "unrelated.txt"),
    (HERE, "semaphores.guest", ["0x4,1x5"], 2, "past_the_end.txt"),
    (HERE, "semaphores.guest", ["0,1,7"], 2, "past_a_deadlock.txt"),
    (HERE, "wide.guest", ["0,1", "--width", "60"], 1, "wide_60.txt"),
    (HERE, "five.guest", ["1x2,2x2,3x3,4x3"], 1, "five.txt"),
    (HERE, "wrong_condition.guest", ["0x8,1x5"], 1, "wrong_condition.txt"),
    (HERE, "two_circles.guest", ["0,1,2,3"], 1, "two_circles.txt"),
    (HERE, "starved.guest", ["0x3,1x4,2x4,3x3"], 1, "starved.txt"),
    (HERE, "stopped_owner.guest", ["0x2,0"], 2, "stopped_owner.txt"),
    (HERE, "ended_owner.guest", ["0x2"], 1, "ended_owner.txt"),
    (HERE, "broadcast.guest", ["0x2,1x2,2x2,3x2,1x3,0x3,2x2"], 1, "broadcast.txt"),
    (HERE, "broadcast.guest", ["0x2,1x2,2x2,3x2"], 0, "woken.txt"),
    (HERE, "late_rows.guest", ["1,2,1"], 1, "late_rows.txt"),
    (HERE, "woken_twice.guest", ["0x2,1x2,2,0x2,1x2"], 1, "woken_twice.txt"),
    (HERE, "lost_values.guest", ["0x3,1x3,0x4,2x3"], 1, "lost_values.txt"),
    (HERE, "dirty_cow.guest", [], 1, "dirty_cow.txt"),
    (HERE, "marked_cpp.guest", ["1,0x3"], 1, "marked_cpp.txt"),
    (HERE, "marked_m4.guest", [], 1, "marked_m4.txt"),
    (HERE, "wide_lines.guest", ["0"], 1, "wide_lines.txt"),
    (HERE, "jdk_6801020.guest", [], 1, "jdk_6801020.txt"),
    (HERE, "k8s_62464.guest", [], 1, "k8s_62464.txt"),
    (HERE, "linux_pipe_both.guest", ["0x10,1x10,0x8"], 1, "linux_pipe_both.txt"),
    (HERE, "clh.guest", ["0x23,1x10"], 1, "clh.txt"),
    (HERE, "hemmendinger.guest", ["0x3,1x3,2x14,0x4,1x4"], 1, "hemmendinger.txt"),
]

# A guest that a preprocessor wrote, a schedule, and from which line on its lines come from which file and line.
MARKS = [
    ("marked_cpp.guest", "1,0x3", [(2, "pair.c", 0), (3, "<built-in>", 0), (4, "<command-line>", 0),
                                   (5, "/usr/include/stdc-predef.h", 1), (6, "<command-line>", 0), (7, "pair.c", 1),
                                   (10, "lib/worker.inc", 1), (17, "pair.c", 4)]),
    ("marked_m4.guest", "0x2", [(2, "lock.m4", 1), (4, "lock.m4", 12)]),
]

# A guest of which no schedule is bad: two have no preemption, two have one, and two have two.
APART = "var x; var y; thread A { store x 1; store x 2; } thread B { store y 1; store y 2; }"

# What `explain` says of it by these words, and the status.
NOTHING = [
    ([], 0, "apart.guest: no schedule is bad (6 tried).\n"),
    (["--bound", "0"], 0, "apart.guest: no schedule with at most 0 preemptions is bad (2 tried).\n"
     "That is no proof: others have more. Try --unbounded, or a higher --bound.\n"),
    (["--bound", "1"], 0, "apart.guest: no schedule with at most 1 preemption is bad (4 tried).\n"
     "That is no proof: others have more. Try --unbounded, or a higher --bound.\n"),
    (["--unbounded"], 0, "apart.guest: no schedule is bad (1 tried).\n"),
    (["--bound", "2", "--limit", "3"], 3,
     "apart.guest: no schedule with at most 1 preemption is bad; the search of others was cut short, and none that it "
     "tried is bad (4 tried).\n"),
    # the search up to a bound is cut short, and one without a bound follows
    (["--limit", "3"], 0, "apart.guest: no schedule is bad (1 tried).\n"),
]

# A name of a file that is markup, and as the text of an element.
MARKUP, ESCAPED = "<b>&amp;.guest", "&lt;b>&amp;amp;.guest"

# Two threads lose an update, in a folder and a file whose names a shell has to be told in quotes.
ODD = "my dir/it's a \u00e9.guest"
LOST = "var x; thread A { load r x; set r r + 1; store x r; } thread B { load r x; set r r + 1; store x r; } " \
    "thread C { load s x; load t x; assert s == t; }"

class Explained(Tester):
    def explain(self, folder, *words):
        return self.run("explain", *words, cwd=folder)

    def case(self, folder, guest, words, status, file):
        want = (text_of((HERE / file).read_bytes()), "", status)
        self.same("explain %s %s" % (guest, " ".join(words)), self.explain(folder, guest, *words), want)

    def nothing(self):
        """A search that finds nothing says so: how far it went, and what it leaves open."""
        self.write("apart.guest", APART)
        for words, status, text in NOTHING:
            self.same("explain apart.guest %s" % words, self.run("explain", "apart.guest", *words), (text, "", status))
        self.write(MARKUP, APART)
        page, _, status = self.run("explain", MARKUP, "--html")
        told = re.findall(r"<(title|p)>(.*?)</\1>", page, re.S)
        self.expect("a page that says so: %r" % told, status == 0 and told == [
            ("title", ESCAPED + " - ctxbound"), ("p", ESCAPED + ": no schedule is bad (6 tried).\n")])

    def odd_name(self):
        """The last line is a command that a shell carries out, whatever the file's name is; it leaves out
        the part of the schedule that doesn't run."""
        self.write(ODD, LOST)
        (self.folder / "ctxbound").symlink_to(self.binary)
        for schedule, ran in (("2,0x2,2", "2,0x2,2"), ("0,1x2,0,0,2", "0,1x2,0"), ("0,7", "0")):
            line = self.run("explain", ODD, schedule).out.split("\n")[-2]
            self.expect("the file's name is in quotes: %s" % line,
                        line == "Replay: ctxbound replay 'my dir/it'\\''s a \u00e9.guest' " + ran)
            done = run(["/bin/sh", "-c", line[len("Replay: "):]], cwd=self.folder, env={"PATH": str(self.folder)})
            self.expect("the command runs: %s" % line, done.status == 0)

    def long_names(self):
        """However long the names are, no line is too wide, none ends with a blank, and each step's statement is
        told."""
        names = ["n" * 99 + str(n) for n in range(6)]
        self.write("long_names.guest", "mutex m; " + " ".join("thread %s { lock m; unlock m; }" % name for name in names))
        for width in (40, 60, 100):
            text = self.run("explain", "long_names.guest", "0x2,5", "--width", width).out
            lines = text.split("\n")[:-2]
            self.expect("lines of at most %d columns" % width, all(len(line) <= width for line in lines), text)
            self.expect("no blanks at their ends", all(line == line.rstrip() for line in lines), text)
            for row in ("0    1 ", "1    1 ", "2    1 "):
                found = [line for line in lines if line.strip().startswith(row)]
                statement = "unlock m" if row[0] == "1" else "lock m"
                self.expect("step %s is told at width %d" % (row, width), len(found) == 1 and statement in found[0])

    def widths(self, guest, schedule):
        for width in (40, 60, 100):
            text = self.explain(EXAMPLES, guest, schedule, "--width", width, "--all").out
            lines = text.encode("ascii").decode().split("\n")
            self.expect("%s: the text ends with its command" % guest,
                        lines[-1] == "" and lines[-2].startswith("Replay: ctxbound replay "))
            for line in lines[:-2]:
                self.expect("%s: %r is wider than %d" % (guest, line, width), len(line) <= width)
                self.expect("%s: %r ends with a space" % (guest, line), line == line.rstrip())
                self.expect("%s: %r has a statement that is cut off, at %d columns" % (guest, line, width),
                            width < 60 or not re.search(r"\w\.\.( |$)", line))

    def steps(self, guest, schedule):
        told = json.loads(self.explain(EXAMPLES, guest, schedule, "--json").out)
        trace = self.run("replay", guest, schedule, cwd=EXAMPLES).out
        lines = [l for l in trace.split("\n") if re.match(r"\d", l)]
        self.expect("%s: as many steps as the trace has" % guest, len(lines) == len(told["steps"]))
        for line, step in zip(lines, told["steps"]):
            self.expect("%s: step %d is %r" % (guest, step["step"], line), line == trace_line(step),
                        trace_line(step))
        values = sorted(trace.split("\nvars")[1].split())
        self.expect("%s: the values reached" % guest, values == values_after(told))
        return told

    def data(self, folder, guest, schedule):
        """The page, and its data."""
        page = self.explain(folder, guest, schedule, "--html").out.encode("ascii").decode()
        found = re.findall(r'<script type="application/json" id="data">(.*?)</script>', page, re.S)
        self.expect("%s: the page has its data once" % guest, len(found) == 1)
        self.expect("%s: nothing in the data ends it" % guest, all("<" not in data for data in found))
        return page, json.loads(found[0])

    def marks(self):
        """From which line on the lines come from where, on the page."""
        for guest, schedule, wanted in MARKS:
            _, data = self.data(HERE, guest, schedule)
            got = [(mark["at"], mark["file"], mark["line"]) for mark in data["marks"]]
            self.expect("%s: the marks are %r" % (guest, got), got == wanted, repr(wanted))

    def page(self, guest, schedule, told):
        page, data = self.data(EXAMPLES, guest, schedule)
        source, _ = data.pop("source"), data.pop("why")
        self.expect("%s: the page has the source" % guest, source == (EXAMPLES / guest).read_text())
        self.expect("%s: the page has the explanation" % guest, data == told)
        self.expect("%s: the page asks no network" % guest, not re.search(r"https?://(?!www\.w3\.org)", page))

    def example(self, path):
        schedule = json.loads(self.run("explore", path.name, cwd=EXAMPLES).out).get("schedule") or "-"
        self.widths(path.name, schedule)
        self.page(path.name, schedule, self.steps(path.name, schedule))

    def long_run(self):
        """Fifteen threads wait again and again, and one wakes them all each time: near the most steps that
        a program has. Each step is told, once and in order."""
        rounds = 1022
        text, schedule = waits(rounds)
        self.write("long.guest", text)
        steps = rounds * 31
        for words in ([], ["--all"], ["--json"], ["--html"]):
            out, err, status = self.run("explain", "long.guest", schedule, *words)
            self.expect("%d steps %s: status %d" % (steps, words, status), (status, err) == (0, ""))
            if not words or words == ["--all"]:
                lines = out.split("\n")
                found = [re.match(r" *(\d+) +\d+  ", line) for line in lines]
                rows = [int(row.group(1)) for row in found if row]
                self.expect("%d steps are told" % steps, "after %d steps with" % steps in lines[0], lines[0])
                self.expect("the rows are in order", rows == sorted(set(rows)))
                self.expect("each has a row", not words or rows == list(range(steps)))
                self.expect("the command is last", lines[-2] == "Replay: ctxbound replay long.guest " + schedule)
            if words == ["--json"]:
                told = [step["step"] for step in json.loads(out)["steps"]]
                self.expect("each step is an object", told == list(range(steps)))

    def test(self):
        for case in CASES:
            self.case(*case)
        for path in guests("examples"):
            self.example(path)
        for test in (self.marks, self.nothing, self.odd_name, self.long_names, self.long_run):
            test()


def trace_line(step):
    """The line of the trace that a step of the JSON is."""
    words = [str(step["step"]), step["name"], step["act"], step["object"]]
    if step["act"] == "wait":
        words.append(step["mutex"])
    if step["act"] in ("load", "store"):
        words.append(str(step["new"]))
    if step["act"] == "add":
        words += [str(step["old"]), str(step["new"])]
    if step["act"] == "cas":
        hit = step["sets"][0]["value"]
        words += [str(step["old"])] + (["hit", str(step["new"])] if hit else ["miss"])
    if step["preempting"]:
        words.append("preempt")
    if step["stop"] is not None:
        words += ["stop", step["stop"]]
    return " ".join(words)


def values_after(told):
    """The values of the variables after the last step, in the order of their declaration."""
    values = dict(told["opening"]["variables"])
    for step in told["steps"]:
        if step["object"] in values:
            values[step["object"]] = step["new"]
    return sorted("%s=%d" % item for item in values.items())


if __name__ == "__main__":
    Explained.main()
