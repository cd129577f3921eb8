#!/usr/bin/env python3
"""Opens the page of `ctxbound explain --html` in a browser without a window, for each example and for a
guest whose names and whose file's name are markup or words of JavaScript, and for numbers that a script
rounds.

Usage: tests/page.py BINARY

- Each step has a row, but for those after a failure that aren't in the cause.
- The slider is moved to each row. The variables, owners, queues and counts that the page shows there must
  be those that the trace gives, and the threads that it shows beside the lines those that the JSON names.
- Where a search found the schedule, the ends and the counts must be those of its report.
- The summary must have the kind, the steps and the preemptions that the trace has, up to a failure. It, the
  paragraphs below it and the command must be the text without its table, and say nothing twice; each thread
  and each step that a paragraph names leads to a row of its own.
- Who waits for whom must be the edges and circles of the JSON, and not be there where nobody waits.
- The numbers beside the source, and the place of the chosen step, are those of a preprocessor's marks.
- Each key moves where it says; the page is no wider than a window of 390 pixels; the chosen step can be seen;
  and the console stays without an error.

It needs Chromium (Debian's package `chromium`); where there is none it says so, and fails nothing.
"""
import html
import json
import re
import shutil

from program import ROOT, Tester, guests, run
from simulator import Guest, has_equal_threads

BROWSERS = ("chromium", "chromium-browser", "google-chrome")

# The name of a file that would end an element, were it not told as text.
MARKUP = """<img src=x onerror="window.broken = 1">&'.guest"""

# Guests of which a script that rounds numbers shows a failure that can't be, and two ends as one.
GUESTS = {
    "big.guest": "var x = 9007199254740993; var y;\nthread A { load r x; store y 9007199254740992; "
                 "assert r == 9007199254740992; }\nthread B { store x 9007199254740992; }\n",
    "two_ends.guest": "var x; var y;\nthread A { load r y; store x 9007199254740992; set q r * 1; "
                      "if r { store x 9007199254740993; } assert 0; }\nthread B { store y 1; }\n",
    "at_the_start.guest": "var x;\nthread A { set r 2; assert r == 3; store x 1; }\nthread B { store x 2; }\n",
    "marked.guest": "# 1 \"two.c\"\nvar x;\n# 1 \"a.inc\" 1\nthread A { load r x; \nassert r == 0; }\n#line 3 \"two.c\"\n"
                    "thread B { store x 1; }\n",
    "itself.guest": "mutex m;\nthread A { lock m; lock m; }\nthread B { lock m; unlock m; }\n",
    # A name that is wider than the window.
    "long_names.guest": "mutex m;\nthread %s { lock m; lock m; }\nthread B { lock m; unlock m; }\n" % ("n" * 70),
}

# Moves the slider to each step, and puts down what the page shows there, and beside it.
WALK = """<script>
window.addEventListener("load", () => {
  const slider = document.getElementById("slider"), seen = [], beside = [], unseen = [], keys = {};
  const opened = Number(slider.value), all = (path) => [...document.querySelectorAll(path)];
  const press = (key) => { document.dispatchEvent(new KeyboardEvent("keydown", { key: key })); keys[key] = Number(slider.value); };
  const wide = document.documentElement.scrollWidth - document.documentElement.clientWidth;
  ["End", "ArrowRight", "Home", "ArrowLeft", "ArrowDown", "ArrowUp"].forEach(press);
  for (let k = 0; k <= Number(slider.max); k++) {
    slider.value = k;
    slider.dispatchEvent(new Event("input"));
    seen.push([...document.querySelectorAll("#state > div")].map((d) => [d.querySelector("h2").textContent,
      [...d.querySelectorAll("tr")].map((tr) => [...tr.children].map((td) => td.textContent))]));
    beside.push(all("#source .line").flatMap((line, i) => [...line.querySelectorAll(".badge")].map((b, j) =>
      [b.textContent, i + 1, line.querySelectorAll(".statement")[j].textContent])));
    const lanes = document.getElementById("lanes"), box = lanes.getBoundingClientRect();
    lanes.dispatchEvent(new Event("scroll"));
    const step = k === 0 ? box : all("#lanes .step")[k - 1].querySelector("circle").getBoundingClientRect();
    const number = k === 0 ? box : all("#edge text")[k - 1].getBoundingClientRect();
    if (step.top < box.top || step.bottom > box.bottom || step.left < box.left || step.right > box.right
      || number.left < box.left) unseen.push(k);
  }
  const clicked = all("#edge text").map((e) => { e.dispatchEvent(new Event("click")); return Number(slider.value); });
  const text = (id) => document.getElementById(id).textContent, search = document.getElementById("search");
  const shown = { states: seen, title: text("title"), scripts: document.scripts.length,
    images: document.images.length, broken: window.broken === undefined ? 0 : 1, hidden: search.hidden,
    beside: beside, unseen: unseen, clicked: clicked, keys: keys, wide: wide, opened: opened, summary: text("summary"),
    why: all("#why p").map((p) => p.textContent), links: all("#why a").map((a) => [a.textContent, a.hash]),
    rows: all("#lanes .step").map((e) => e.id), command: text("command"), waits: document.getElementById("waits").hidden, nodes: all("#graph .node").map((e) => e.textContent),
    edges: all("#graph .edge").length, circles: all("#graph .edge.circle").length, label: all("#graph svg").map((e) =>
    e.getAttribute("aria-label")), marks: all("#lanes .cause").map((e) => e.id), failed: all("#lanes .failed").length,
    numbers: all("#source .number").map((e) => [e.textContent, e.title]),
    place: text("place"), labels: all("#lanes .label").map((e) => e.textContent),
    counts: text("counts"), ends: [...search.querySelectorAll("tr")].map((tr) =>
      [...tr.children].map((td) => td.textContent)) };
  const out = document.createElement("pre");
  out.id = "seen"; out.textContent = JSON.stringify(shown);
  document.body.replaceChildren(out);
});
</script></body>"""


def opening_state(text):
    """The objects of a guest text before the first step."""
    text = re.sub(r"#.*", "", text)
    found = {"Variables": {}, "Mutexes": {}, "Conditions": {}, "Semaphores": {}}
    for kind, name, value in re.findall(r"\b(var|mutex|cond|sem)\s+(\w+)\s*(?:=\s*(-?\d+))?\s*;", text):
        title = {"var": "Variables", "mutex": "Mutexes", "cond": "Conditions", "sem": "Semaphores"}[kind]
        found[title][name] = {"var": int(value or 0), "mutex": None, "cond": [], "sem": int(value or 0)}[kind]
    return found


def take(state, words):
    """A step of the trace: its words without its number."""
    name, act, thing, rest = words[0], words[1], words[2], words[3:]
    stopped = "stop" in rest and "assert" not in rest
    if act in ("lock", "retake"):
        state["Mutexes"][thing] = name
    elif act == "unlock" and not stopped:
        state["Mutexes"][thing] = None
    elif act == "wait" and not stopped:
        state["Mutexes"][rest[0]] = None
        state["Conditions"][thing].append(name)
    elif act == "signal":
        del state["Conditions"][thing][:1]
    elif act == "broadcast":
        state["Conditions"][thing].clear()
    elif act in ("acquire", "release") and not stopped:
        state["Semaphores"][thing] += 1 if act == "release" else -1
    elif act == "store":
        state["Variables"][thing] = int(rest[0])
    elif act == "add":
        state["Variables"][thing] = int(rest[1])
    elif act == "cas" and rest[1] == "hit":
        state["Variables"][thing] = int(rest[2])


def shown(state):
    """A state in the words of the page."""
    words = {"Variables": str, "Semaphores": str, "Mutexes": lambda owner: owner or "free",
             "Conditions": lambda queue: ", ".join(queue) or "nobody waits"}
    return {title: {name: words[title](value) for name, value in objects.items()}
            for title, objects in state.items() if objects}


def states(path, trace):
    """What the trace gives after each number of steps."""
    state = opening_state(path.read_text())
    found = [shown(state)]
    for line in trace:
        if re.match(r"\d", line):
            take(state, line.split()[1:])
            found.append(shown(state))
    return found


def ends_of(report, path, trace):
    """The rows of the ends of a search, the one of this trace marked, and its counts in words."""
    last = dict(line.split(" ", 1) for line in trace if line.startswith(("kind ", "vars ")))
    own = [last.get("kind")] + [word.split("=")[1] for word in last.get("vars", "").split()]
    rows = [["ends", *opening_state(path.read_text())["Variables"]]]
    for end in report["ends"]:
        row = [end["kind"], *map(str, end["vars"])]
        rows.append(row + ["this schedule"] * (row == own))
    within = "" if report["bound"] is None else " with at most " + few(report["bound"], "preemption")
    once = ", equal threads once" if "symmetry" in report else ""
    return rows, "%s%s tried%s: %d failed, %d stuck." % (few(report["tried"], "schedule"), within, once,
                                                         report["failed"], report["stuck"])


few = lambda count, thing: "%d %s%s" % (count, thing, "" if count == 1 else "s")


def ending(trace):
    """How the schedule ends, in the words of the text, and after how many steps the page opens: of a failure what was up to it."""
    steps = [line.split() for line in trace if re.match(r"\d", line)]
    kind = next(line.split()[1] for line in trace if line.startswith("kind "))
    early = any(line.startswith("start ") for line in trace)
    stop = 0 if early else next((at + 1 for at, words in enumerate(steps) if "stop" in words), None)
    ran = len(steps) if stop is None else stop
    kind = "FAILED" if stop is not None else "NOT COMPLETE" if kind == "none" else kind.upper()
    preemptions = sum("preempt" in words for words in steps[:ran])
    return kind, "after %s with %s." % (few(ran, "step"), few(preemptions, "preemption")), ran


def words_of(path, text):
    """The summary and the paragraphs that a page has of a text: all but its table, the name of the file and the command."""
    head, *parts = [part for part in text.split("\n\n") if not part.startswith("step line")]
    head, *lines = "\n".join([head, *parts]).rstrip("\n").split("\n")[:-1]
    from_file = re.match(r"(.*?)(?::(\d+))?: (?=[A-Z]{3})", head)
    summary = head[from_file.end():]
    if from_file[2]:
        place = "line " + from_file[2] if from_file[1] == str(path) else "%s:%s" % from_file.groups()
        summary = summary.replace("FAILED", "FAILED in " + place, 1)
    kept = [line.strip() for line in lines if line and "steps are shown; --all" not in line]
    return [re.sub("  +", "\u2003", line) for line in (summary, *kept)]


def links(told, rows, paragraphs):
    """The steps and threads that paragraphs name, with the rows to which they lead: the step's, or the thread's last one."""
    names = [thread["name"] for thread in told["opening"]["threads"]]
    for found in re.finditer(r"\bstep (\d+)|\b(%s)\b" % "|".join(names), "\n".join(paragraphs)):
        own = [k for k in rows if (k == int(found[1]) if found[1] else told["steps"][k]["name"] == found[2])]
        yield from [[found[0], "#step%d" % own[-1]]] if own else []


def beside(told):
    """The threads beside the lines of the source, at the start and after each step, by line and column."""
    text = told["source"].split("\n")
    at = [thread["next"] for thread in told["opening"]["threads"]]
    names = [thread["name"] for thread in told["opening"]["threads"]]
    found = []
    for step in [None, *told["steps"]]:
        if step is not None:
            at[step["thread"]] = step["next"]
        places = [(place["line"], place["column"], place["end"], name) for place, name in zip(at, names) if place]
        found.append([[name, line, text[line - 1][column - 1:end["column"] - 1 if end["line"] == line else None]]
                      for line, column, end, name in sorted(places, key=lambda place: place[:2])])
    return found


def numbers(told):
    """The numbers of the lines of the source, with the files and lines that they come from."""
    marks, here = {mark["at"]: mark for mark in told.get("marks", [])}, None
    for at in range(1, told["source"].count("\n") + 2):
        here = marks.get(at) or here and {"file": here["file"], "line": here["line"] + 1}
        yield [str(here["line"]), "%(file)s:%(line)d" % here] if here else [str(at), ""]


def place(told, rows, labels):
    """What is said of the chosen step, the last one with a row: whose it is, where it is, and what its row says."""
    if not rows:
        return "at the start"
    step = told["steps"][rows[-1]]
    at = " (%(file)s:%(line)d)" % step["from"] if "from" in step else ""
    at += "".join(", turn %(turn)d of %(of)d" % one for one in step.get("turns", []))
    return "after step %d of 0 to %d: %s%s %s" % (
        step["step"], len(told["steps"]) - 1, step["name"], at and at + ":", labels[-1])


def graph(told):
    """Who waits for whom at the end: the names that are there, the edges, and those of a circle."""
    waits = {thread["name"]: (thread["waits"] or {}).get("on", []) for thread in told["threads"]}
    edges = [(name, other) for name, on in waits.items() for other in on]
    blocked = {thread["name"] for thread in told["threads"] if thread["waits"]}
    status = {thread["name"]: thread["status"] for thread in told["threads"]}
    there = [name for name in waits if any(name in edge for edge in edges)]
    red = [edge for edge in edges if any(set(edge) <= set(circle) for circle in told["circles"])]
    objects = {thread["name"]: (thread["waits"] or {}).get("object") for thread in told["threads"]}
    label = ["; ".join("%s waits for %s and %s" % (a, objects[a], b) for a, b in edges)] if edges else []
    return {"waits": not edges, "edges": len(edges), "circles": len(red), "label": label,
            "nodes": [name if name in blocked else "%s (%s)" % (name, status[name]) for name in there]}


def seen(browser, page, tester):
    """What the page shows, at each step and beside, and the errors of its console."""
    file = tester.write("page.html", page.replace("</body>", WALK))
    done = run([browser, "--headless", "--no-sandbox", "--disable-gpu", "--enable-logging=stderr", "--window-size=390,844",
                "--user-data-dir=%s" % (tester.folder / ("profile%d" % tester.passed)), "--virtual-time-budget=10000", "--dump-dom", file.as_uri()],
               seconds=tester.seconds)
    found = re.search(r'<pre id="seen">(.*?)</pre>', done.out, re.S)
    errors = [line for line in done.err.split("\n") if "CONSOLE" in line]
    return json.loads(html.unescape(found.group(1))) if found else None, errors


def faults(tester, browser, path, search):
    """What is wrong with the page of a guest, which a search of this kind explains where one is bad."""
    command = {"explore": [], "unbounded": ["--unbounded"]}[search]
    once = ["--symmetry"] if has_equal_threads(Guest(path.read_text())) else []
    report = json.loads(tester.run(search, path, *once).out)
    schedule = report.get("schedule")
    words = command if schedule else ["-"]
    page, text = (tester.run("explain", path, *words, *form).out for form in (["--html"], ["--width", "1000"]))
    told = json.loads(re.search(r'<script type="application/json" id="data">(.*?)</script>', page, re.S).group(1))
    got, errors = seen(browser, page, tester)
    trace = tester.run("replay", path, schedule or "-").out.split("\n")
    kinds = {"Variables", "Mutexes", "Conditions", "Semaphores"}
    if errors or got is None:
        return ["its console has an error", errors]
    shown_states = [{title: dict(rows) for title, rows in blocks if title in kinds} for blocks in got.pop("states")]
    rows, counts = ends_of(report, path, trace) if schedule else ([], "")
    marks = sum("this schedule" in row for row in rows)
    kind, counts_told, ran = ending(trace)
    shown_steps = [step["step"] for step in told["steps"] if step["step"] < ran or step["cause"]]
    places, last = [0, *(k + 1 for k in shown_steps)], len(shown_steps)
    line, *paragraphs = words_of(path, text)
    command = text.rstrip("\n").split("\n")[-1].removeprefix("Replay: ")
    want = {"title": str(path), "scripts": 3, "images": 0, "broken": 0, "hidden": not schedule, "counts": counts,
            "ends": rows, "beside": [beside(told)[k] for k in places], "unseen": [],
            "clicked": list(range(1, last + 1)), "wide": 0, "summary": line,
            "opened": last if ran == len(told["steps"]) else ran, "why": paragraphs, "command": command,
            "links": list(links(told, shown_steps, paragraphs)), **graph(told), "numbers": list(numbers(told)),
            "place": place(told, shown_steps, got.pop("labels")),
            "keys": {"End": last, "ArrowRight": last, "Home": 0, "ArrowLeft": 0, "ArrowDown": min(1, last), "ArrowUp": 0},
            "marks": ["step%d" % step["step"] for step in told["steps"] if step.get("cause")],
            "rows": ["step%d" % k for k in shown_steps],
            "failed": sum(told["steps"][k]["stop"] is not None for k in shown_steps)}
    want_states = [states(path, trace)[k] for k in places]
    if not line.startswith(kind) or counts_told not in line:
        return ["the text tells another ending than the trace", line, kind, counts_told]
    if shown_states != want_states or got != want or marks != bool(schedule):
        return ["the page and the trace, the JSON or the report differ",
                *("%s: %r, not %r" % (key, got[key], want[key]) for key in want if got.get(key) != want[key]),
                *([] if shown_states == want_states else [shown_states, want_states])]
    return []


class Pages(Tester):
    seconds = 120
    texts = {**GUESTS, **{name: (ROOT / "tests/explain" / file).read_text() for name, file in (
        (MARKUP, "names.guest"), ("late_rows.guest", "late_rows.guest"))}}

    def test(self):
        browser = next(filter(None, map(shutil.which, BROWSERS)), None)
        if browser is None:
            print("no browser: the page was not opened")
            raise SystemExit(0)
        for path in [*guests("examples"), *sorted(self.folder.glob("*.guest"))]:
            for search in ("explore", "unbounded"):
                found = faults(self, browser, path, search)
                self.expect("%s, %s:" % (path.name, search), not found, *found)


if __name__ == "__main__":
    Pages.main()
