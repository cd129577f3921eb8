#!/usr/bin/env python3
"""Runs every command that the documents, the examples and the worked rows show, and compares what it prints.

Usage: tests/docs.py BINARY
       tests/docs.py --unproved

With --unproved the program is built without proofs, and checks each access to memory as it runs.

In README.md and docs/*.md, fenced blocks are read by their first line:

    ```guest NAME    a program, the only one of this name; the commands below it find it as the file NAME
    ```console       commands `$ ctxbound ..`, each followed by the lines that it prints:
                     standard output, then standard error, then `[status N]` unless N is 0;
                     empty lines before the next command don't count

In examples/*.guest the same stands in comments; there, a line that is no comment, or an empty
one, ends what a command prints. `build/ctxbound` means the same as `ctxbound`, and every command
finds the folder `examples`. `cpp NAME | ctxbound .. -`, or `cpp -P NAME | ..`, reads what the C preprocessor
makes of a program; where there is no `cpp`, such commands are passed over. It fails where an output or a status differs, where a program is
shown that no command runs, and where nothing was run at all.

In tests/rows.txt a line `guest: TEXT` is a program that ends where its line does, and the commands below it
find it as the file FILE. There, standard error must have the lines that begin with `ctxbound: `, and
standard output all others.

Each search that is shown is made again by several workers, and must print the same.
"""
import re
import shlex
import shutil
import subprocess
import sys
import tempfile
from concurrent.futures import ThreadPoolExecutor
from pathlib import Path

from program import EXAMPLES, ROOT, build_unproved, guests, run

WORKERS = (2, 8)
# What such a search prints may depend on the workers, or says how many they are.
DEPENDS = {"--limit", "--quick", "--workers"}
ROWS = ROOT / "tests/rows.txt"


def fenced_blocks(text):
    """Each fenced block as (number of its first line, language, name, lines)."""
    block = None
    for number, line in enumerate(text.split("\n"), 1):
        if block is None and line.startswith("```"):
            language, name = (line[3:].split() + ["", ""])[:2]
            block = (number, language, name, [])
        elif block is not None and line.rstrip() == "```":
            yield block
            block = None
        elif line.strip().startswith("```"):
            raise ValueError("line %d: a fence in a place where this script can't read it" % number)
        elif block is not None:
            block[3].append(line)
    if block is not None:
        raise ValueError("line %d: a block without an end" % block[0])


def commands(lines, number):
    """Each command of a console block as (number of its line, command, lines printed)."""
    found = []
    for number, line in enumerate(lines, number + 1):
        if line.startswith("$ "):
            found.append((number, line[2:], []))
        elif found:
            found[-1][2].append(line)
        elif line:
            raise ValueError("line %d: output without a command" % number)
    for _, _, printed in found:
        while printed and not printed[-1]:
            printed.pop()
    return found


def commented_commands(text):
    """The commands in the comments of an example, in the form of `commands`."""
    lines, printing = [], False
    for line in text.split("\n"):
        printing = line.startswith("# $ ") or printing and line.startswith("# ")
        lines.append(line[2:] if printing else "")
    return commands(lines, 0)


def row_blocks(text):
    """Each program of the worked rows, with the number of its line and the lines below it."""
    found = []
    for number, line in enumerate(text.split("\n"), 1):
        if line.startswith("guest:"):
            found.append((number, line[len("guest: "):], []))
        elif found:
            found[-1][2].append(line)
    return found


def lines_of(asked, out, err, status):
    """What a command prints, as the documents write it: lines, and a status unless 0."""
    lines = (out + err).split("\n")
    if lines.pop():
        return lines + ["(the last line doesn't end)"]
    told, tells = ([line.startswith("ctxbound: ") for line in stream.splitlines()] for stream in (out, err))
    if asked.is_row and (any(told) or not all(tells)):
        return lines + ["(a line is on the other stream)"]
    return lines + ["[status %d]" % status] if status else lines


def written(folder, programs):
    """A folder with these programs."""
    for name, text in programs.items():
        (Path(folder) / name).write_text(text, encoding="utf-8")
    return Path(folder)


def preprocessed(words, programs):
    """What the C preprocessor makes of a program, which may include others."""
    with tempfile.TemporaryDirectory() as folder:
        return run(["cpp", *words], cwd=written(folder, programs)).out


def included(text):
    """The programs that a program includes."""
    return re.findall(r'^#include "(.*)"$', text, re.M)


def printed_by(binary, asked):
    """What a command prints, run by the program; one that takes a minute counts as failed."""
    with tempfile.TemporaryDirectory() as folder:
        (written(folder, asked.programs) / "examples").symlink_to(EXAMPLES)
        try:
            return lines_of(asked, *run([binary, *asked.words], asked.programs.get("-", ""), cwd=folder))
        except subprocess.TimeoutExpired as late:
            return ["(no end within %d seconds)" % late.timeout]


def by_workers(words):
    """The same search by several workers, if this is a search whose output is theirs, too."""
    if words[:1] not in (["explore"], ["unbounded"]) or DEPENDS.intersection(words):
        return []
    return [words + ["--workers", str(workers)] for workers in WORKERS]


class Asked:
    """A command that is shown: where, its words, what it prints, the programs that it finds, and whether it is a
    worked row."""

    def __init__(self, place, words, expected, programs, is_row):
        self.place, self.words, self.expected = place, words, expected
        self.programs, self.is_row = programs, is_row


class Reader:
    """Reads the documents: the commands that they show, and what is wrong in them."""

    def __init__(self):
        self.asked, self.faults, self.shown = [], [], {}

    def take(self, path, shown, programs):
        """The words of a command, which is put to the others."""
        number, command, expected = shown
        place = "%s:%d: $ %s" % (path.name, number, command)
        program, *words = shlex.split(command) or [""]
        if program == "cpp" and "|" in words:
            bar = words.index("|")
            source, program, words = words[:bar], words[bar + 1], words[bar + 2:]
            if shutil.which("cpp") is None:
                return words
            programs = {**programs, "-": preprocessed(source, programs)}
        if program not in ("ctxbound", "build/ctxbound"):
            self.faults.append(place + "\n    not a command of ctxbound: it belongs in another kind of block")
            return words
        for asked in [words] + by_workers(words):
            self.asked.append(Asked("%s%s" % (place, "" if asked == words else " --workers " + asked[-1]),
                                    asked, expected, programs, path == ROWS))
        return words

    def document(self, path):
        programs, unused = {}, {}
        for number, language, name, lines in fenced_blocks(path.read_text(encoding="utf-8")):
            if language == "guest":
                if not name or "/" in name:
                    raise ValueError("line %d: a program needs a file name" % number)
                programs = {**programs, name: "".join(line + "\n" for line in lines)}
                if self.shown.setdefault(name, programs[name]) != programs[name]:
                    raise ValueError("line %d: another program has the name %s" % (number, name))
                unused[name] = number
            elif language == "console":
                for shown in commands(lines, number):
                    self.take(path, shown, programs)
                    for word in shlex.split(shown[1]):
                        for name in [word, *included(programs.get(word, ""))]:
                            unused.pop(name, None)
        for name, number in unused.items():
            self.faults.append("%s:%d\n    no command runs the program %s" % (path.name, number, name))

    def example(self, path):
        words = []
        for shown in commented_commands(path.read_text(encoding="utf-8")):
            words += self.take(path, shown, {})
        if "examples/" + path.name not in words:
            self.faults.append(path.name + "\n    no command runs this example")

    def rows(self, path):
        for number, text, lines in row_blocks(path.read_text(encoding="utf-8")):
            for shown in commands(lines, number):
                self.take(path, shown, {"FILE": text})

    def read(self):
        documents = [ROOT / "README.md"] + sorted((ROOT / "docs").glob("*.md"))
        work = [(self.document, path) for path in documents if path.exists()]
        work += [(self.example, path) for path in guests("examples")] + [(self.rows, ROWS)]
        for take_in, path in work:
            try:
                take_in(path)
            except ValueError as fault:
                self.faults.append("%s\n    %s" % (path.name, fault))
        run = {word for asked in self.asked for word in asked.words}
        self.faults += ["examples/real/%s\n    no document runs this example" % path.name
                        for path in guests("examples/real")
                        if "examples/real/" + path.name not in run]


def main():
    is_unproved = sys.argv[1:] == ["--unproved"]
    if not is_unproved and (len(sys.argv) != 2 or not Path(sys.argv[1]).is_file()):
        raise SystemExit("usage: tests/docs.py BINARY, or tests/docs.py --unproved")
    reader = Reader()
    reader.read()
    with tempfile.TemporaryDirectory() as folder, ThreadPoolExecutor() as pool:
        binary = build_unproved(Path(folder)) if is_unproved else Path(sys.argv[1]).resolve()
        answers = list(pool.map(lambda asked: printed_by(binary, asked), reader.asked))
    faults, passed = reader.faults, 0
    for asked, printed in zip(reader.asked, answers):
        if printed == asked.expected:
            passed += 1
        else:
            faults.append("\n    ".join([asked.place, "-- shown:"] + asked.expected + ["-- printed:"] + printed))
    for fault in faults:
        print(fault)
    print("%d passed, %d failed" % (passed, len(faults)))
    raise SystemExit(1 if faults or not passed else 0)


if __name__ == "__main__":
    main()
