#!/usr/bin/env python3
"""Compares what is said of wrong bodies, and what docs/PROOFS.md names, with what is there.

Usage: tests/edits.py [--list]

Each edit in a crate's must-fail/ has a line `# says: ` on what it does, and a line `# by: ` on the clause that
refuses it. tests/wrong_bodies.txt has the wrong bodies that tests refuse, and the mistakes that are easy to make.
This fails where an edit has no such line or can't be applied; where a row names nothing, or a test, an edit, a
function or a clause that isn't there; where a table of the document names a definition, a function or a clause that
the crates of its heading and its row haven't; where a name of tests/surface.txt, on which others build, is gone; and
where docs/ARCHITECTURE.md leaves a file of definitions out. With --list it prints all wrong bodies as tables.
"""
import functools
import re
import sys

from program import ROOT

BOTH = "By a clause, and by a test"
ALONE = "By a test alone"
ROWS = "tests/rows.txt"
# What a file of definitions or lemmas begins a line with: those, and the fields of records.
DEFINED = re.compile(r"^ *(?:pub )?(?:abbrev |record |data )?(?:pub )?([\w-]+)", re.M)
# What a crate declares: its functions, types and traits, and its named clauses.
DECLARED = re.compile(r"\b(?:fn|struct|enum|trait|ensures|ghost)\s+(\w+)")


def edits():
    """Each edit by its crate and its name, as `CRATE/EDIT`."""
    return {"%s/%s" % (edit.parent.parent.name, edit.stem): edit
            for edit in sorted(ROOT.glob("crates/*/must-fail/*.edit"))}


def remark(edit, label):
    """What an edit's line `# LABEL: ` says, or nothing."""
    found = re.search(r"^# %s: (\S.*)$" % label, edit.read_text(encoding="utf-8"), re.M)
    return found[1] if found else ""


def rows():
    """The rows of tests/wrong_bodies.txt by their kind: what is done, the clause that refuses it, what else does."""
    found, kind = {}, None
    for line in (ROOT / "tests/wrong_bodies.txt").read_text(encoding="utf-8").split("\n"):
        if line.startswith("== "):
            kind = found.setdefault(line[3:], [])
        elif line and not line.startswith("#"):
            kind.append((line.split(" | ") + ["", ""])[:3])
    return found


def words(cell):
    """What stands in a cell between backquotes."""
    return re.findall(r"`([^`]+)`", cell)


@functools.lru_cache(maxsize=None)
def declared(crate):
    """The names that the sources of a crate declare."""
    return {name for file in ROOT.glob("crates/%s/src/**/*.rt" % crate)
            for name in DECLARED.findall(file.read_text(encoding="utf-8"))}


def unknown(crate, cell):
    """What a cell names between backquotes that the crate doesn't declare."""
    names = declared(crate)
    return [word for word in words(cell) if not all(part in names for part in re.findall(r"\w+", word))]


def applied(edit):
    """Why an edit can't be applied to its crate, or None."""
    texts, path, old, pairs = {}, None, None, 0
    for line in edit.read_text(encoding="utf-8").split("\n"):
        label, _, text = line.partition(": ")
        if label == "file":
            path = edit.parent.parent / text.strip()
            if not path.is_file():
                return "there is no file " + text
            texts.setdefault(path, path.read_text(encoding="utf-8"))
        elif label == "old":
            old = text
        elif line.startswith("new:"):
            if path is None or not old:
                return "a `new:` without `file:` and `old:` before it"
            if texts[path].count(old) != 1:
                return "`%s` is in its file %d times" % (old.strip(), texts[path].count(old))
            new = line[5:] if line.startswith("new: ") else line[4:]
            texts[path] = texts[path].replace(old, new)
            old, pairs = None, pairs + 1
    return None if pairs else "it changes nothing"


def edit_faults():
    """What is wrong with the edits and with what they say."""
    for name, edit in edits().items():
        for label in ("says", "by"):
            if not remark(edit, label):
                yield "%s: it has no line `# %s: `" % (name, label)
        for word in unknown(name.split("/")[0], remark(edit, "by")):
            yield "%s: it names `%s`, which its crate hasn't" % (name, word)
        fault = applied(edit)
        if fault:
            yield name + ": " + fault


def has_test(place, name):
    """Whether a crate or a script has a test of this name."""
    if place.startswith("tests/"):
        form, files = r"^ *def %s\(|^%s = ", [ROOT / place]
    else:
        form, files = r"#\[test\][^{}]*?\bfn %s\(", ROOT.glob("crates/%s/src/**/*.rt" % place)
    form = form.replace("%s", re.escape(name))
    return any(re.search(form, file.read_text(encoding="utf-8"), re.M) for file in files if file.is_file())


def named(cell):
    """What a row names: pairs of a place and a test of it, or of nothing and an edit or the worked rows."""
    for part in filter(None, cell.split("; ")):
        place, parted, names = part.partition(": ")
        for name in names.split(", ") if parted else [part]:
            yield place if parted else "", name


def row_faults(found):
    """Which rows name nothing, or what isn't there; tests alone may be named where a test is said to refuse it."""
    known = edits()
    for kind, lines in found.items():
        for what, clause, by in lines:
            if not list(named(by)):
                yield "%s: a row that names nothing" % what
            for place, name in named(by):
                is_edit = name in known and kind not in (BOTH, ALONE)
                if not (has_test(place, name) if place else name == ROWS or is_edit):
                    yield "%s: it names `%s`, which isn't there" % (what, ": ".join(filter(None, (place, name))))
            if kind == BOTH and not clause or kind == ALONE and clause:
                yield "%s: its clause is missing, or isn't wanted" % what
            crate, _, cell = clause.partition(": ")
            for word in unknown(crate, cell) or ([] if words(cell) or not clause else [clause]):
                yield "%s: it names `%s`, which %s hasn't" % (what, word, crate)


@functools.lru_cache(maxsize=None)
def defined(file):
    """What a file of definitions or lemmas has."""
    return set(DEFINED.findall(file.read_text(encoding="utf-8"))) if file.is_file() else set()


@functools.lru_cache(maxsize=None)
def has(crate):
    """All that a crate declares or defines."""
    return declared(crate).union(*map(defined, ROOT.glob("crates/%s/specs/**/*.antt" % crate)))


def is_there(word, crates):
    """Whether one of the crates has this `Type::function`, `File.Definition` or file of definitions."""
    file, _, name = word.rpartition(".")
    if file:
        files = [ROOT / "crates" / crate / "specs" / (word if name == "antt" else file + ".antt") for crate in crates]
        return any(it.is_file() and (name == "antt" or name in defined(it)) for it in files)
    names = set().union(*map(has, crates))
    return all(part in names for part in re.findall(r"\w+", word))


def table_faults(text):
    """Which of the definitions, functions and clauses in the tables aren't there."""
    every = {folder.name for folder in ROOT.glob("crates/*")}
    owners = set()
    for line in text.split("\n"):
        if line.startswith("## "):
            owners = every & set(words(line))
        elif line.startswith("|"):
            # The first cell of three is the promise.
            cells = re.sub(r"the kit's `\w+`", "", line).strip("|").split("|")
            crates = owners | every & set(words(" ".join(cells))) if owners else every
            for at, cell in enumerate(cells[1:] if len(cells) == 3 else cells):
                for word in words(cell):
                    if word not in every and not is_there(word, crates if at < 2 else every):
                        yield "docs/PROOFS.md names `%s`, which isn't there: %s" % (word, line[:60])


def surface_faults():
    """Which of the names that others build on their crates don't declare any more."""
    for line in (ROOT / "tests/surface.txt").read_text(encoding="utf-8").split("\n"):
        crate, parted, names = line.partition(": ")
        if parted and not line.startswith("#"):
            for name in set(names.split()) - declared(crate):
                yield "%s of %s isn't there: others build on it" % (name, crate)


def unlisted():
    """Which files of definitions docs/ARCHITECTURE.md leaves out, which says that it lists them all."""
    text = (ROOT / "docs/ARCHITECTURE.md").read_text(encoding="utf-8")
    rows = {words(line)[0]: words(line)[1:] for line in text.split("\n") if line.startswith("| `")}
    for file in ROOT.glob("crates/*/specs/[A-Z]*.antt"):
        crate = file.parent.parent.name
        if file.stem != "Lib" and file.stem not in rows.get(crate, []):
            yield "%s of %s: docs/ARCHITECTURE.md doesn't list these definitions" % (file.stem, crate)


def listed(found):
    """All as tables: the edits by crate, and then each kind of row."""
    crate = None
    for name, edit in edits().items():
        if name.split("/")[0] != crate:
            crate = name.split("/")[0]
            yield "\n## %s\n\n| Edit | What it does | Refused by |\n|---|---|---|" % crate
        yield "| %s | %s | %s |" % (edit.stem, remark(edit, "says"), remark(edit, "by"))
    for kind, lines in found.items():
        yield "\n## %s\n\n| What is done | Refused by the clause | And by |\n|---|---|---|" % kind
        yield from ("| %s | %s | %s |" % tuple(line) for line in lines)


def main():
    found = rows()
    if sys.argv[1:] == ["--list"]:
        print("\n".join(listed(found)).strip())
        return 0
    by_tests = sum(len(found.get(kind, [])) for kind in (BOTH, ALONE))
    mistakes = sum(map(len, found.values())) - by_tests
    text = (ROOT / "docs/PROOFS.md").read_text(encoding="utf-8")
    faults = [*edit_faults(), *row_faults(found), *table_faults(text), *surface_faults(), *unlisted()]
    for fault in faults:
        print(fault)
    print("%d edits, %d wrong bodies that a test refuses and %d mistakes: all that they and the documents name is there"
          % (len(edits()), by_tests, mistakes) if not faults else "not all that is named is there")
    return 1 if faults or not edits() or not by_tests or not mistakes else 0


if __name__ == "__main__":
    sys.exit(main())
