#!/usr/bin/env python3
"""Compares the lines of each crate with those that tests/budget.txt lets it have, and fails where one has more, where
a crate isn't in the list, and where a crate of the list is gone.

Usage: tests/budget.py [--times | --write]

With --times it prints the seconds of each crate's last check beside the share of the list: from the first to the last file that
the check wrote, so after a check with nothing kept (`rm -rf crates/*/out`, then `taskset -c 0 rt all check` on a quiet machine). With
--write it writes the list anew, with the lines as they are now; a crate keeps its share of the seconds unless such a check left
its files.
"""
import sys

from program import ROOT

LIST = ROOT / "tests/budget.txt"
KINDS = {"src": "*.rt", "specs": "*.antt", "proofs": "*.antt"}
HEAD = """\
# What each crate may have: lines of src, specs and proofs; and of each 1,000 seconds that a check of all crates from nothing
# takes, by one job on a quiet machine, those for this one. `tests/budget.py` compares; CONTRIBUTING.md says who raises a line.
# %-20s%6s%7s%8s%9s
""" % ("crate", *KINDS, "seconds")


def crates():
    """The crates of crates.txt."""
    lines = (line.partition("#")[0] for line in (ROOT / "crates.txt").read_text(encoding="utf-8").split("\n"))
    return sorted(line.split(":")[0].split()[0] for line in lines if ":" in line)


def lines_of(crate):
    """Its lines, by kind."""
    return {kind: sum(len(file.read_bytes().splitlines()) for file in (ROOT / "crates" / crate / kind).rglob(form))
            for kind, form in KINDS.items()}


def budget():
    """The lines that each crate may have, by kind, and its share of the seconds."""
    rows = [line.split() for line in LIST.read_text(encoding="utf-8").split("\n") if line and not line.startswith("#")]
    return {crate: (dict(zip(KINDS, map(int, lines))), float(share)) for crate, *lines, share in rows}


def seconds():
    """How long the last check of each crate took, of those whose files are there."""
    found = {}
    for crate in crates():
        times = [file.stat().st_mtime for file in (ROOT / "crates" / crate / "out/incremental").rglob("*.oantt")
                 if "records" in file.parent.name]
        if times:
            found[crate] = max(times) - min(times)
    return found


def to_seconds(listed, taken):
    """How many seconds of this machine one of the list is, by the crates that both have."""
    both = listed.keys() & taken.keys()
    share = sum(listed[crate][1] for crate in both)
    return sum(taken[crate] for crate in both) / share if share else 1


def faults(listed):
    for crate in sorted(listed.keys() ^ set(crates())):
        yield "%s isn't in %s" % (crate, "crates.txt" if crate in listed else "tests/budget.txt")
    for crate, (most, _) in listed.items():
        for kind, count in lines_of(crate).items():
            if count > most[kind]:
                yield "%s has %d lines of %s, and %d in tests/budget.txt" % (crate, count, kind, most[kind])


def compare(listed):
    found = list(faults(listed))
    for fault in found:
        print(fault)
    print("%d crates, %s: %s" % (len(listed), ", ".join(
        "%d lines of %s" % (sum(most[kind] for most, _ in listed.values()), kind) for kind in KINDS),
        "some have more, or are missing" if found else "none has more"))
    return 1 if found or not listed else 0


def times(listed):
    taken = seconds()
    unit = to_seconds(listed, taken)
    for crate, now in sorted(taken.items(), key=lambda row: -row[1]):
        print("%-22s%6.0f s%8.0f s in the list" % (crate, now, listed[crate][1] * unit if crate in listed else 0))
    print("%-22s%6.0f s, in %d of %d crates" % ("all", sum(taken.values()), len(taken), len(crates())))
    return 0 if taken else 1


def write(listed):
    taken = seconds()
    unit = to_seconds(listed, taken)
    spent = {crate: taken.get(crate, listed[crate][1] * unit if crate in listed else 0) for crate in crates()}
    rows = ["  %-20s%6d%7d%8d%9.1f\n" % (crate, *lines_of(crate).values(), 1000 * spent[crate] / (sum(spent.values()) or 1))
            for crate in crates()]
    LIST.write_text(HEAD + "".join(rows), encoding="utf-8")
    return 0


def main():
    asked = {(): compare, ("--times",): times, ("--write",): write}.get(tuple(sys.argv[1:]))
    if asked is None:
        raise SystemExit(__doc__)
    return asked(budget() if LIST.exists() else {})


if __name__ == "__main__":
    sys.exit(main())
