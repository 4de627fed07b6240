#!/usr/bin/env python3
"""Says which must-fail edits no longer fit the files that they change.

usage: python3 tools/edits_fit.py [CRATE..]

Looks at the edits that the gate tries (crates/CRATE/must-fail/*.edit) and at those that edits/run tries besides
(edits/CRATE/*.edit), of all crates or of the named ones. Each `old:` text must stand exactly once in the `file:` above it,
after the pairs before it. Each one that does not is printed, with how often it stands there, and the status is then 1.
It proves nothing: whether an edit reads, and is refused, `rt must-fail` says.
"""

import os
import sys

TOP = os.path.dirname(os.path.dirname(os.path.realpath(__file__)))
CRATES = os.path.join(TOP, "crates")


def edits(crate):
    """The paths of a crate's edits, the gate's first."""
    for folder in (os.path.join(CRATES, crate, "must-fail"), os.path.join(TOP, "edits", crate)):
        if os.path.isdir(folder):
            yield from (os.path.join(folder, name) for name in sorted(os.listdir(folder)) if name.endswith(".edit"))


def read(path):
    with open(path, encoding="utf-8") as file:
        return file.read()


def faults(crate, edit):
    """What keeps an edit from being applied. A pair that does not fit is left out for those below it."""
    texts = {}
    name = old = None
    pairs = 0
    for line in read(edit).splitlines():
        kind, _, text = line.partition(": ")
        if kind == "file":
            name = text
            path = os.path.join(CRATES, crate, name)
            if not os.path.isfile(path):
                yield f"{name} is not there"
                return
            texts.setdefault(name, read(path))
        elif kind == "old":
            old = text
        elif line == "new:" or kind == "new":
            if name is None or old is None:
                yield f"no file or no old text for: {line}"
                return
            pairs += 1
            times = texts[name].count(old)
            if times != 1:
                yield f"{name} has it {times} times: {old}"
            elif old == text:
                yield f"{name} is left as it is: {old}"
            else:
                texts[name] = texts[name].replace(old, text)
            old = None
        elif line.strip() and not line.startswith("#"):
            yield f"not a line of an edit: {line}"
    if old is not None or not pairs:
        yield "no new text"


def main():
    wrong = count = 0
    for crate in sys.argv[1:] or sorted(os.listdir(CRATES)):
        for edit in edits(crate):
            count += 1
            said = list(faults(crate, edit))
            wrong += bool(said)
            for line in said:
                print(f"{os.path.relpath(edit, TOP)}: {line}")
    print(f"{count} edits, {wrong} do not fit")
    sys.exit(1 if wrong else 0)


main()
