#!/usr/bin/env python3
"""Spells this repository's own definitions, lemmas and fields in snake case, and its types in camel case, as today's Rattle does.

usage: python3 tools/snake_case.py [--list]      at the top, once, after port.py; --list only prints what it would rename

A name is the repository's own where a file of specs/ or proofs/ writes it and no file imports it from a library.
Contracts, edits and the names that stand between backquotes in the pages follow. Names that Rattle makes for a
function's proof are left: they stand in the proof's own folder alone. Strings and the code of src/ stay as they are.
"""

import os
import re
import sys

TOP = os.path.dirname(os.path.dirname(os.path.realpath(__file__)))
CRATES = os.path.join(TOP, "crates")
PROOF_FILES = ("Proof.antt", "Answers.antt", "Invariants.antt")
NAME = re.compile(r"(?<![\w'-])[^\W\d][\w']*(?:-[\w']+)+(?![\w'-])")
IMPORT = re.compile(r"use\s+([\w.'-]+)\.\{([^}]*)\}")


def files(ending, *roots):
    for root in roots:
        for folder, dirs, names in os.walk(root):
            dirs[:] = sorted(d for d in dirs if d not in ("out", ".git", "target", "src" if ending == ".md" else ""))
            for name in sorted(names):
                if name.endswith(ending):
                    yield os.path.join(folder, name)


def read(path):
    with open(path, encoding="utf-8") as file:
        return file.read()


def comment_at(line):
    """Where the comment of an antt line begins."""
    return line.find("--") if line.lstrip().startswith("--") else (line.find(" -- ") if " -- " in line else len(line))


def words(text):
    for line in text.split("\n"):
        yield from NAME.findall(line[: comment_at(line)])


def imported(own):
    """Names that are imported from a crate that is not of this repository."""
    found = set()
    for path in [*files(".antt", CRATES), *files(".rt", CRATES)]:
        for module, names in IMPORT.findall(read(path)):
            root = module.split(".")[1] if module.startswith("Rattle.") else module.split(".")[0]
            if root not in own:
                found |= {word.split(" as ")[0].strip() for word in names.replace("\n", " ").split(",")}
    return found


def renamed():
    own = set(os.listdir(CRATES))
    library = imported(own)
    found = set()
    for path in files(".antt", CRATES):
        if os.path.basename(path) not in PROOF_FILES:
            found |= set(words(read(path)))
    return {word: spelled(word) for word in found - library}


def spelled(word):
    """A type's name in camel case, with no dash; any other name in snake case. (Two lemmas begin with a type's letter.)"""
    if word[0].isupper() and not word.endswith(("-is", "-pos")):
        return "".join(part[0].upper() + part[1:] for part in word.split("-"))
    return word.replace("-", "_")


def turn_line(line, names):
    return NAME.sub(lambda found: names.get(found[0], found[0]), line)


def turn_quoted(text, names):
    """Names between backquotes."""
    return re.sub(r"`[^`\n]*`", lambda found: turn_line(found[0], names), text)


def turn_antt(text, names):
    lines = []
    for line in text.split("\n"):
        at = comment_at(line)
        lines.append(turn_line(line[:at], names) + turn_quoted(line[at:], names))
    return "\n".join(lines)


def turn_rt(text, names):
    """Imports and clauses: code has blanks around its minus signs, so a dash within a name is a name's."""
    lines = []
    for line in text.split("\n"):
        code, slashes, comment = line.partition("//")
        code = '"'.join(part if i % 2 else turn_line(part, names) for i, part in enumerate(code.split('"')))
        lines.append(code + slashes + turn_quoted(comment, names))
    return "\n".join(lines)


def turn_edit(text, names):
    """An edit's pairs have the spelling of the file that they change; its remarks are prose."""
    return "\n".join(turn_line(line, names) if line.startswith(("old:", "new:")) else turn_quoted(line, names) for line in text.split("\n"))


def main():
    names = renamed()
    taken = set()
    for path in files(".antt", CRATES):
        taken |= set(re.findall(r"(?<![\w'-])[^\W\d][\w']*(?![\w'-])", read(path)))
    together = sorted(word for word, new in names.items() if new in taken)
    if "--list" in sys.argv:
        for word in sorted(names):
            print(word, names[word], "TAKEN" if word in together else "")
        return
    print(f"{len(names)} names; {len(together)} of them were written in snake case too: {', '.join(together)}")
    for ending, turn, roots in ((".antt", turn_antt, [CRATES]), (".rt", turn_rt, [CRATES]), (".edit", turn_edit, [CRATES, os.path.join(TOP, "edits")]), (".md", turn_quoted, [os.path.join(TOP, "docs"), TOP + "/README.md"])):
        for path in [root for root in roots if root.endswith(ending)] + list(files(ending, *roots)):
            text = read(path)
            new = turn(text, names)
            if new != text:
                with open(path, "w", encoding="utf-8") as file:
                    file.write(new)


main()
