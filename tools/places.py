#!/usr/bin/env python3
"""Lists the places of src/ that today's forms of Rattle could replace, point by point.

usage: python3 tools/places.py [COMMIT] [--count]

Looks at crates/*/src of the working tree, or of a commit. docs/DESIGN-PASS.md says what each point is, has the counts before
and after, and says of each place that is left why it stays. With --count only the counts are printed. It reads text and
proves nothing: what it lists is to be looked at.
"""

import collections
import difflib
import os
import re
import subprocess
import sys

TOP = os.path.dirname(os.path.dirname(os.path.realpath(__file__)))


def sources(commit):
    """The texts of crates/*/src/*.rt by path."""
    if commit is None:
        found = {}
        crates = os.path.join(TOP, "crates")
        for crate in sorted(os.listdir(crates)):
            folder = os.path.join(crates, crate, "src")
            if os.path.isdir(folder):
                for name in sorted(os.listdir(folder)):
                    if name.endswith(".rt"):
                        path = os.path.join(folder, name)
                        with open(path, encoding="utf-8") as file:
                            found[os.path.relpath(path, TOP)] = file.read()
        return found
    listed = subprocess.run(["git", "ls-tree", "-r", "--name-only", commit, "crates"], cwd=TOP, check=True,
                            capture_output=True, text=True).stdout.split()
    return {path: subprocess.run(["git", "show", f"{commit}:{path}"], cwd=TOP, check=True, capture_output=True,
                                 text=True).stdout
            for path in listed if re.fullmatch(r"crates/\w+/src/\w+\.rt", path)}


def bare(text):
    """The text without comments, line for line."""
    return "\n".join(re.sub(r"//.*", "", line) for line in text.splitlines())


def line_of(text, at):
    return text.count("\n", 0, at) + 1


def closing(text, at):
    """The place of the bracket that closes the one at a place."""
    pairs = {"(": ")", "{": "}", "[": "]"}
    depth = 0
    for k in range(at, len(text)):
        if text[k] in pairs:
            depth += 1
        elif text[k] in pairs.values():
            depth -= 1
            if depth == 0:
                return k
    raise SystemExit("a bracket is not closed")


def parts(text):
    """The parts of a list, at its own commas."""
    depth = 0
    part = ""
    for character in text:
        if character in "([{<":
            depth += 1
        if character in ")]}>":
            depth -= 1
        if character == "," and depth == 0:
            yield part.strip()
            part = ""
        else:
            part += character
    if part.strip():
        yield part.strip()


Function = collections.namedtuple("Function", "path line name parameters clauses body")


def functions(path, text):
    for found in re.finditer(r"\bfn (\w+)(?:<[^(]*>)?\(", text):
        end = closing(text, found.end() - 1)
        parameters = [part for part in parts(text[found.end():end])]
        rest = end + 1
        clauses = []
        # The clauses and the body are the braces that follow.
        while True:
            start = re.compile(r"[{;]").search(text, rest)
            if start is None or start.group() == ";":
                body = ""
                break
            stop = closing(text, start.start())
            head = text[rest:start.start()]
            if re.search(r"\b(requires|ensures)\*?( \w+)? *$", head):
                kind = re.search(r"\b(requires|ensures)\b[^{]*$", head).group(1)
                clauses.append((kind, " ".join(text[start.start() + 1:stop].split())))
                rest = stop + 1
                continue
            body = text[start.start() + 1:stop]
            break
        yield Function(path, line_of(text, found.start()), found.group(1), parameters, clauses, body)


def types(path, text, kind):
    """The structs or enums with their parts."""
    for found in re.finditer(r"\b" + kind + r" (\w+)(?:<[^{(;]*>)? *\{", text):
        end = closing(text, found.end() - 1)
        yield path, line_of(text, found.start()), found.group(1), list(parts(text[found.end():end]))


def point_1(texts):
    """own enums of Option's or Result's shape; flags with a value beside them; numbers for kinds and refusals"""
    for path, text in texts.items():
        for _, line, name, variants in types(path, text, "enum"):
            carrying = [v for v in variants if "(" in v or "{" in v]
            if len(variants) == 2 and carrying:
                yield path, line, f"enum {name} {{ {', '.join(variants)} }}"
        for _, line, name, fields in types(path, text, "struct"):
            flags = [f for f in fields if re.search(r": bool$", f)]
            others = [f for f in fields if f not in flags and "ghost" not in f]
            if flags and others:
                yield path, line, f"struct {name}: {', '.join(f.replace('pub ', '') for f in flags)} beside values"
            for field in fields:
                if KIND.search(field):
                    yield path, line, f"struct {name}: {field.replace('pub ', '')}"
        for function in functions(path, text):
            for parameter in function.parameters:
                if KIND.search(parameter):
                    yield path, function.line, f"fn {function.name}: {parameter}"


KIND = re.compile(r"\b((formula|avoided|from): u8|(search|status|tag|flag|diagonals|adjacent|include_adjacent): u(8|16|32|64))$")


def shape(function):
    """A function's tokens, with its types, numbers and constants made alike."""
    text = " ".join(function.parameters) + " { " + function.body
    tokens = re.findall(r"\w+|[^\s\w]", text)
    alike = []
    for token in tokens:
        if re.fullmatch(r"[ui](8|16|32|64|size)|f32|bool", token):
            token = "T"
        elif re.fullmatch(r"[0-9][\w.]*|true|false", token):
            token = "N"
        elif re.fullmatch(r"[A-Z][A-Z0-9_]+", token):
            token = "C"
        elif token == function.name:
            token = "SELF"
        alike.append(token)
    return alike


def point_2(texts):
    """twins: pairs of functions that are alike but for types, numbers and constants"""
    known = [(f, shape(f)) for path, text in texts.items() for f in functions(path, text) if f.body.strip()]
    for k, (one, shape_one) in enumerate(known):
        for other, shape_other in known[k + 1:]:
            if len(shape_one) < 14 or len(shape_other) < 14:
                continue
            if not 0.8 < len(shape_one) / len(shape_other) < 1.25:
                continue
            matcher = difflib.SequenceMatcher(None, shape_one, shape_other, autojunk=False)
            if matcher.quick_ratio() < 0.86 or matcher.ratio() < 0.86:
                continue
            yield one.path, one.line, f"{one.name} and {other.name} ({other.path}), {matcher.ratio():.2f}"


def point_3(texts):
    """loops that count an index by hand: a `while` that adds 1 to what it compares, a `for` over numbers that indexes"""
    for path, text in texts.items():
        for found in re.finditer(r"\bwhile ([^{]*)\{", text):
            body = text[found.end():closing(text, found.end() - 1)]
            for name in re.findall(r"\b\w+\b", found.group(1)):
                if re.search(r"\b" + name + r" \+= 1;", body):
                    yield path, line_of(text, found.start()), f"while {found.group(1).strip()}"
                    break
        for found in re.finditer(r"\bfor (\w+) in ([^{]*\.\.[^{]*)\{", text):
            body = text[found.end():closing(text, found.end() - 1)]
            if re.search(r"\[[^\]]*\b" + found.group(1) + r"\b[^\]]*\]", body):
                yield path, line_of(text, found.start()), f"for {found.group(1)} in {found.group(2).strip()}"


def point_4(texts):
    """equality, conversion and printing by hand, by the names of functions"""
    for path, text in texts.items():
        for function in functions(path, text):
            if re.fullmatch(r"same_\w+|\w+_of(_\w+)?|print_\w+|is_yes|of_bits|to_\w+|from_\w+", function.name):
                if function.name.startswith("from_") and "/first.rt" in path:
                    continue
                yield path, function.line, f"fn {function.name}"


# Two parameters that are one thing: what lies in the way, a grid and its size, a list and its length, a text and a place in it.
PAIRS = [("obstacles", "times"), ("targets_size", "targets"), ("times_size", "times"), ("values_size", "values"),
         ("listed", "count"), ("text", "at"), ("file", "at"), ("output", "at"), ("queue", "ring")]


def point_5(texts):
    """functions with seven parameters or more; runs of parameters in three functions or more; facts in three contracts"""
    known = [f for path, text in texts.items() for f in functions(path, text)]
    for function in known:
        if len(function.parameters) >= 7 and not re.search(r"haul_c/", function.path):
            yield function.path, function.line, f"fn {function.name}: {len(function.parameters)} parameters"
    runs = collections.Counter()
    for function in known:
        if re.search(r"haul_c/", function.path):
            continue
        names = [p.replace("mut ", "").split(":")[0] for p in function.parameters]
        for a in range(len(names)):
            for b in range(a + 2, len(names) + 1):
                runs[tuple(names[a:b])] += 1
    # Of the runs of three or more those that no longer one holds, and the pairs that mean one thing.
    often = {run: times for run, times in runs.items() if times >= 3}
    for run, times in sorted(often.items(), key=lambda item: (-item[1], item[0])):
        held = any(len(r) > len(run) and any(r[k:k + len(run)] == run for k in range(len(r) - len(run) + 1)) for r in often)
        if len(run) > 2 and not held or run in PAIRS:
            yield "", 0, f"run ({', '.join(run)}): {times} functions"
    facts = collections.Counter(" ".join(c[1].split()) for f in known for c in f.clauses if c[0] == "requires")
    for fact, times in sorted(facts.items(), key=lambda item: (-item[1], item[0])):
        if times >= 3:
            yield "", 0, f"fact {{ {fact} }}: {times} contracts"


def point_6(texts):
    """a buffer with its length or a place beside it, among parameters or fields"""
    for path, text in texts.items():
        for function in functions(path, text):
            for slice_, count in zip(function.parameters, function.parameters[1:]):
                if re.search(r"\[", slice_) and re.fullmatch(r"(count|len|found|at|start|end|middle): usize", count):
                    yield path, function.line, f"fn {function.name}: {slice_}, {count}"
        for _, line, name, fields in types(path, text, "struct"):
            if any("[" in f for f in fields) and any(re.search(r"(count|len|at|start): usize$", f) for f in fields):
                yield path, line, f"struct {name}"
            if [f for f in fields if re.fullmatch(r"(pub )?(start|len): usize", f)] == fields and len(fields) == 2:
                yield path, line, f"struct {name}: a place and a length"


def point_7(texts):
    """switches on which step to run: a match over kinds whose arms call, and tests of a number of a kind"""
    for path, text in texts.items():
        for found in re.finditer(r"\bmatch ([\w.]+) \{", text):
            body = text[found.end():closing(text, found.end() - 1)]
            calls = re.findall(r"=>\s*(?:\{\s*)?[a-z]\w*(?:::[a-z]\w*)*(?:::<[^()]*>)?\(", body)
            if len(calls) >= 3:
                yield path, line_of(text, found.start()), f"match {found.group(1)}: {len(calls)} arms that call"
        for found in re.finditer(r"\bif (formula|avoided|from) [!=]= [A-Z_]+", text):
            yield path, line_of(text, found.start()), found.group()


POINTS = [point_1, point_2, point_3, point_4, point_5, point_6, point_7]


def main():
    words = [word for word in sys.argv[1:] if word != "--count"]
    texts = {path: bare(text) for path, text in sources(words[0] if words else None).items()}
    for number, point in enumerate(POINTS, 1):
        places = list(point(texts))
        print(f"point {number}: {len(places)} ({point.__doc__})")
        if "--count" not in sys.argv:
            for path, line, what in places:
                print(f"  {path}:{line}: {what}" if path else f"  {what}")


if __name__ == "__main__":
    main()
