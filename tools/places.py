#!/usr/bin/env python3
"""Counts the places in crates/*/src that the page docs/DESIGN-PASS.md speaks of.

usage: places.py [COMMIT]    (without COMMIT: the files as they stand)

Each line has the point, the count, and the places. A place is a crate and a name, or a crate and a count.
"""

import collections
import glob
import re
import subprocess
import sys


def sources(commit):
    if commit is None:
        return {path: open(path).read() for path in sorted(glob.glob("crates/*/src/*.rt"))}
    names = subprocess.run(
        ["git", "ls-tree", "-r", "--name-only", commit, "crates"], capture_output=True, text=True, check=True
    ).stdout.split("\n")
    return {
        name: subprocess.run(["git", "show", f"{commit}:{name}"], capture_output=True, text=True, check=True).stdout
        for name in names
        if re.fullmatch(r"crates/\w+/src/\w+\.rt", name)
    }


def crate(path):
    return path.split("/")[1]


def code(text):
    return re.sub(r"//.*", "", text)


# A function: its name, its parameters, its clauses and its body.
FUNCTION = re.compile(
    r"^(?:#\[.*\]\n)*( *)(?:pub(?:\(crate\))? )?(?:extern \"C\" )?fn (\w+)[^(]*\(([^)]*(?:\([^)]*\)[^)]*)*)\)([^{;]*?)((?:\n +(?:requires|ensures)[^\n]*)*)\n?\s*\{\n(.*?)^\1\}",
    re.M | re.S,
)


def functions(files):
    for path, text in files.items():
        for match in FUNCTION.finditer(text):
            yield path, match.group(2), match.group(3), match.group(4) + match.group(5), code(match.group(6))


def own_enums(files):
    """Enums with one variant that holds a value, where the others hold nothing or a reason."""
    for path, text in files.items():
        for match in re.finditer(r"enum (\w+) \{\n(.*?)^\}", code(text), re.M | re.S):
            variants = re.findall(r"(\w+)(\([^)]*\))?,", match.group(2))
            held = [name for name, fields in variants if fields and fields not in ("(Stop)", "(Refusal)")]
            if len(variants) in (2, 3) and len(held) == 1 or len(variants) == 2 and len(held) == 2 and match.group(1) == "Searched":
                yield crate(path), match.group(1)


def flags(files):
    """Fields that say whether another field holds anything."""
    for path, text in files.items():
        for match in re.finditer(r"struct (\w+)(?:<[^>]*>)? \{\n(.*?)^\}", code(text), re.M | re.S):
            for field in re.findall(r"(\w+): bool,", match.group(2)):
                if field in ("room", "linked", "any", "opens", "shared"):
                    yield crate(path), f"{match.group(1)}.{field}"
    for path, name, parameters, _, _ in functions(files):
        if re.search(r"linked: bool,\s+(digest|link): Digest|any: bool,\s+last: PagePart", parameters):
            yield crate(path), name


def kinds(files):
    """Functions from a kind or a refusal to its number."""
    for path, name, _, _, body in functions(files):
        if len(re.findall(r"\w+::\w+ => \d+,", body)) > 2:
            yield crate(path), name


def twins(files):
    """Groups of functions whose bodies are the same but for names of crates, numbers and constants."""
    groups = collections.defaultdict(list)
    for path, name, parameters, _, body in functions(files):
        lines = [line for line in body.split("\n") if line.strip()]
        shape = re.sub(r"\b\d[\w_]*\b|\b[A-Z][A-Z_0-9]+\b", "0", body)
        shape = re.sub(r"\b[a-z_]\w*(?=\()", "f", shape)
        shape = re.sub(r"\b[A-Z]\w+\b", "T", shape)
        shape = re.sub(r"\s+", " ", shape)
        if len(lines) >= 2 or len(shape) > 60:
            groups[shape].append((crate(path), name))
    for group in groups.values():
        if len(group) > 1:
            yield group[0][0], " = ".join(name for _, name in group)


def index_loops(files):
    """`while` loops."""
    for path, text in files.items():
        name = ""
        for line in code(text).split("\n"):
            start = re.match(r"^ *(?:pub(?:\(crate\))? )?(?:extern \"C\" )?fn (\w+)", line)
            if start:
                name = start.group(1)
            if re.match(r"^ *while ", line):
                yield crate(path), name


def by_hand(files):
    """Equality, order, copying, clearing and conversion written out."""
    for path, name, _, _, body in functions(files):
        if re.search(r"Less => (true|false),\s*\w*(Order|Ordering)::Equal => (true|false)", body):
            yield crate(path), name
        elif re.search(r"while i < .*\{\s*(\w+)\[i\] = (\w+\[i\]|0);\s*i \+= 1;\s*\}", body):
            yield crate(path), name
        elif re.search(r"\w+::\w+ => (\w+::\w+|\d+),\s*\w+::\w+ => (\w+::\w+|\d+),", body) and "->" in "->":
            if re.fullmatch(r"\s*match (\w+) \{(\s*\w+::\w+ => [\w:]+,)+\s*\}\s*", body):
                yield crate(path), name
        elif re.fullmatch(r"\s*if (\w+) < (\w+) \{ \w+ \} else \{ \w+ \}\s*|\s*if a \{ b \} else \{ false \}\s*|\s*\w+ as usize\s*", body):
            yield crate(path), name


def facts(files):
    """Facts of a `requires` that stand in three functions or more."""
    places = collections.defaultdict(set)
    for path, name, _, clauses, _ in functions(files):
        for clause in re.findall(r"requires[^\n]*", clauses):
            for fact in re.findall(r"\b[A-Z]\w+ (?:[a-z_]+\.(?:now|old))[^×)}]*", clause):
                places[fact.split()[0]].add((crate(path), name))
    for fact, functions_with_it in sorted(places.items()):
        if len(functions_with_it) > 2:
            yield fact, str(len(functions_with_it))


def buffers(files):
    """A buffer whose length, or how much of it is used, is a parameter beside it."""
    for path, name, parameters, _, _ in functions(files):
        names = re.findall(r"(\w+): ", parameters)
        pairs = [(a, b) for a, b in zip(names, names[1:]) if b in ("size", "held", "n", "m", "count", "first_count", "second_count", "chain_count", "last_size")]
        if pairs:
            yield crate(path), name


def modes(files):
    """Functions that are told by a `bool` or an enum of modes which step to run."""
    for path, name, parameters, _, _ in functions(files):
        if re.search(r"\b(after|greater|moves|told|closed): bool|: Policy\b", parameters):
            yield crate(path), name


def main():
    files = sources(sys.argv[1] if len(sys.argv) > 1 else None)
    points = [
        ("1 own enums of the shape of Option or Result", own_enums),
        ("1 flags with a value beside them", flags),
        ("1 numbers for kinds or refusals", kinds),
        ("2 twins", twins),
        ("3 loops that count by hand", index_loops),
        ("4 equality, order, copying, conversion by hand", by_hand),
        ("5 facts in the contracts of three functions or more", facts),
        ("6 buffers with a length beside them", buffers),
        ("7 switches on which step to run", modes),
    ]
    for title, find in points:
        places = list(find(files))
        print(f"{title}: {len(places)}")
        by_crate = collections.defaultdict(list)
        for where, what in places:
            by_crate[where].append(what)
        for where, what in sorted(by_crate.items()):
            print(f"    {where}: {', '.join(what)}")


if __name__ == "__main__":
    main()
