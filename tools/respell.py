#!/usr/bin/env python3
"""Writes the repository's own definitions and lemmas in snake case, as today's Rattle spells words.

usage: python3 tools/respell.py      at the top of the repository, once, after the kit's port.py

A definition, lemma or record field whose name has a capital letter or a dash within it gets small letters and underscores, as
slashByte -> slash_byte and bytes-first -> bytes_first. A lemma that would then have the name of a definition gets _lem, as
link-bytes beside linkBytes. Names of types keep their capitals, names of the library keep their dashes, and so do the names that
the check makes for proofs. Functions of src/ are in snake case already. It rewrites .antt files, the clauses of .rt files and the
must-fail edits in place, and prints how many names it changed.
"""

import collections
import glob
import os
import re

TOKEN = re.compile(r"[^\s(){}\[\],;.@\"⌜⌝«»]+")
DEFINED = re.compile(
    r"^\s*(?:(?:abbrev|unfoldable|opaque|pub)\s+)*([^\s(){}:,;.=→]+(?:\s+[^\s(){}:,;.=→]+)*)\s*:(?!=)\s*(.*)$"
)
IMPORT = re.compile(r"\s*(?:(?:pub|ghost|unfoldable) )*use (\S+?)\.\{(.*)\}")
MADE = re.compile(r"^(invariant-|decreases-|μ-)|-(Inv|μ)-|^Need-|^returns-\d|^\+")
WORDS = {"getD-within": "get_or_within"}


def own_crates():
    return set(os.listdir("crates"))


def code_of(line):
    """The line without its comment."""
    return "" if line.startswith("--") else re.split(r"\s--\s", line)[0]


def snake(name):
    name = WORDS.get(name, name).replace("-", "_")
    return re.sub(r"(?<=[a-z0-9])([A-Z])", lambda m: "_" + m[1].lower(), name)


def collect(files):
    crates, defined, of_proofs, library, made = own_crates(), collections.defaultdict(set), set(), set(), collections.defaultdict(set)
    for path in files:
        with open(path, encoding="utf-8") as f:
            for line in f:
                body = code_of(line)
                it = IMPORT.match(body)
                if it:
                    part = it[1].split(".")
                    each = [n.strip().split(" as ") for n in it[2].split(",")]
                    for n in each:
                        if len(n) == 2 and n[1][0].islower():
                            defined[n[1]].add(path)
                    if not (part[0] == "Rattle" and len(part) > 1 and part[1] in crates):
                        library |= {n[0] for n in each}
                    continue
                it = DEFINED.match(body)
                if not it or body.lstrip().startswith(("let ", "use ")):
                    continue
                for name in it[1].split():
                    # an answer to a goal keeps the goal's name
                    if path.endswith("Proof.antt") and re.search(r"(\btie|-lts)\.", it[2]):
                        made[path].add(name)
                    elif name not in ("record", "data", "where", "pub", "abbrev", "let"):
                        defined[name].add(path)
                        if "/proofs/" in path:
                            of_proofs.add(name)
    return defined, of_proofs, library, made


def names():
    files = sorted(glob.glob("crates/*/specs/**/*.antt", recursive=True) + glob.glob("crates/*/proofs/**/*.antt", recursive=True))
    defined, _, library, made = collect(files)
    in_specs = {n for n, where in defined.items() if any("/specs/" in p for p in where)}

    def old_form(n):
        return not n[0].isupper() and n not in library and not MADE.search(n) and bool(re.search(r"[a-z0-9][A-Z]|[^-]-[^-]", n)) and "◌" not in n

    to = {}
    # first the definitions that the contracts cite, then the lemmas, which make way
    for n in sorted(n for n in defined if old_form(n) and n in in_specs):
        to[n] = snake(n)
    taken = set(to.values()) | {n for n in in_specs if not old_form(n)}
    for n in sorted(n for n in defined if not old_form(n) and n not in in_specs and n in set(to.values())):
        if n not in library:
            to[n] = n + "_lem"
    taken |= set(to.values())
    plain = {n for n in defined if not old_form(n)} | library
    for n in sorted((n for n in defined if old_form(n) and n not in in_specs), key=lambda n: ("-" in n, n)):
        new = snake(n)
        while new in taken or new in plain - set(to):
            new += "_lem"
        to[n] = new
        taken.add(new)
    return to, made, files


def respelled(text, to, dashes_after_dot):
    def one(m):
        word = m[0]
        new = to.get(word)
        if new is None:
            return word
        if m.start() and text[m.start() - 1] == "." and "-" in word and not dashes_after_dot:
            return word
        return new

    return TOKEN.sub(one, text)


def rewrite(path, turn):
    with open(path, encoding="utf-8") as f:
        old = f.read()
    new = turn(old)
    if new != old:
        with open(path, "w", encoding="utf-8") as f:
            f.write(new)


def main():
    to, made, files = names()
    camel = {k: v for k, v in to.items() if "-" not in k and re.search(r"[a-z0-9][A-Z]", k)}

    def antt(path):
        def turn(text):
            out = []
            keep = made.get(path, set())
            mine = {k: v for k, v in to.items() if k not in keep}
            proof = path.endswith("Proof.antt")
            for line in text.splitlines(keepends=True):
                body = code_of(line)
                if proof and re.match(r"(pub )?\+?\S+-spec\b", line):
                    body = re.sub(r"\S+-spec\b", lambda m: m[0].replace("-", "_"), body, count=1)
                    out.append(body + line[len(code_of(line)):])
                    continue
                rest = line[len(code_of(line)):]
                after_dot = not proof or bool(IMPORT.match(body))
                out.append(respelled(body, mine, after_dot) + respelled(rest, camel, True))
            return "".join(out)

        return turn

    for path in files:
        rewrite(path, antt(path))
    for path in sorted(glob.glob("crates/*/src/**/*.rt", recursive=True)):
        rewrite(path, lambda t: respelled(t, camel, True))
    for path in sorted(glob.glob("crates/*/must-fail/*.edit")):
        rewrite(path, lambda t: respelled(t, camel, True))
    with open("/tmp/respelled.tsv", "w", encoding="utf-8") as f:
        f.writelines(f"{k}\t{v}\n" for k, v in sorted(to.items()))
    print(f"respell: {len(to)} names")


if __name__ == "__main__":
    main()
