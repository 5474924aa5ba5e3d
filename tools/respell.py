#!/usr/bin/env python3
"""Respells the repository's own words, lemmas and fields of specs/ and proofs/ from camelCase and kebab-case to snake_case, in every crate,
edit and paper. Run once, at the top, after the kit's port.py. With --look it writes nothing and lists the names that fall together."""
import collections
import glob
import os
import re
import sys

WORD = re.compile(r"[^\s(){}\[\],;:.\"`λ∀]+")
DECLARED = re.compile(r"^(\s*)(?:(?:abbrev|unfoldable|opaque|pub|ghost) )*([^\s(){}:=,;.]+) : ")
USE = re.compile(r"use ([\w.'·]+)\.\{([^}]*)\}", re.S)
KEPT = ("let", "if", "elim", "rw", "simp", "omega")
# a lemma whose name falls together with a word's, of the repository or of std, gets `_law` after it
LAWS = """all-masked block-byte block-told erf-p gain-in gains-of held-rows in-domain in-place-told last-tests minus-zero one-band read_out row-answer
row-gains rows_in rows_ok shape-ok stays-finite sum-from table-text table-told units_of when-done is-nan""".split()
# names that a function's own proof declares are goals, which the checker names
GENERATED = re.compile(r"/proofs/.*/(Proof|Invariants|Answers)\.antt$")


def snake(name):
    name = re.sub(r"(?<=[a-z0-9])(?=[A-Z])", "_", name).replace("-", "_")
    return name.lower()


def files(pattern):
    return sorted(glob.glob(pattern, recursive=True))


def spelled_old(name):
    return re.match(r"[^A-Z_]", name) and (re.search(r"[a-z0-9][A-Z]", name) or re.search(r"[\w⊑⊕⊗→]-[\w⊑⊕⊗]", name))


def declared():
    names = collections.defaultdict(set)
    for path in files("crates/*/specs/**/*.antt") + files("crates/*/proofs/**/*.antt"):
        if GENERATED.search("/" + path):
            continue
        for line in open(path, encoding="utf-8"):
            m = DECLARED.match(line)
            if m and not line.lstrip().startswith("--") and line.lstrip().split()[0] not in KEPT:
                names[m.group(2)].add(path)
    return names


def apart(text):
    """The code of a .rt file, and between its pieces the comments, strings and bytes."""
    return re.split(r"(//[^\n]*|\"(?:\\.|[^\"\\])*\"|b'(?:\\.|[^'\\])')", text)


def turned(text, names):
    return WORD.sub(lambda m: names.get(m.group(0), m.group(0)), text)


def turned_proof(text, names):
    """A function's proof: after a dot stands a field or a step of the code, and no lemma."""
    laws = set(LAWS)

    def one(m):
        after_dot = m.start() > 0 and text[m.start() - 1] == "."
        return m.group(0) if after_dot and m.group(0) in laws else names.get(m.group(0), m.group(0))

    return WORD.sub(one, text)


def in_ticks(text, names):
    return re.sub(r"`[^`\n]*`", lambda m: turned(m.group(0), names), text)


def outside(text):
    """The names that a file takes from the kit's library: they keep its spelling."""
    own = {"Rattle." + c for c in os.listdir("crates")}
    given = set()
    for m in USE.finditer(text):
        if ".".join(m.group(1).split(".")[:2]) not in own:
            given |= {n.strip() for n in m.group(2).replace("\n", " ").split(",")}
    return given


def turn(path, names):
    with open(path, encoding="utf-8") as f:
        text = f.read()
    given = outside(text)
    names = {n: new for n, new in names.items() if n not in given}
    if path.endswith(".rt"):
        # no function or local of src/ changes its name
        words = {n: new for n, new in names.items() if not re.fullmatch(r"[a-z_0-9]+", n)}
        parts = apart(text)
        for i, part in enumerate(parts):
            if i % 2 == 0:
                parts[i] = turned(part, words)
            elif part.startswith("//"):
                parts[i] = in_ticks(part, words)
        new = "".join(parts)
    elif path.endswith(".md"):
        new = in_ticks(text, names)
    elif path.endswith(".antt"):
        way = turned_proof if GENERATED.search("/" + path) else turned
        new = "\n".join(in_ticks(x, names) if x.lstrip().startswith("--") else way(x, names) for x in text.split("\n"))
    else:
        new = turned(text, names)
    if new != text:
        with open(path, "w", encoding="utf-8") as f:
            f.write(new)
        return 1
    return 0


def look(names, all_names):
    for path in files("crates/*/specs/**/*.antt") + files("crates/*/proofs/**/*.antt") + files("crates/*/src/*.rt"):
        with open(path, encoding="utf-8") as f:
            text = f.read()
        seen = collections.defaultdict(set)
        for m in USE.finditer(text):
            for n in m.group(2).replace("\n", " ").split(","):
                n = n.strip().split(" as ")[-1]
                seen[names.get(n, n)].add(n)
        for line in text.split("\n"):
            m = DECLARED.match(line)
            if m and not GENERATED.search("/" + path) and path.endswith(".antt"):
                seen[names.get(m.group(2), m.group(2))].add(m.group(2))
        for new, old in seen.items():
            if len(old) > 1:
                print(f"{path}: {sorted(old)} fall together as {new}")


def main():
    all_names = declared()
    names = {n: snake(n) for n in all_names if spelled_old(n)}
    names |= {n: n.replace("-", "_") + "_law" for n in LAWS}
    if "--look" in sys.argv:
        new = collections.defaultdict(set)
        for n in all_names:
            new[names.get(n, n)].add(n)
        for n, old in sorted(new.items()):
            if len(old) > 1:
                print(f"{n}: {[(o, sorted(all_names[o])) for o in sorted(old)]}")
        look(names, all_names)
        return
    paths = files("crates/*/specs/**/*.antt") + files("crates/*/proofs/**/*.antt") + files("crates/*/src/*.rt") + files("crates/*/must-fail/*.edit")
    paths += files("docs/**/*.md") + files("*.md")
    print(sum(turn(p, names) for p in paths), "files,", len(names), "names")


if __name__ == "__main__":
    main()
