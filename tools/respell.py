#!/usr/bin/env python3
"""Respells the repository's own definitions and lemmas as today's Rattle spells names; run once, right after port.py.

A definition or lemma in lower camel case becomes snake case. In a lemma's name a dash stays where it joins two names (of definitions,
functions or the library's words) and becomes an underscore where it joins plain words. A lemma that would have a definition's new name gets
`_lem`. Functions of src/, exported names, strings, inputs and outputs keep their names. A dash stays too where the new name stands for
something else already. Must-fail edits and the names in backquotes in README.md and docs/ are turned by the same table. It prints the table.
"""

import collections
import os
import re
import sys

TOKEN = re.compile(r"(?<![\w'.·-])([A-Za-z_][\w']*(?:-[\w'*]+)*)")
FIELD = re.compile(r"(?<=[\w)'])\.([a-z][\w']*(?:-[\w']+)*)")
DECLARED = re.compile(r"^\s*(?:(?:pub|abbrev|unfoldable|ruleset) )*([A-Za-z_][\w'-]*)(?: \{[^}]*\})* :(?: |$)")
CAMEL = re.compile(r"^[a-z][a-z0-9]*(?:[A-Z][a-z0-9]*)+'*$")
LIBRARY = {
    "length", "map", "take", "drop", "set", "append", "get_or", "replicate", "sum", "max", "min", "cond", "not", "foldl", "filter",
    "reverse", "suc", "absurd", "ap", "subst", "sym", "and", "or", "eqb", "leb", "ltb", "all", "any", "zip", "concat", "nat_le",
}


def snake(name):
    return re.sub(r"(?<=[a-z0-9])([A-Z])", lambda m: "_" + m.group(1), name).lower()


def files(root, ends):
    for folder, dirs, names in os.walk(os.path.join(root, "crates")):
        dirs[:] = sorted(d for d in dirs if d != "out")
        for n in sorted(names):
            if n.endswith(ends):
                yield os.path.join(folder, n)


def read(path):
    with open(path, encoding="utf-8") as f:
        return f.read()


def library_names(root):
    """The names that files import from the library."""
    out = set()
    for p in files(root, (".antt", ".rt")):
        for m in re.finditer(r"^(?:pub |ghost )?use (?!Rattle\.(?!std\.))[a-z_]+[\w.]*\.\{([^}]*)\}", read(p), re.M):
            for n in m.group(1).split(","):
                out |= {w for w in n.split() if w != "as"}
    return out


def is_goal(line):
    return re.search(r": tie\.", line) is not None


def declared(root):
    """The names that files of specs/ and proofs/ declare, and all names that stand there."""
    names, seen = set(), collections.Counter()
    for p in files(root, ".antt"):
        for line in read(p).splitlines():
            code = line.split("-- ")[0] if not line.startswith("--") else ""
            m = DECLARED.match(code)
            if m and not is_goal(code) and not code.lstrip().startswith("use "):
                names.add(m.group(1))
            for t in TOKEN.findall(code):
                seen[t] += 1
    return names, seen


def rust_names(root):
    text = "\n".join(read(p) for p in files(root, ".rt"))
    return set(re.findall(r"fn (\w+)", text)), set(re.findall(r"[A-Za-z_]\w*", text))


def segments(parts, words):
    """The parts joined to the longest runs that are words."""
    out, i = [], 0
    while i < len(parts):
        for j in range(len(parts), i, -1):
            run = "_".join(parts[i:j])
            if run in words or j == i + 1:
                out.append((run, run in words))
                i = j
                break
    return out


def dashed(name, words):
    parts = [snake(p) if CAMEL.match(p) else p for p in name.split("-")]
    runs = segments(parts, words)
    text = runs[0][0]
    for (_, left), (run, right) in zip(runs, runs[1:]):
        text += ("-" if left and right else "_") + run
    return text


def table(root):
    names, seen = declared(root)
    functions, rust = rust_names(root)
    kept = library_names(root)
    camel = {n for n in list(names) + list(seen) if CAMEL.match(n)}
    new = {n: snake(n) for n in camel}
    if len(set(new.values())) != len(new):
        sys.exit("names fall together")
    lemmas = {}
    for n, s in sorted(new.items()):
        if s in names and s not in kept:
            lemmas[s] = s + "_lem"
    words = {n for n in names if "-" not in n} | set(new.values()) | functions | LIBRARY
    taken = set(seen) | rust | set(new.values()) | set(lemmas.values())
    out = dict(new)
    out.update(lemmas)
    for n in sorted(names):
        if "-" not in n or n in kept:
            continue
        t = dashed(n, words)
        if t != n and t not in taken:
            taken.add(t)
            out[n] = t
        elif t != n:
            fallback = "-".join(snake(p) if CAMEL.match(p) else p for p in n.split("-"))
            if fallback != n:
                out[n] = fallback
    return out


def turned(text, names):
    text = TOKEN.sub(lambda m: names.get(m.group(1), m.group(1)), text)
    return FIELD.sub(lambda m: "." + (names[m.group(1)] if CAMEL.match(m.group(1)) and m.group(1) in names else m.group(1)), text)


def turned_source(text, names):
    """A file of src/: clauses and ghost items alone, no strings."""
    out = []
    for line in text.split("\n"):
        code = line.lstrip().startswith("//") is False
        pieces = re.split(r'("(?:[^"\\]|\\.)*")', line) if code else [line]
        camels = {k: v for k, v in names.items() if CAMEL.match(k)}
        ghost = line.lstrip().startswith("ghost use")
        out.append("".join(p if p.startswith('"') and code else turned(p, names if ghost else camels) for p in pieces))
    return "\n".join(out)


def turned_edit(text, names):
    """A must-fail edit: of a file of src/ the clauses' words alone."""
    camels = {k: v for k, v in names.items() if CAMEL.match(k)}
    out, spec = [], False
    for line in text.split("\n"):
        if line.startswith("file: "):
            spec = line.endswith(".antt")
        out.append(line if line.startswith("file: ") else turned(line, names if spec else camels))
    return "\n".join(out)


def turned_page(text, names):
    names = {k: v for k, v in names.items() if v != k + "_lem"}
    return re.sub(r"`([^`\n]+)`", lambda m: "`" + turned(m.group(1), names) + "`", text)


def main():
    root = sys.argv[1] if len(sys.argv) > 1 else "."
    names = table(root)
    for p in files(root, (".antt", ".rt", ".edit")):
        text = read(p)
        turn = turned_source if p.endswith(".rt") else turned_edit if p.endswith(".edit") else turned
        made = turn(text, names)
        if made != text:
            with open(p, "w", encoding="utf-8") as f:
                f.write(made)
    pages = [os.path.join(root, "README.md")] + [os.path.join(root, "docs", n) for n in sorted(os.listdir(os.path.join(root, "docs")))]
    for p in pages:
        if p.endswith(".md"):
            text = read(p)
            with open(p, "w", encoding="utf-8") as f:
                f.write(turned_page(text, names))
    for old, new in sorted(names.items()):
        print(old, new)


main()
