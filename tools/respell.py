#!/usr/bin/env python3
"""Spells this repository's own definitions and lemmas as today's Rattle does: words in snake case, types in camel case.

usage: python3 tools/respell.py      at the top of the repository, once, right after the kit's own script for older repositories

Only names with a dash are touched, and of those only names that stand in specs/, in a clause of src/ or in a lemma file of proofs/, or that a proof file
declares: the names that a check generates keep their dashes. Comments, strings and code stay. Where a snake-case name is taken, the script says so.
"""
import os
import re

TOKEN = re.compile(r"(?<![\w'-])[^\W\d_][\w']*(?:-[\w']+)+(?![\w'-])")
PLAIN = re.compile(r"(?<![\w'-])[^\W\d][\w']*(?![\w'-])")
DECLARED = re.compile(r"^\s*(?:(?:pub|abbrev|unfoldable)\s+)*([^\W\d_][\w']*(?:-[\w']+)+)\s*:", re.M)
SKIP_RT = re.compile(r'"(?:\\.|[^"\\\n])*"|//[^\n]*')
SKIP_ANTT = re.compile(r"--[^\n]*")


def respelled(name):
    parts = name.split("-")
    if name[0].isupper():
        return "".join(p[:1].upper() + p[1:] for p in parts)
    return "_".join(parts)


def outside(text, skip, change):
    """The text with change applied to all that skip does not match."""
    out, at = [], 0
    for m in skip.finditer(text):
        out += [change(text[at:m.start()]), m.group()]
        at = m.end()
    return "".join(out + [change(text[at:])])


def sources():
    for crate in sorted(os.listdir("crates")):
        for folder, dirs, files in os.walk(os.path.join("crates", crate)):
            dirs[:] = sorted(d for d in dirs if d != "out")
            for f in sorted(files):
                if f.endswith((".rt", ".antt")):
                    yield crate, os.path.join(folder, f)


def main():
    texts, names, plain = {}, set(), set()
    for crate, path in sources():
        with open(path, encoding="utf-8") as f:
            text = f.read()
        skip = SKIP_RT if path.endswith(".rt") else SKIP_ANTT
        bare = skip.sub(" ", text)
        texts[path] = (text, skip)
        of_a_function = "/proofs/" in path and path.split("/proofs/")[1].count("/") > 0
        names |= set(DECLARED.findall(bare) if of_a_function else TOKEN.findall(bare))
        plain |= set(PLAIN.findall(bare))
    names = {n for n in names if not n.startswith(("returns-", "loop-", "invariant-", "decreases-"))}
    for name in sorted(names):
        if respelled(name) in plain:
            print(f"{name}: {respelled(name)} stands elsewhere too")

    def change(part):
        return TOKEN.sub(lambda m: respelled(m.group()) if m.group() in names else m.group(), part)

    def in_a_page(m):
        new = respelled(m.group())
        return new if m.group() in names or new in plain else m.group()

    for path, (text, skip) in texts.items():
        new = outside(text, skip, change)
        if new != text:
            with open(path, "w", encoding="utf-8") as f:
                f.write(new)
    for page in ["README.md"] + [os.path.join("docs", p) for p in sorted(os.listdir("docs"))]:
        with open(page, encoding="utf-8") as f:
            text = f.read()
        new = re.sub(r"`[^`\n]+`", lambda m: TOKEN.sub(in_a_page, m.group()), text)
        if new != text:
            with open(page, "w", encoding="utf-8") as f:
                f.write(new)


main()
