#!/usr/bin/env python3
"""Spells this repository's own definitions and lemmas as today's Rattle does: words in snake case, facts in camel case.

usage: python3 tools/spelling.py        at the top of the repository, once, after the kit's port.py

A name is the repository's own if it is declared in specs/ or proofs/ (a definition, a lemma, a field, a constructor, a local one under
`where`, another name in a `use` line), and is no goal of a function. Functions of src/, strings, inputs and outputs keep their names. Where two names would fall
together, or one would fall together with a name of the library that is imported, nothing is written.
"""

import glob
import re
import sys

DECLARED = re.compile(r"^\s*(?:(?:abbrev|pub|unfoldable|data|record)\s+)*([^\s(){}:,;.\[\]]+)(?:\s*[({].*)?\s*(?::|where)(?:\s|$)")
IMPORTED = re.compile(r"use (?:Rattle\.std|native|lib|mathlib|Prim)[\w.]*\.\{([^}]*)\}")
ALIAS = re.compile(r" as ([\w-]+)")
# a token of a proof file; and of a source: strings and comments are tokens of their own there
TOKEN = re.compile(r"[^\s(){}\[\].,;|«»`λ]+")
SOURCE = re.compile(r'"(?:\\.|[^"\\])*"|//[^\n]*|' + TOKEN.pattern)
QUOTED = re.compile(r"`[^`\n]*`")


def files(*patterns):
    return sorted(f for p in patterns for f in glob.glob(p, recursive=True))


def read(path):
    with open(path, encoding="utf-8") as f:
        return f.read()


def declared(paths):
    """The names with a dash that the files declare, and all that they declare."""
    names = set()
    for path in paths:
        for line in read(path).splitlines():
            found = DECLARED.match(line)
            if found and not line.lstrip().startswith(("--", "use ")) and "goal." not in line:
                names.add(found.group(1))
    return {n for n in names if "-" in n and n[0].isalpha()}, names


def spelled(name):
    if name[0].isupper():
        return "".join(word[:1].upper() + word[1:] for word in name.split("-"))
    return name.replace("-", "_")


def turn(token, new):
    return new.get(token, token)


def turn_proof(text, new):
    lines = []
    for line in text.split("\n"):
        code, mark, remark = line.partition("--") if line.lstrip().startswith("--") else (line, "", "")
        code = TOKEN.sub(lambda m: turn(m.group(0), new), code)
        lines.append(code + mark + turn_quoted(remark, new))
    return "\n".join(lines)


def turn_source(text, new):
    def one(m):
        token = m.group(0)
        if token.startswith("//"):
            return turn_quoted(token, new)
        return token if token.startswith('"') else turn(token, new)

    return SOURCE.sub(one, text)


def turn_quoted(text, new):
    return QUOTED.sub(lambda m: TOKEN.sub(lambda t: turn(t.group(0), new), m.group(0)), text)


def main():
    proofs = files("crates/*/specs/**/*.antt", "crates/*/proofs/**/*.antt")
    sources = files("crates/*/src/**/*.rt")
    pages = files("README.md", "docs/**/*.md")
    old, all_names = declared(proofs)
    library = set()
    for path in proofs + sources:
        text = read(path)
        for group in IMPORTED.findall(text):
            library |= {item.strip() for item in group.split(",")}
        for line in text.splitlines():
            if line.startswith(("use ", "ghost use ")):
                old |= {name for name in ALIAS.findall(line) if "-" in name}
    new = {name: spelled(name) for name in old}
    taken = sorted(n for n in new if new[n] in all_names | library)
    twice = sorted(n for n in new if sum(new[n] == m for m in new.values()) > 1)
    if taken or twice:
        sys.exit(f"spelling: these would fall together with another name: {taken + twice}")
    for paths, how in ((proofs, turn_proof), (sources, turn_source), (pages, turn_quoted)):
        for path in paths:
            text = read(path)
            turned = how(text, new)
            if turned != text:
                with open(path, "w", encoding="utf-8") as f:
                    f.write(turned)
    print(f"spelling: {len(new)} names")


main()
