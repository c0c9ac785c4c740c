#!/usr/bin/env python3
"""Lists the places of crates/*/src that docs/DESIGN-PASS.md counts: `python3 tools/places.py` prints a count a point, `--list POINT` the lines.

It goes by text, so a line is a place to look at; the page says which of them are places.
"""
import re
import sys
from collections import Counter, defaultdict
from glob import glob

POINTS = {
    "1 enums": r"^ *(pub(\([a-z]+\))? )?enum ",
    "1 numbers": r"\b(scan|mode)\b(: *[0-9u]| *[=!<>]=)|(scan|mode)_of\(|BLOCK: u8|=> 0,$|== 0 &&|u32::MAX",
    "1 flags": r"^ *(pub )?fn (pack|unpack|pack_into|unpack_all|do_[a-z_]*)\b",
    "3 counted": r"^ *(while |for [a-z_(), ]+ in [^&].*\.\.)",
    "3 other": r"^ *for (?![a-z_(), ]+ in [^&].*\.\.)",
    "4 tests of a case": r"matches!\(",
    "4 conversions": r"fn (same|bits_of|scan_of|mode_of|digit_of[a-z_]*|words|say_refusal|print_[a-z]*)\b",
    "6 arrays": r"\[[a-zA-Z0-9_]+; *[0-9A-Z_]+\]",
    "7 steps": r"enum (Task|Command)|match (task|command|letter)\b|match command_at|dyn |\bfn\(",
}


def sources():
    return {name: open(name, encoding="utf-8").read().splitlines() for name in sorted(glob("crates/*/src/**/*.rt", recursive=True))}


def by_text(files, pattern):
    found = re.compile(pattern)
    return [f"{name}:{i + 1}: {line.strip()}" for name, lines in files.items() for i, line in enumerate(lines) if found.search(line)]


def facts(files):
    """Clauses `requires` that stand three times or more in a crate."""
    seen = defaultdict(Counter)
    for name, lines in files.items():
        for line in lines:
            clause = re.match(r" *requires (?:[a-z_]+ )?(\{.*\})", line)
            if clause:
                seen[name.split("/")[1]][clause.group(1)] += 1
    return [f"{crate}: {n} times {fact}" for crate, all in seen.items() for fact, n in all.most_common() if n >= 3]


def together(files):
    """Pairs of parameters, each with its type, that three functions of a crate or more have."""
    seen = defaultdict(Counter)
    for name, lines in files.items():
        for head in re.findall(r"fn [a-z_0-9]+(?:<.*?>)?\((.*?)\)\s*(?:->|where|requires|ensures|\{|;)", " ".join(lines)):
            parameters = sorted(set(re.findall(r"[a-z_]+: [^,]+", head.replace("mut ", ""))))
            for i, one in enumerate(parameters):
                for other in parameters[i + 1:]:
                    seen[name.split("/")[1]][one.strip() + ", " + other.strip()] += 1
    return [f"{crate}: {n} times ({pair})" for crate, all in seen.items() for pair, n in all.most_common() if n >= 3]


def main():
    files = sources()
    found = {point: by_text(files, pattern) for point, pattern in POINTS.items()}
    found["5 facts"] = facts(files)
    found["5 parameters"] = together(files)
    if len(sys.argv) == 3 and sys.argv[1] == "--list":
        print("\n".join(line for point, lines in sorted(found.items()) if point.startswith(sys.argv[2]) for line in lines))
        return
    for point, lines in sorted(found.items()):
        print(f"{point:20} {len(lines)}")


main()
