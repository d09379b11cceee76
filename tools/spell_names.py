#!/usr/bin/env python3
"""Spells the repository's own definitions, lemmas, fields and locals of specs/ and proofs/ in snake case.

usage: python3 tools/spell_names.py          in the repository, once

Types and modules keep their names, and so do the names that the toolchain makes (a goal is declared at the type
'goal.NAME', a loop's invariant at its own name). Functions of src/ are in snake case already. In a comment a name is
turned where it is in camel case, or where it heads a line of a file's list of names. In a page of docs/ and in the
README a name is turned where it stands between backticks.
It stops before it writes anything if two names would fall together.
"""

import collections
import glob
import re
import sys

# Locals, which no declaration of their own shows.
LOCALS = "roomy-is some-free each-known lateMisses earlyMisses as-early is-least no-fault".split()

# A lemma that would fall together with the definition that it speaks of: (old name, folder) to its new name.
LEMMAS = {
    ("next-by", "crates/"): "next_by_is",
    ("record-by", "crates/"): "record_by_is",
    ("takes-by", "crates/"): "takes_by_is",
    ("misses-at", "crates/"): "misses_at_is",
    ("file-answer", "crates/"): "file_answer_is",
    ("row-shown", "crates/"): "row_shown_is",
    ("sum-from", "crates/"): "sum_from_is",
    ("most-of", "crates/"): "most_of_is",
    ("row-bits", "crates/"): "row_bits_is",
    ("put-all", "crates/"): "put_all_is",
    ("on-field", "crates/"): "on_field_is",
    ("on_row", "crates/driver/proofs/"): "on_row_is",
    ("in-range", "crates/pace/"): "in_range_is",
    ("in_order", "crates/pace/proofs/"): "in_order_is",
    ("ladder_of", "crates/pace/proofs/"): "ladder_of_is",
    ("ladder_of", "crates/pace/specs/"): "ladder_of_is",
}

DECLARED = re.compile(r"^\s*(?:(?:abbrev|pub|opaque|unfoldable) )*([a-z_][\w'\-]*)\s*:\s+(?!goal\.)")
MADE = re.compile(r"^(invariant|decreases)-loop|^invariant-of-")
NAME = re.compile(r"(?<![\w'\-])[a-z_][\w'\-]*[\w'](?![\w'\-])")


def is_old(name):
    return "-" in name or re.search(r"[a-z0-9][A-Z]", name) is not None


def snake(name):
    return re.sub(r"([a-z0-9])([A-Z])", lambda m: m[1] + "_" + m[2].lower(), name.replace("-", "_")).lower()


def declared(files):
    """Each declared name, with the files that declare it."""
    names = collections.defaultdict(set)
    for path in files:
        with open(path, encoding="utf-8") as f:
            for line in f:
                m = DECLARED.match(line)
                if m and not MADE.match(m[1]):
                    names[m[1]].add(path)
    return names


def spelled_in(path, names):
    """What each old name becomes in a file."""
    spelled = {name: snake(name) for name in [*names, *LOCALS] if is_old(name)}
    for (name, folder), new in LEMMAS.items():
        if path.startswith(folder):
            spelled[name] = new
    return spelled


def turn(text, spelled, keep=lambda name: False):
    return NAME.sub(lambda m: m[0] if keep(m[0]) else spelled.get(m[0], m[0]), text)


def turn_line(line, mark, spelled):
    code, found, comment = line, "", ""
    at = re.search(r"(?:^|\s)" + mark + r"(?:\s|$)", line)
    if at:
        code, found, comment = line[:at.start()], at[0], line[at.end():]
    heads = re.match(r"\s*([\w'\-]+)\s{2,}", comment)
    head = heads[1] if heads else None
    parts = re.split(r'("(?:[^"\\]|\\.)*")', code)
    code = "".join(p if i % 2 else turn(p, spelled) for i, p in enumerate(parts))
    return code + found + turn(comment, spelled, lambda name: "-" in name and name != head)


def rewrite(path, turned):
    with open(path, encoding="utf-8") as f:
        before = f.read()
    after = turned(before)
    if after != before:
        with open(path, "w", encoding="utf-8") as f:
            f.write(after)


def main():
    antt = sorted(glob.glob("crates/**/*.antt", recursive=True))
    names = declared(antt)
    by_new = collections.defaultdict(set)
    for name, paths in names.items():
        for path in paths:
            by_new[spelled_in(path, names).get(name, name)].add(name)
    together = {new: sorted(olds) for new, olds in by_new.items() if len(olds) > 1 and new not in ("in_range", "in_order")}
    if together:
        sys.exit("these names fall together: " + str(together))
    for path in antt + sorted(glob.glob("crates/**/*.rt", recursive=True) + glob.glob("crates/**/*.edit", recursive=True)):
        mark = "--" if path.endswith(".antt") else "//"
        spelled = spelled_in(path, names)
        rewrite(path, lambda text: "".join(turn_line(line, mark, spelled) for line in text.splitlines(keepends=True)))
    spelled = spelled_in("", names)
    for path in ["README.md"] + sorted(glob.glob("docs/*.md")):
        rewrite(path, lambda text: re.sub(r"`[^`\n]*`", lambda m: turn(m[0], spelled), text))
    print(f"{len(spelled)} names spelled in snake case")


if __name__ == "__main__":
    main()
