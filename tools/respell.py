#!/usr/bin/env python3
"""Brings the repository's own definitions, lemmas and fields to snake case.

Run once, at the top of the repository, on what the kit's upgrade scripts left. It goes over the antt files, over the
ghost lines and clauses of the sources, over the must-fail edits, and over names that stand in backquotes in comments
and documents. Functions of src/, strings, goals of proofs, inputs and outputs keep their names.
"""

import collections
import glob
import re

# A name of ours that would fall together with one of the library's, or with another of ours.
SPECIAL = {
    "bit-and": "bit_at_and",
    "bit-or": "bit_at_or",
    "put-mid": "put_middle",
    "getD-joined": "slice_index_joined",
    "getD-seam": "slice_index_seam",
    "Led-on": "led_on",
}
HEAD = re.compile(r"\s*(?:(?:abbrev|unfoldable|pub|data|record|mutual) )*([^\s:(){}]+)(?: [({].*)? : (.*)")
NAME = re.compile(r"[^\s(){}\[\]:;,.|`\"]+")
ALIAS = re.compile(r"\bas ([A-Za-z_-]+)")


def antt_files():
    return sorted(glob.glob("crates/*/specs/**/*.antt", recursive=True) + glob.glob("crates/*/proofs/**/*.antt", recursive=True))


def own_names():
    """The names with a hyphen that the antt files declare, but for the goals that they answer."""
    found = collections.defaultdict(list)
    for path in antt_files():
        with open(path, encoding="utf-8") as text:
            for line in text:
                m = HEAD.match(line)
                if m and not line.strip().startswith(("--", "let ", "elim ")):
                    found[m[1]].append(m[2].strip())
    return {n for n, types in found.items() if "-" in n and not all(t.startswith("goal.") for t in types)}


def snake(name):
    """`markedOf` as `marked_of`, `key-of` as `key_of`; a name that begins with a capital stays."""
    if not name[0].islower():
        return name
    return re.sub(r"(?<=[a-z])([A-Z])", lambda m: "_" + m[1].lower(), name).replace("-", "_")


def respelled(text, names):
    return NAME.sub(lambda m: names.get(m[0], m[0]), text)


def antt(text, names):
    """A comment keeps its words, but for names in backquotes."""
    out = []
    for line in text.split("\n"):
        code, sep, comment = re.match(r"((?:(?!--).)*)(-- )?(.*)", line + " ").groups() if "--" in line else (line, "", "")
        if "--" in line:
            comment = re.sub(r"`[^`]*`", lambda m: respelled(m[0], names), comment[:-1])
            out.append(respelled(code, names) + (sep or "") + comment)
        else:
            out.append(respelled(code, names))
    return "\n".join(out)


def source(text, names):
    """Clauses and ghost lines hold names with a hyphen; Rust's own text has none but in strings and comments."""
    aliases = {}
    for line in text.split("\n"):
        if line.startswith("ghost use"):
            aliases.update((a, snake(a)) for a in ALIAS.findall(line) if snake(a) != a)
    names = dict(names, **aliases)
    out = []
    for line in text.split("\n"):
        ghost = re.match(r"\s*(pub )?(ghost|requires|ensures)\b", line)
        if ghost:
            out.append(respelled(line, names))
        else:
            out.append(re.sub(r"`[^`]*`", lambda m: respelled(m[0], names), line) if line.strip().startswith("//") else line)
    return "\n".join(out)


def main():
    names = {n: SPECIAL.get(n, snake(n) if n[0].islower() else n.replace("-", "_")) for n in own_names()}
    names["Led-on"] = SPECIAL["Led-on"]
    pages = ["README.md"] + sorted(glob.glob("docs/*.md"))
    for path in antt_files() + sorted(glob.glob("crates/*/src/**/*.rt", recursive=True)) + sorted(glob.glob("crates/*/must-fail/*.edit")) + pages:
        with open(path, encoding="utf-8") as file:
            old = file.read()
        if path.endswith(".antt"):
            new = antt(old, names)
        elif path.endswith(".rt"):
            new = source(old, names)
        elif path.endswith(".edit"):
            new = "\n".join(respelled(line, names) if re.match(r"(old|new): \s*(pub )?(ghost|requires|ensures|abbrev)\b", line) else line for line in old.split("\n"))
        else:
            new = re.sub(r"`[^`]*`", lambda m: respelled(m[0], names), old)
        if new != old:
            with open(path, "w", encoding="utf-8") as file:
                file.write(new)
    print(f"{len(names)} names respelled")


main()
