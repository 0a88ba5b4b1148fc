#!/usr/bin/env python3
"""What stands together in three functions of a crate or more: facts of their `requires`, and neighbouring parameters.

A line for each: crate, how many functions, and the fact or the two parameters. Run at the top of the repository.
"""
import collections
import glob
import re


def functions(text):
    """The parameters and the required facts of each function."""
    for found in re.finditer(r"\bfn \w+(?:<[^({]*>)?\s*\(", text):
        depth, end = 1, found.end()
        while depth:
            depth += {"(": 1, ")": -1}.get(text[end], 0)
            end += 1
        parts = re.split(r",\s*(?![^<(\[]*[>)\]])", text[found.end() : end - 1])
        head = text[end : min(x for x in (text.find("\n{", end), text.find("\n    {", end), end + 4000) if x >= 0)]
        facts = re.findall(r"requires[* \w]*\{(.*)\}", head)
        yield [p.strip() for p in parts if ":" in p], facts


for crate in sorted(glob.glob("crates/*/src")):
    facts, pairs = collections.Counter(), collections.Counter()
    for path in glob.glob(crate + "/*.rt"):
        for parameters, required in functions(open(path).read()):
            for fact in {f.strip(" ()") for r in required for f in r.split("×")}:
                facts[fact] += 1
            for pair in set(zip(parameters, parameters[1:])):
                pairs[", ".join(re.sub(r"^mut ", "", p) for p in pair)] += 1
    for kind, counted in (("fact", facts), ("parameters", pairs)):
        for what, number in counted.most_common():
            if number >= 3:
                print(f"{crate.split('/')[1]}: {kind} in {number}: {what}")
