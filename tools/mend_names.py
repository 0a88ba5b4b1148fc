#!/usr/bin/env python3
"""In the proofs of functions, spells the names that come from the code as the code does: `is-digit` as `is_digit`.

A goal, step or field of a proof is named after the code's functions, variables and labels, which now keep their
underscores. Names of the library's lemmas, which a file imports, stay.
"""

import glob
import re
import sys

WORDS = ("in_ok", "in_err", "in_some", "in_none", "in_default", "type_inv", "overflow_cast", "overflow_add", "overflow_sub", "overflow_mul", "overflow_shl",
         "copy_from_slice", "is_empty", "is_some", "is_none", "is_ok", "is_err", "iter_mut", "split_at", "as_slice", "as_bytes", "to_vec", "from_le_bytes", "leading_zeros", "trailing_zeros")


def rust_names():
    names = set(WORDS)
    for path in glob.glob("crates/*/src/**/*.rt", recursive=True):
        with open(path, encoding="utf-8") as text:
            names.update(n for n in re.findall(r"[a-z][a-z0-9]*(?:_[a-z0-9]+)+", text.read()))
    return names


def imported(text):
    return {n.strip().split(" as ")[-1] for m in re.finditer(r"^use (?!\S*(?:Goals|Given)\.)[^{\n]*\.\{([^}]*)\}", text, re.M) for n in m[1].split(",")}


def main():
    kebab = {n.replace("_", "-"): n for n in rust_names()}
    longest = sorted(kebab, key=len, reverse=True)
    pattern = re.compile(r"(?<![^-])(" + "|".join(map(re.escape, longest)) + r")(?![^-])")
    for path in sorted(p for c in sys.argv[1:] for p in glob.glob(f"crates/{c}/proofs/**/*.antt", recursive=True) if p.count("/") > 3):
        with open(path, encoding="utf-8") as file:
            old = file.read()
        keep = imported(old)
        body = re.sub(r"[A-Za-z_][A-Za-z0-9_'-]*-[A-Za-z0-9_'-]+", lambda m: m[0] if m[0] in keep else pattern.sub(lambda k: kebab[k[1]], m[0]), old)
        if body != old:
            with open(path, "w", encoding="utf-8") as file:
                file.write(body)


main()
