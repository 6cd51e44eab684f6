#!/usr/bin/env python3
"""In answers and invariants, gives the toolchain's names for goals and steps the underscores that the Rust names in them have.

usage: python3 tools/keep_rust_names.py LIBRARY CRATE..     in place, at the top; prints what it changed

LIBRARY is the toolchain's folder of sources, whose own names are left as they are.
"""
import os
import re
import sys

TOKEN = re.compile(r"(?<![\w'◌-])[A-Za-z][\w']*(?:-[\w']+)+(?![\w'◌]|-\w)")
WORDS = {"overflow_add", "overflow_sub", "overflow_mul", "overflow_cast", "overflow_shl", "overflow_shr", "overflow_step", "nonzero_div", "nonzero_rem", "slice_bounds", "offset_bounds", "invariant_of", "in_ok", "in_err", "in_default", "yielded_by", "from_residual"}


def walk(top, suffix):
    for d, dirs, fs in os.walk(top):
        dirs[:] = sorted(x for x in dirs if x not in ("out", "must-fail"))
        for f in sorted(fs):
            if f.endswith(suffix):
                yield os.path.join(d, f)


def read(p):
    with open(p, encoding="utf-8", errors="replace") as f:
        return f.read()


def library(kit):
    found = set()
    for top in (kit + "/std/lemmas", kit + "/core", kit + "/std", kit + "/std_alloc", kit + "/antt", kit + "/logic"):
        for p in walk(top, (".antt", ".md")):
            found |= set(TOKEN.findall(read(p)))
    return found


def main(source, crates):
    rust = set(WORDS)
    for p in walk("crates", ".rt"):
        rust |= set(re.findall(r"\b[a-z][a-z0-9]*(?:_[a-z0-9]+)+\b", read(p)))
    lib = library(source)

    def keep(n):
        parts, out, i = n.split("-"), [], 0
        while i < len(parts):
            for j in range(len(parts), i, -1):
                if j == i + 1 or "_".join(parts[i:j]) in rust:
                    out.append("_".join(parts[i:j]))
                    i = j
                    break
        return "-".join(out)

    for c in crates:
        for p in walk("crates/" + c + "/proofs", ("Answers.antt", "Invariants.antt")):
            old = read(p)
            changed = set()

            def one(m):
                n = m.group(0)
                dotted = old[m.start() - 1] == "."
                if n in lib and not dotted:
                    return n
                if keep(n) != n:
                    changed.add((n, keep(n)))
                return keep(n)

            new = TOKEN.sub(one, old)
            if new != old:
                with open(p, "w", encoding="utf-8") as f:
                    f.write(new)
                print(p, *(a + " > " + b for a, b in sorted(changed)), sep="\n    ")
    return 0


if __name__ == "__main__":
    sys.exit(main(sys.argv[1], sys.argv[2:]))
