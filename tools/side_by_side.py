#!/usr/bin/env python3
"""Writes the section "Old and new, side by side" from the toolchain's comparison of contracts (its JSON on standard input), given the folder of the new tree."""
import json, re, subprocess, sys

d = json.load(sys.stdin)
root = sys.argv[1]
src = {}
for f in subprocess.check_output(["git", "-C", root, "ls-files", "crates/*/src/*.rt"], text=True).split():
    src[f] = open(f"{root}/{f}", encoding="utf-8").read()


def is_public(crate, name):
    n = name.split()[-1]
    return any(re.search(rf"^\s*pub fn {re.escape(n)}\b", t, re.M) for f, t in src.items() if f.startswith(f"crates/{crate}/"))


def clauses(kind, cs):
    return [f"    {kind}{' ' + n if n else ''} {{ {c} }}" for n, c in cs]


fns = {}
for name, old, new in d["signatures changed"]:
    if (old, new) == ("() -> u8", "()"):
        # told in words on the page
        continue
    fns.setdefault(name, ([], []))
    fns[name][0].append(old)
    fns[name][1].append(new)
for name, oreq, oens, nreq, nens in d["contracts changed"]:
    o, n = fns.setdefault(name, ([], []))
    o += clauses("requires", oreq) + clauses("ensures", oens)
    n += clauses("requires", nreq) + clauses("ensures", nens)


def block(entries):
    out = ["```diff"]
    for head, o, n in entries:
        out.append(f"  {head}")
        out += [f"- {x}" for x in o] + [f"+ {x}" for x in n]
    out.append("```")
    return "\n".join(out)


rest = [(n, o, w) for n, (o, w) in fns.items()]
public = [e for e in rest if is_public(e[0].split()[0], e[0])]
own = [e for e in rest if e not in public]
print("**Public functions, signatures and clauses**\n")
print(block(public))
print("\n**Functions of the crates' own, signatures and clauses**\n")
print(block(own))
g = d["ghost items and constants"]["changed"]
print("\n**Type invariants and the laws of impls**\n")
print(block([(f"{c} {t} {n}", o, w) for c, t, n, o, w in g]))


def statement(text, name):
    m = re.search(rf"(?<=\s){re.escape(name)}(?=\s|$)", text.split(":", 1)[1]) if ":" in text else None
    return (text[: len(text.split(":", 1)[0]) + 1 + m.start()] if m else text).strip()


defs, thms, same = [], [], []
for c, n, o, w in d["definitions"]["changed"]:
    is_def = any(re.match(r"(abbrev|pub record|pub data|record|data)\b", t) for t in o + w)
    if is_def:
        defs.append((f"{c} {n}", o, w))
        continue
    so, sw = [statement(t, n) for t in o], [statement(t, n) for t in w]
    (same if so == sw else thms).append((f"{c} {n}", so, sw))
print("\n**Definitions**\n")
print(block(sorted(defs)))
print("\n**Theorems (their statements; a module's parameters stand before them in the file)**\n")
print(block(sorted(thms)))
print("\nOnly the proof changed, not the statement: " + ", ".join(f"`{x[0].split()[0]}` {x[0].split()[1]}" for x in sorted(same)) + ".")
