#!/usr/bin/env python3
"""Brings the repository's own dashed names to the spelling in camel or snake case, in place.

usage: python3 tools/respell.py     once, at the top, after the toolchain's own script has turned the files

A name is the repository's own where a file of specs/ or proofs/ declares it (a definition, lemma, field,
constructor, parameter or local) or a `use` gives it by `as`. Capitalised names become CamelCase, others
snake_case. Names that the toolchain makes, of goals and steps, are left, and so are strings.
"""
import os
import re
import sys

IDENT = r"[^\s(){}\[\];,.:λ→×⊎≡\"@`|∷]+"
DECLARED = re.compile(r"\s*((?:(?:abbrev|unfoldable|pub|data|record) )*)(" + IDENT + r")((?: " + IDENT + r")*) (?:\{.*?\} |\(.*?\) )*:(?!=)")
ALSO = {"some-n", "no-grant"}  # argument names, which no form above shows
ENGLISH = {"in-time", "in-order", "token-free", "in-range", "one-step", "last-tick", "lead-and-pace-later"}


def files(suffixes):
    for d, dirs, fs in os.walk("crates"):
        dirs[:] = sorted(x for x in dirs if x not in ("out", "must-fail"))
        for f in sorted(fs):
            if f.endswith(suffixes):
                yield os.path.join(d, f)


def read(p):
    with open(p, encoding="utf-8") as f:
        return f.read()


def collect():
    own, made = set(), set()
    for p in files((".antt", ".rt")):
        t = read(p)
        made |= set(re.findall(r"\bgoal\.(" + IDENT + ")", t))
        for m in re.finditer(r"use [\w.+'-]+\.(?:Goals|Given)\.\{([^}]*)\}", t):
            made |= {x.strip() for x in m.group(1).split(",")}
        own |= set(re.findall(r"\bas (" + IDENT + r")(?=[,};\s])", "\n".join(l for l in t.split("\n") if re.match(r"\s*(ghost |pub )*use ", l))))
        if p.endswith(".rt"):
            continue
        for l in t.split("\n"):
            if l.lstrip().startswith(("--", "|")):
                continue
            m = DECLARED.match(l)
            if m:
                own |= {m.group(2), *m.group(3).split()}
            own |= {n for b in re.findall(r"[({]((?:" + IDENT + r" )+): ", l) for n in b.split()}
            own |= set(re.findall(r"\blet (" + IDENT + ")", l))
            own |= {n for b in re.findall(r"λ ((?:" + IDENT + r" )*" + IDENT + r")\.", l) for n in b.split()}
    own = {n for n in own if re.fullmatch(r"[A-Za-z][A-Za-z0-9_'-]*-[A-Za-z0-9_'-]*", n)}
    return (own | ALSO) - made


def spelled(n):
    if n[0].isupper():
        return "".join(p[:1].upper() + p[1:] for p in n.split("-"))
    return n.replace("-", "_")


TOKEN = re.compile(r"(?<![\w'◌-])[A-Za-z][\w']*(?:-[\w']+)+(?![\w'◌]|-\w)")


def respell(text, names, steps):
    """`steps`: leave what follows the record of a goal's steps, as in c.first-x.ensures."""

    def one(m):
        n = m.group(0)
        if n not in names:
            return n
        if steps and re.search(r"(?<![\w.'-])[cwl]\.$", text[max(0, m.start() - 8):m.start()]):
            return n
        return spelled(n)

    return TOKEN.sub(one, text)


def outside_strings(line, names, steps):
    """A line but for what stands in quotes; in a comment English words stay."""
    parts = re.split(r'("(?:[^"\\]|\\.)*")', line)
    return "".join(x if i % 2 else respell(x, names, steps) for i, x in enumerate(parts))


def main():
    names = collect()
    taken = {}
    for n in sorted(names):
        taken.setdefault(spelled(n), []).append(n)
    for new, olds in sorted(taken.items()):
        if len(olds) > 1:
            print("fall together:", new, olds)
    for p in files((".antt", ".rt")):
        old = read(p)
        lines = []
        for l in old.split("\n"):
            mark = "--" if p.endswith(".antt") else "//"
            is_comment = l.lstrip().startswith(mark)
            new = outside_strings(l, names - ENGLISH if is_comment else names, os.path.basename(p) in ("Answers.antt", "Invariants.antt"))
            if is_comment and new != l:
                print("comment:", p, new.strip()[:160])
            lines.append(new)
        new = "\n".join(lines)
        if new != old:
            with open(p, "w", encoding="utf-8") as f:
                f.write(new)
    words = {w for p in files((".antt",)) for w in re.findall(r"[\w']+", read(p))}
    for p in ["README.md"] + sorted("docs/" + f for f in os.listdir("docs") if f.endswith(".md") and not f.startswith("PORT")):
        old = read(p)
        gone = {n for n in TOKEN.findall(old) if spelled(n) in words}
        new = re.sub(r"`[^`\n]+`", lambda m: respell(m.group(0), names | gone, False), old)
        if new != old:
            with open(p, "w", encoding="utf-8") as f:
                f.write(new)
    return 0


if __name__ == "__main__":
    sys.exit(main())
