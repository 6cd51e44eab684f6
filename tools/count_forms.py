#!/usr/bin/env python3
"""Lists the places of older forms in the crates' sources, point by point, as docs/DESIGN-PASS.md counts them.

    tools/count_forms.py [COMMIT] [POINT]    of a commit, or of the files as they lie here
"""
import collections
import re
import subprocess
import sys
from pathlib import Path

TOP = Path(__file__).resolve().parent.parent

# Points that a line shows by itself.
LINES = {
    "1": r"^\s*(pub |pub\(crate\) )?enum |unreachable\(\)|=> (true|false),|-> u8$|None => (None|return)|let Ok\(_"
    r"|Ok\(\(\)\) => Ok|Some\(_\) =>|Some\(([a-z_]+)\) => (Ok|Some)\(|None => Err|Err\([a-z]+\) => (Err|\{)|fn is_done|-> usize\n",
    "3": r"^\s*('[a-z]+: )?(while|loop|for)\b(?!<).*\{",
    "4": r"fn (word|number|same|as_bytes|[a-z]+_of|put_number|put_fault|put_inlet|output)\(|impl(<.*>)? .*(From|TryFrom|Display|PartialEq|Eq|Ord|Clone)\b.* for "
    r"|fn new\(text: &\[u8\]\)|- b'0'|b'0' \+",
    "6": r"\[(u8|usize|bool|0u8|false|0, 1, 2.*); ?\d+\]|\[0, 1, 2|\b(at|len|head|first|step): usize\b|: Vec<|\(crate\) text: &'a \[u8\]",
    "7": r"\bmatch (self|\*self|kind|side_of|task|shape|token\.shape|word)\b|\bdyn\b|impl Fn|: fn\(",
}
NAMES = {
    "1": "enums of the shape of Option or Result, flags and sentinels, numbers in place of cases",
    "2": "functions of one shape, up to types, literals and names, and three lines that stand twice",
    "3": "loops",
    "4": "conversion, comparison and printing by hand, and the impls that are there",
    "5": "facts in three contracts or more, and parameters that travel together in three functions or more",
    "6": "fixed buffers, lengths and indices beside a buffer, vectors in structs",
    "7": "switches on cases",
}


def files(commit):
    if commit:
        names = subprocess.run(["git", "ls-tree", "-r", "--name-only", commit, "crates"], cwd=TOP, capture_output=True, text=True, check=True).stdout.split()
    else:
        names = [str(p.relative_to(TOP)) for p in sorted(TOP.glob("crates/*/src/*.rt"))]
    for name in names:
        if re.fullmatch(r"crates/\w+/src/\w+\.rt", name):
            if commit:
                text = subprocess.run(["git", "show", f"{commit}:{name}"], cwd=TOP, capture_output=True, text=True, check=True).stdout
            else:
                text = (TOP / name).read_text()
            yield name[len("crates/"):], text


def functions(text):
    """Each function: its line, its name, its head and clauses, its body."""
    for m in re.finditer(r"^( *)(?:pub |pub\(crate\) )?fn (\w+)", text, re.M):
        close = re.compile(r"^%s\}" % m[1], re.M).search(text, m.end())
        whole = text[m.start():close.end()] if close else text[m.start():]
        brace = re.search(r"(\{|^%s\{)\s*\n" % m[1], whole, re.M)
        same_line = re.search(r"\{\n", whole)
        own_line = re.search(r"^%s\{\n" % m[1], whole, re.M)
        at = own_line or same_line or brace
        if at and ";\n" not in whole[:at.start()]:
            yield text.count("\n", 0, m.start()) + 1, m[2], whole[:at.start()], whole[at.end():]


def shape(body):
    """The tokens of a body, with every literal, type and lowercase name made alike."""
    body = re.sub(r"//.*", "", body)
    out = []
    for t in re.findall(r"b?\"[^\"]*\"|b'[^']*'|\d[\d_]*|\w+|[^\s\w]", body):
        if re.match(r"b?[\"']|\d", t):
            out.append("0")
        elif t in ("if", "else", "match", "for", "while", "loop", "let", "mut", "return", "in", "self", "Some", "None", "Ok", "Err", "true", "false"):
            out.append(t)
        elif re.match(r"\w", t):
            out.append("X" if t[0].isupper() else "x")
        else:
            out.append(t)
    return tuple(out)


def point_two(sources):
    groups = collections.defaultdict(list)
    for name, text in sources:
        if "_tests" in name:
            continue
        for line, fn, _, body in functions(text):
            s = shape(body)
            if len(s) >= 8:
                groups[s].append(f"{name}:{line}: fn {fn}")
    for s, places in sorted(groups.items(), key=lambda g: g[1]):
        if len(places) > 1:
            yield from ((p, f"one of {len(places)} of a shape") for p in places)
    yield from repeated_lines(sources)


def repeated_lines(sources):
    """Three lines in a row that stand twice, up to the words that name a case, a number or a text."""
    seen = collections.defaultdict(list)
    for name, text in sources:
        if "_tests" in name:
            continue
        lines = [line.strip() for line in text.split("\n")]
        for i in range(len(lines) - 2):
            three = lines[i:i + 3]
            if any(re.match(r"(ghost|use|//|requires|ensures|#|pub(\(crate\))? |mod )", t) or not t for t in three):
                continue
            key = re.sub(r"::\w+|\b\d[\d_]*\b|b?\"[^\"]*\"", "_", "\n".join(three))
            if len(re.findall(r"\w+", key)) >= 5 and not all("=> _" in t or "=> Some(" in t for t in key.split("\n")):
                seen[key].append((name, i + 1))
    twice = {p: (key, len(places)) for key, places in seen.items() if len(places) > 1 for p in places}
    for (name, line), (key, count) in sorted(twice.items()):
        if (name, line - 1) not in twice:
            yield f"{name}:{line}", f"one of {count}: {key.splitlines()[0]} .."


def point_five(sources):
    facts, params = collections.defaultdict(list), collections.defaultdict(set)
    for name, text in sources:
        if "_tests" in name:
            continue
        crate = name.split("/")[0]
        for line, fn, head, _ in functions(text):
            for clause in re.findall(r"(?:requires|ensures) \w* ?\{ (.*) \}$", head, re.M):
                fact = re.sub(r"\.(old|now|new)\b", "", clause)
                facts[crate, fact].append(f"{name}:{line}: fn {fn}")
            types = re.sub(r"\s+", " ", head.split("ensures")[0].split("requires")[0])
            found = sorted(set(re.findall(r"(\w+): ([^,()]+(?:\([^)]*\))?)", types)))
            found = [f"{a}: {b.strip()}" for a, b in found]
            for i, a in enumerate(found):
                for b in found[i + 1:]:
                    params[crate, f"{a}, {b}"].add(f"{name}:{line}: fn {fn}")
    for table in (facts, params):
        for (crate, what), places in sorted(table.items()):
            if len(set(places)) > 2:
                yield crate, f"{len(set(places))} functions: {what}"


def main():
    args = sys.argv[1:]
    point = args.pop() if args and re.fullmatch(r"[1-7]", args[-1]) else None
    sources = list(files(args[0] if args else None))
    for p in "1234567":
        if point not in (None, p):
            continue
        if p == "2":
            found = list(point_two(sources))
        elif p == "5":
            found = list(point_five(sources))
        else:
            found = [(f"{name}:{i}", line.strip()) for name, text in sources for i, line in enumerate(text.split("\n"), 1)
                     if re.search(LINES[p], line) and not (p == "3" and re.search(r"^\s*(impl|ghost)", line))]
        print(f"## {p}: {NAMES[p]}: {len(found)} lines")
        for place, what in found:
            print(f"{place}\t{what}")
        print()


main()
