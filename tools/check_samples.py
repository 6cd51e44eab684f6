#!/usr/bin/env python3
"""Runs `bounds` and `play` on every file of samples/, and prints a line for each.

    tools/check_samples.py [BOUNDS PLAY]    the programs; without them those that are built, crates/NAME/out/NAME

What is printed has to be what tools/reference prints, byte by byte, and to have the lines that samples/README.md tells
of the file, in their order. A sheet that has no calls is played with their heading alone.
"""
import re
import subprocess
import sys
import tempfile
from pathlib import Path

TOP = Path(__file__).resolve().parent.parent
SAMPLES = TOP / "samples"
REFERENCE = [sys.executable, TOP / "tools" / "reference" / "reference.py"]
NO_CALLS = b"call task value\n"


def printed(command, given, folder=TOP):
    return subprocess.run(command, input=given, stdout=subprocess.PIPE, cwd=folder, check=True).stdout


def told():
    """Of each file the lines that README.md tells: what stands as code in its row's last cell."""
    rows = re.findall(r"^\| `(\S+)` \|.*\|(.*)\|$", (SAMPLES / "README.md").read_text(), re.M)
    return {name: re.findall(r"`(.*?)`", cell) for name, cell in rows}


def reported(bounds, sheet):
    text = sheet.read_bytes()
    return printed([bounds], text), printed([*REFERENCE, "bounds"], text)


def played(play, sheet, calls):
    with tempfile.TemporaryDirectory() as folder:
        Path(folder, "sheet").write_bytes(sheet.read_bytes())
        return printed([play], calls, folder), printed([*REFERENCE, "play", sheet], calls)


def checks(bounds, play):
    """What was run, on which sample, and what it printed with what the reference prints."""
    for sheet in sorted(SAMPLES.glob("*.sheet")):
        yield f"bounds < {sheet.name}", sheet.name, reported(bounds, sheet)
        yield f"play of {sheet.name} without calls", None, played(play, sheet, NO_CALLS)
    for calls in sorted(SAMPLES.glob("*.calls")):
        sheet = SAMPLES / f"{calls.name.split('.')[0]}.sheet"
        yield f"play of {sheet.name} < {calls.name}", calls.name, played(play, sheet, calls.read_bytes())


def has_in_order(lines, wanted):
    left = iter(lines)
    return all(line in left for line in wanted)


def main():
    names = sys.argv[1:] or [TOP / "crates" / name / "out" / name for name in ("bounds", "play")]
    claims, faults = told(), 0
    for missing in (name for name in claims if not (SAMPLES / name).exists()):
        faults += 1
        print(f"NOT THERE: {missing}")
    for run, sample, (ours, reference) in checks(*(Path(name).resolve() for name in names)):
        verdict = "same"
        if ours != reference:
            verdict = "NOT AS THE REFERENCE"
        elif sample and not (claims.get(sample) and has_in_order(ours.decode().split("\n"), claims[sample])):
            verdict = "NOT AS README.md TELLS"
        faults += verdict != "same"
        print(f"{verdict}: {run}")
    sys.exit(faults > 0)


main()
