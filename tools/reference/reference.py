#!/usr/bin/env python3
"""A second implementation of `bounds` and `play`, written from the rules and not from the crates, to check them by.

    reference.py bounds < sheet             the report of a sheet
    reference.py play SHEET < calls         what is played of calls
    reference.py sheet-cases < cases        the reports of cases as crates/sheet_cases has them
    reference.py play-cases < cases         what is played of cases as crates/play_cases has them

A case stands in one line, with `/` for byte 10; a case to play is a sheet and its calls, parted by `|`.
Where several rings reach cycle over parts, standard error names the case: any of them may be told.
"""
import sys

from figures import report
from plays import play


def texts_of(case):
    return [text.replace(b"/", b"\n") for text in case.rstrip(b"\n").split(b"|")]


def write(pieces):
    for piece in pieces:
        sys.stdout.buffer.write(piece)


def reports(cases):
    for number, case in enumerate(cases, 1):
        text, rings = report(texts_of(case)[0])
        if rings > 1:
            print(f"case {number}: {rings} critical rings", file=sys.stderr)
        yield text


def main():
    given = sys.stdin.buffer
    match sys.argv[1:]:
        case ["bounds"]:
            write([report(given.read())[0]])
        case ["play", sheet]:
            try:
                with open(sheet, "rb") as file:
                    text = file.read()
            except OSError:
                text = b""
            write(play(text, given.read()))
        case ["sheet-cases"]:
            write(reports(given))
        case ["play-cases"]:
            write(piece for case in given for piece in play(*texts_of(case)))
        case _:
            sys.exit(__doc__)


main()
