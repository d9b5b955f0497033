#!/usr/bin/env python3
"""Makes call files for run_calls from a text with one line for each call. docs/CALL-FILES.md lays down the text and the files.

    calls/make.py TEXT.txt ...           writes TEXT.calls and, if the text says what is expected, TEXT.lines
    calls/make.py --check TEXT.txt ...   writes nothing; fails unless the stored files are what the texts give
    calls/make.py --show FILE.calls      prints a call file as a text that gives the same octets
"""

import argparse
import re
import sys
from pathlib import Path

import lines
import show
from entries import Reader
from words import Mistake, repeated

COMMENT = re.compile(r"(^|\s)#.*$")


def text_lines(text):
    """The number and the content of each line that has any: comments left out, lines that end in \\ joined, repeats written out."""
    begun, first = "", 0
    for number, line in enumerate(text.splitlines(), 1):
        first = first if begun else number
        begun += COMMENT.sub("", line).strip()
        if begun.endswith("\\"):
            begun = begun[:-1]
            continue
        if begun:
            yield first, repeated(begun)
        begun = ""
    if begun:
        raise Mistake("the last line ends in \\")


class Text:
    """One text: the octets of its call file, and its lines, if it has any."""

    def __init__(self, text):
        self.octets = b""
        self.lines = []
        self.reader = Reader()
        self.calls = []
        self.ended = False
        for number, line in text_lines(text):
            try:
                self.take(line)
            except Mistake as mistake:
                raise Mistake(f"line {number}: {mistake}") from None
        self.no_line_missing("the last call")

    def take(self, line):
        if line.startswith(">"):
            self.expect(line[1:])
        else:
            self.add(self.reader.read(line))

    def no_line_missing(self, last):
        if self.lines and not self.ended and len(self.lines) < len(self.calls):
            raise Mistake(f"{last} has no line beneath it")

    def add(self, call):
        self.no_line_missing("the call before this one")
        call.number, call.offset = len(self.calls), len(self.octets)
        self.octets += call.octets
        self.calls.append(call)

    def expect(self, text):
        if self.ended or len(self.lines) != len(self.calls) - 1:
            raise Mistake("a line that belongs to no call")
        self.lines.append(lines.line(self.calls[-1], text))
        self.ended = self.lines[-1].startswith("end ")


def made(path):
    """What belongs beside the text of this path: for each file its content, or None if there is to be none."""
    try:
        text = Text(path.read_text(encoding="utf-8"))
    except Mistake as mistake:
        raise Mistake(f"{path}: {mistake}") from None
    lines_file = "".join(line + "\n" for line in text.lines).encode() if text.lines else None
    return {path.with_suffix(".calls"): text.octets, path.with_suffix(".lines"): lines_file}


def write(files):
    for path, content in files.items():
        if content is not None:
            path.write_bytes(content)


def check(files):
    """Prints the files that are not stored as they are to be, and gives whether there are none."""
    stale = [path for path, content in files.items() if (path.read_bytes() if path.exists() else None) != content]
    for path in stale:
        print(f"{path} is not what its text gives")
    return not stale


def main():
    parser = argparse.ArgumentParser(description="Makes call files from texts.")
    choice = parser.add_mutually_exclusive_group()
    choice.add_argument("--check", action="store_true", help="write nothing; fail unless the stored files are what the texts give")
    choice.add_argument("--show", action="store_true", help="print call files as texts")
    parser.add_argument("files", nargs="+", type=Path)
    chosen = parser.parse_args()
    good = True
    try:
        for path in chosen.files:
            if chosen.show:
                print("\n".join(show.text(path.read_bytes())))
            elif chosen.check:
                good = check(made(path)) and good
            else:
                write(made(path))
    except (Mistake, OSError) as mistake:
        print(mistake, file=sys.stderr)
        return 1
    return 0 if good else 1


if __name__ == "__main__":
    sys.exit(main())
