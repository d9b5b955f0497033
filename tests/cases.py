#!/usr/bin/env python3
"""Runs run_calls on the stored call files and holds what it prints against the stored lines.

    python3 tests/cases.py [PROGRAM]     PROGRAM is crates/run_calls/out/run_calls unless it is named

The cases are the texts of tests/cases/ and example/. Beside each text stand its call file and its lines; that they are what the text gives
is checked too. Of each case that differs the first different line is shown. The exit status is 0 only if there were cases and none differs.
"""

import subprocess
import sys
from itertools import zip_longest
from pathlib import Path

ROOT = Path(__file__).resolve().parent.parent
FOLDERS = (ROOT / "tests" / "cases", ROOT / "example")
SECONDS = 60


def texts():
    return sorted(text for folder in FOLDERS for text in folder.glob("*.txt"))


def stray():
    """Call files and lines without a text."""
    stored = (path for folder in FOLDERS for pattern in ("*.calls", "*.lines") for path in folder.glob(pattern))
    return [path for path in stored if not path.with_suffix(".txt").exists()]


def as_made(cases):
    """Whether the files beside the texts are what they give; those that are not are printed."""
    return subprocess.run([sys.executable, ROOT / "calls" / "make.py", "--check", *cases]).returncode == 0


def printed(program, text):
    """The lines that the program prints; where it fails, a last one that says so."""
    with open(text.with_suffix(".calls"), "rb") as calls:
        try:
            run = subprocess.run([program], stdin=calls, capture_output=True, timeout=SECONDS)
        except subprocess.TimeoutExpired:
            return [f"(no end after {SECONDS} s)"]
    lines = run.stdout.decode("ascii", "replace").split("\n")
    return lines if run.returncode == 0 else lines + [f"(exit status {run.returncode})"]


def agrees(program, text):
    """Whether the program prints the stored lines, to the letter; the first difference is shown."""
    stored = text.with_suffix(".lines").read_text(encoding="ascii").split("\n")
    for expected, got in zip_longest(stored, printed(program, text), fillvalue="(nothing)"):
        if expected != got:
            print(f"{text.relative_to(ROOT)}\n  expected {expected}\n  printed  {got}")
            return False
    return True


def main():
    program = Path(sys.argv[1] if len(sys.argv) > 1 else ROOT / "crates" / "run_calls" / "out" / "run_calls").resolve()
    if not program.exists():
        print(f"{program} is not there: `rt run` in crates/run_calls, or `rt ci`, makes it")
        return 1
    cases = texts()
    if not cases or not as_made(cases) or stray():
        print("run_calls: no cases, or stored files that are not what a text gives", *stray())
        return 1
    results = [agrees(program, text) for text in cases]
    print(f"run_calls: {results.count(True)} cases as stored, {results.count(False)} not")
    return 0 if all(results) else 1


if __name__ == "__main__":
    sys.exit(main())
