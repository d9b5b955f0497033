#!/usr/bin/env python3
"""Puts our host and our lookup into the places of other makers' programs in the captures, and holds what they do against what was captured.

    python3 tests/captures.py [--write] [--second PROGRAM] [PROGRAM]     PROGRAM is crates/run_calls/out/run_calls unless it is named

For each capture: our host in each captured host's place, each reply and query held against the captured one, octet by octet; our lookups in
each captured asker's place, with the captured IDs, fed the captured responses; and our host with the same names shared, asked by our
lookup. captures/differences.txt has every difference, and what our lookup made of each response; the run must give it to the letter, and
--write writes it anew. With --second the second program must print the same lines for every run. Then come the counts: the runs must reach
reply, stopped, kept, found and part.
"""

import argparse
import re
import subprocess
import sys
from collections import Counter
from itertools import zip_longest
from pathlib import Path

ROOT = Path(__file__).resolve().parent.parent
sys.path.insert(0, str(ROOT / "captures"))

import convert  # noqa: E402
import make  # noqa: E402
from places import ASKERS, HOSTS  # noqa: E402

STORED = ROOT / "captures" / "differences.txt"
REACHED = ("reply", "stopped", "kept", "found", "part")
FIELDS = re.compile(r"\d+ (?P<kind>\S+) if=\d+ t=\d+ id=\d+ (?P<what>\S+)(?: no=(?P<no>\d+))?(?P<rest>.*)")
SENT = re.compile(r" to=\d+/(?P<to>[0-9a-f]+)/(?P<port>\d+) len=\d+ hex=(?P<hex>[0-9a-f]*)")
SECONDS = 60
SHOWN = 40  # hexadecimal digits of a difference that are shown


class Printed:
    """A printed line of a call, taken apart."""

    def __init__(self, line):
        fields = FIELDS.match(line)
        self.kind, self.what = (fields["kind"], fields["what"]) if fields else ("", "")
        self.words = f"refused {fields['no']}" if fields and fields["no"] else self.what
        sent = SENT.match(fields["rest"]) if fields else None
        self.octets = bytes.fromhex(sent["hex"]) if sent else None
        self.to = (sent["to"], int(sent["port"])) if sent else None
        self.numbers = fields["rest"] if fields and not sent else ""


def lines_of(program, arguments, octets):
    run = subprocess.run([program, *arguments], input=octets, capture_output=True, timeout=SECONDS)
    lines = run.stdout.decode("ascii", "replace").splitlines()
    return lines if run.returncode == 0 else lines + [f"(exit status {run.returncode})"]


class Programs:
    """run_calls, and the second program if there is one; both must print the same."""

    def __init__(self, ours, second):
        self.ours, self.second = ours, second
        self.lines = 0
        self.differ = []

    def run(self, title, run):
        """For each step of the run its printed line, None for a step without a call."""
        octets = make.Text(run.text()).octets
        lines = lines_of(self.ours, (), octets)
        if self.second:
            for ours, theirs in zip_longest(lines, lines_of(self.second, ("run",), octets), fillvalue="(nothing)"):
                if ours != theirs:
                    self.differ.append(f"{title}\n  run_calls {ours}\n  second    {theirs}")
                    break
        self.lines += len(lines)
        calls = iter(lines)
        return [Printed(next(calls, "")) if step.text else None for step in run.steps]


def packed(line):
    """Where a captured datagram was sent, as a printed line says it."""
    return (convert.words.address(line.to)[1:].hex(), line.to_port)


def octets_differ(ours, theirs):
    """Where two datagrams differ first, and how they go on from there; None if they do not."""
    if ours == theirs:
        return None
    place = next((at for at, (one, other) in enumerate(zip(ours, theirs)) if one != other), min(len(ours), len(theirs)))
    one, other = ours[place:].hex(), theirs[place:].hex()
    return f"{len(ours)} octets, captured {len(theirs)}; from octet {place}: {shown(one)}, captured {shown(other)}"


def shown(digits):
    return "nothing" if not digits else digits if len(digits) <= SHOWN else f"{digits[:SHOWN]}.."


def held(step, printed):
    """What stands in the list about one step of our host: a word for the count, and the text or None."""
    number = step.line.number
    theirs, ours = step.sent, printed.octets if printed else None
    if theirs is None:
        return ("neither sends", None) if ours is None else ("only ours", f"line {number}: {printed.what} of {len(ours)} octets, captured none")
    if ours is None:
        what = printed.words if printed else "nothing"
        return "only theirs", f"line {number}: {what}, captured line {theirs.number} of {len(theirs.octets)} octets"
    found = octets_differ(ours, theirs.octets)
    if found is None and printed.to != packed(theirs):
        found = f"sent to {printed.to[0]} port {printed.to[1]}"
    return ("the same", None) if found is None else ("differ", f"line {number}: {printed.what} of {found}")


class Report:
    """The text of all differences, and the counts."""

    def __init__(self):
        self.text = []
        self.outcomes = Counter()

    def title(self, words, run):
        left = ", ".join(f"{count} {reason}" for reason, count in sorted(run.left_out.items()))
        self.text += ["", words + (f" (left out: {left})" if left else "")]

    def count(self, printed):
        self.outcomes.update(one.words for one in printed if one and one.kind)

    def summary(self, counts):
        self.text.append("  " + ", ".join(f"{word} {count}" for word, count in sorted(counts.items())))


def host_run(programs, report, place):
    run = convert.host(place)
    title = f"{place.capture}: our host in the place of {place.program} at {place.addresses[0]}"
    printed = programs.run(title, run)
    report.title(title, run)
    report.count(printed)
    counts, silent = Counter(), []
    for step, one in zip(run.steps, printed):
        if step.line is None:
            continue
        word, text = held(step, one)
        if step.line.is_response:
            word, text = "responses", f"line {step.line.number}: {one.words}"
        elif word == "neither sends":
            silent.append(f"{step.line.number} {one.words}")
        counts[word] += 1
        report.text += [f"  {text}"] if text else []
    report.text += [f"  neither sends at line {', '.join(silent)}"] if silent else []
    report.summary(counts)


def lookup_run(programs, report, place):
    run = convert.lookup(place)
    title = f"{place.capture}: our lookups in the place of {place.program} at {place.addresses[0]}"
    printed = programs.run(title, run)
    report.title(title, run)
    report.count(printed)
    counts = Counter()
    for step, one in zip(run.steps, printed):
        if step.line and step.line.is_response:
            counts["responses"] += 1
            report.text.append(f"  line {step.line.number}: {one.words}{one.numbers}")
        elif step.line:
            word, text = held(step, one)
            counts[word] += 1
            report.text += [f"  {text}"] if text else []
        elif one and one.what == "none":
            counts["no such name"] += 1
    report.summary(counts)


def together_run(programs, report, place, asker):
    title = f"{place.capture}: our host at {place.addresses[0]} with shared names, asked by our lookup at {asker.addresses[0]}"
    first = convert.together(place, asker, {})
    printed = programs.run(title, first)
    pairs = [(step, one) for step, one in zip(first.steps, printed) if step.line and one.what == "reply"]
    run = convert.together(place, asker, {step.line.number: one.octets for step, one in pairs})
    printed = programs.run(title, run)
    report.title(title, run)
    report.count(printed)
    report.summary(Counter(f"{one.kind} {one.words}" for step, one in zip(run.steps, printed) if step.line))


def all_runs(programs):
    report = Report()
    for place in HOSTS:
        host_run(programs, report, place)
    for place in ASKERS:
        lookup_run(programs, report, place)
    for place in HOSTS:
        for asker in ASKERS:
            if place.capture == asker.capture and place.addresses != asker.addresses:
                together_run(programs, report, place, asker)
    return report


def all_captures():
    return sorted(path.stem for path in (ROOT / "captures").glob("*.jsonl"))


def packets(captures):
    """How many lines the captures have, by protocol."""
    return Counter(line.proto for capture in captures for line in convert.captured.read(capture))


def unused():
    """Captures with lines of UDP that no place is in."""
    known = {place.capture for place in (*HOSTS, *ASKERS)}
    return [capture for capture in all_captures() if capture not in known and packets([capture])["udp"]]


def as_stored(text, write):
    """Whether the stored list of differences is this text; the first line that is not is shown."""
    if write:
        STORED.write_text(text, encoding="ascii")
    stored = STORED.read_text(encoding="ascii") if STORED.exists() else ""
    for one, other in zip_longest(stored.splitlines(), text.splitlines(), fillvalue="(nothing)"):
        if one != other:
            print(f"{STORED.relative_to(ROOT)} is not what the runs give\n  stored {one}\n  now    {other}")
            return False
    return True


def main():
    parser = argparse.ArgumentParser(description="Holds our host and lookup against other makers' captures.")
    parser.add_argument("--write", action="store_true", help="write captures/differences.txt anew")
    parser.add_argument("--second", type=Path, help="the second program, which must print the same lines")
    parser.add_argument("program", nargs="?", type=Path, default=ROOT / "crates" / "run_calls" / "out" / "run_calls")
    chosen = parser.parse_args()
    programs = Programs(chosen.program.resolve(), chosen.second.resolve() if chosen.second else None)
    report = all_runs(programs)
    good = as_stored("\n".join(report.text[1:]) + "\n", chosen.write)
    print("captures:", ", ".join(f"{word} {count}" for word, count in sorted(report.outcomes.items())))
    lines = packets(all_captures())
    print(f"captures: {lines['udp']} lines of UDP; {lines['tcp']} of TCP are left out")
    wrong = [f"no run reaches {word}" for word in REACHED if not report.outcomes[word]]
    wrong += [f"no place is in captures/{name}.jsonl" for name in unused()] + programs.differ
    for words in wrong:
        print(words)
    both = "run_calls and the second program" if chosen.second else "run_calls"
    print(f"captures: {len(HOSTS)} runs of a host, {len(ASKERS)} of lookups, {programs.lines} lines by {both}, {len(programs.differ)} runs differ")
    return 0 if good and not wrong else 1


if __name__ == "__main__":
    sys.exit(main())
