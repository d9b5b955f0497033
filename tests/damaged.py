#!/usr/bin/env python3
"""Runs run_calls on random and damaged call files and sees that each run comes to its end as docs/CALL-FILES.md lays it down.

    python3 tests/damaged.py [PROGRAM [FILES [SEED]]]     crates/run_calls/out/run_calls, 600 files and seed 4795 unless they are named

The files are made from the stored ones: cut, with octets changed, with entries shuffled, with random entries of the right size after a
good beginning, and of random octets. For each the exit status is 0, there is one line for each whole entry, of its kind and with its
interface, time and ID, and a line `end` exactly where an entry is cut, short, unknown or ill-sized, or has a slot that there is not. What
the calls decide is not looked at here. The exit status is 0 only if there were files, entries of hosts and of lookups, ends and ends by a
slot, and none went wrong.
"""

import random
import re
import struct
import subprocess
import sys
from pathlib import Path

ROOT = Path(__file__).resolve().parent.parent
SECONDS = 60
LONGEST = 262144

# kind: the word on its line, the fewest and the most octets of its body
KINDS = {
    31: ("table", 0, 65531),
    32: ("set-up", 91, 91),
    33: ("start", 16, 16),
    34: ("datagram", 51, 65531),
    35: ("tick", 15, 15),
    40: ("settings", 76, 76),
    41: ("ask", 19, 65531),
    42: ("answer", 56, 65531),
    43: ("ask-tick", 16, 16),
    54: ("name", 2, 65531),
}
LOOKUPS = (40, 41, 42, 43)
SLOTTED = (41, 42, 43)
SLOT = 15  # where the slot stands in the body
UNPREFIXED = ("table", "settings", "name")

SENT = r"to=\d+/[0-9a-f]{32}/\d+ len=\d+ hex=[0-9a-f]+"
BAD_TABLE = r"refused no=2 at=\d+"
FORMS = {
    "table": rf"good names=\d+|{BAD_TABLE}",
    "set-up": rf"ready|{BAD_TABLE}|refused no=(4|20)",
    "start": rf"shared name=\d+|query {SENT} name=\d+|{BAD_TABLE}|refused no=(1|3|4|12|19|21)",
    "datagram": rf"reply {SENT}|query {SENT} name=\d+|(stopped|kept) name=\d+|{BAD_TABLE}|refused no=(1|[3-9]|1[0-6])",
    "tick": rf"query {SENT} name=\d+|unique name=\d+|quiet|{BAD_TABLE}|refused no=(1|3|4)",
    "settings": "",
    "ask": rf"query {SENT}|refused no=(1|3|4|10|22)",
    "answer": r"(part|found) at=\d+ an=\d+|refused no=(1|[3-9]|10|1[5-8])",
    "ask-tick": rf"query {SENT}|found|none|quiet|refused no=(1|4)",
    "name": r"bad|next=\d+ pointers=\d+ labels=\d+ name=([0-9a-f]{2})+",
}


def whole_entries(octets):
    """The entries before the first that ends the run, and the line that the run then ends with, or None."""
    if len(octets) > LONGEST:
        return [], f"end at={LONGEST} why=long"
    found, place = [], 0
    while place < len(octets):
        why = flaw(octets, place)
        if why:
            return found, f"end at={place} why={why}"
        length, kind = struct.unpack_from("<HH", octets, place)
        found.append((kind, octets[place + 4 : place + length]))
        place += length
    return found, None


def flaw(octets, place):
    """Why the entry there ends the run, or None."""
    if len(octets) - place < 4:
        return "cut"
    length, kind = struct.unpack_from("<HH", octets, place)
    if length < 4:
        return "short"
    if place + length > len(octets):
        return "cut"
    if kind not in KINDS:
        return "kind"
    word, fewest, most = KINDS[kind]
    if not fewest <= length - 4 <= most or no_slot(kind, octets[place + 4 :]):
        return "size"
    return None


def no_slot(kind, body):
    """Whether the body names a slot that there is not."""
    return kind in SLOTTED and body[SLOT : SLOT + 1] > b"\3"


def ends_by_slot(octets, end):
    """Whether a run ends with this line at an entry whose size is right."""
    if not end or not end.endswith("why=size"):
        return False
    place = int(re.search(r"at=(\d+)", end)[1])
    length, kind = struct.unpack_from("<HH", octets, place)
    return KINDS[kind][1] <= length - 4 <= KINDS[kind][2]


def head(number, kind, body):
    """The beginning of the entry's line, which repeats what the entry says."""
    word = KINDS[kind][0]
    if word == "settings":
        return f"{number} {word}"
    if word in UNPREFIXED:
        return f"{number} {word} "
    interface, time, ident = struct.unpack_from("<BQH", body)
    return f"{number} {word} if={interface} t={time} id={ident} "


def well_formed(word, rest):
    """Whether the rest of a line is one of its kind's forms, with as many octets as it says."""
    if not re.fullmatch(FORMS[word], rest):
        return False
    lengths = re.findall(r"len=(\d+) hex=([0-9a-f]*)", rest)
    return all(2 * int(length) == len(digits) for length, digits in lengths)


def fault(octets, status, lines):
    """What is wrong with a run, or None."""
    if status != 0:
        return f"exit status {status}"
    entries, end = whole_entries(octets)
    if len(lines) != len(entries) + (end is not None):
        return f"{len(lines)} lines for {len(entries)} whole entries, {end or 'no end'}"
    for number, (kind, body) in enumerate(entries):
        start = head(number, kind, body)
        if not lines[number].startswith(start) or not well_formed(KINDS[kind][0], lines[number][len(start) :]):
            return f"the line {lines[number][:200]}"
    if end and lines[-1] != end:
        return f"{lines[-1][:200]} and not {end}"
    return None


def entry(kind, body):
    return struct.pack("<HH", 4 + len(body), kind) + body


class Maker:
    """Makes files from the stored ones."""

    def __init__(self, stored, seed):
        self.stored = stored
        self.entries = [entry(*one) for octets in stored for one in whole_entries(octets)[0] if len(one[1]) < 2000]
        self.random = random.Random(seed)

    def cut(self):
        octets = self.random.choice(self.stored)
        return octets[: self.random.randrange(len(octets) + 1)]

    def changed(self):
        octets = bytearray(self.random.choice(self.stored))
        for _ in range(self.random.randint(1, 6)):
            place = self.random.randrange(len(octets))
            octets[place] = self.random.choice((octets[place] ^ 1 << self.random.randrange(8), self.random.randrange(256)))
        return bytes(octets)

    def shuffled(self):
        return b"".join(self.random.choices(self.entries, k=self.random.randint(1, 60)))

    def prefixed(self):
        """The first entries of a stored file, then random ones of the right size."""
        entries = [entry(*one) for one in whole_entries(self.random.choice(self.stored))[0]]
        return b"".join(entries[: self.random.randint(1, 8)] + [self.random_entry() for _ in range(self.random.randint(1, 40))])

    def random_entry(self):
        kind = self.random.choice(list(KINDS))
        word, fewest, most = KINDS[kind]
        body = bytearray(self.random.randbytes(fewest + self.random.randrange(min(most - fewest, 300) + 1)))
        if word not in UNPREFIXED:
            struct.pack_into("<BQ", body, 0, self.random.randrange(5), self.random.choice((0, 300, 50000, 2**48 - 1, 2**48, 2**64 - 1)))
        if kind in SLOTTED and self.random.randrange(10):
            body[SLOT] = self.random.randrange(4)
        return entry(kind, bytes(body))

    def random_octets(self):
        return self.random.randbytes(self.random.randrange(400))

    def file(self):
        return self.random.choice((self.cut, self.changed, self.changed, self.shuffled, self.prefixed, self.random_octets))()


def stored_files():
    return [path.read_bytes() for folder in ("tests/cases", "example") for path in sorted((ROOT / folder).glob("*.calls"))]


def edges():
    """The empty file, the longest, and one that is too long."""
    tick = entry(35, bytes(15))
    ticks = tick * (LONGEST // len(tick) - 1)
    longest = ticks + entry(31, bytes(LONGEST - len(ticks) - 4))
    return [b"", longest, longest + b"\0"]


def run(program, octets):
    """The exit status, or why there is none, and the lines."""
    try:
        done = subprocess.run([program], input=octets, capture_output=True, timeout=SECONDS)
    except subprocess.TimeoutExpired:
        return f"none after {SECONDS} s", []
    text = done.stdout.decode("ascii", "replace")
    lines = text.split("\n")
    return (done.returncode, lines[:-1]) if lines[-1] == "" else ("of a line without its end", lines)


def try_file(program, octets, label):
    """Runs one file. Gives its whole entries, those of lookups, its ends, those by a slot, and its faults, as numbers."""
    found = fault(octets, *run(program, octets))
    if found:
        print(f"run_calls: {label}: {found}")
    entries, end = whole_entries(octets)
    lookups = sum(kind in LOOKUPS for kind, body in entries)
    return len(entries), lookups, int(end is not None), int(ends_by_slot(octets, end)), int(found is not None)


def main():
    arguments = sys.argv[1:]
    program = Path(arguments[0] if arguments else ROOT / "crates" / "run_calls" / "out" / "run_calls").resolve()
    count = int(arguments[1]) if len(arguments) > 1 else 600
    seed = int(arguments[2]) if len(arguments) > 2 else 4795
    stored = stored_files()
    if not program.exists() or not stored:
        print("run_calls or the stored call files are not there")
        return 1
    maker = Maker(stored, seed)
    files = edges() + [maker.file() for _ in range(count)]
    tallies = [try_file(program, octets, f"file {number} of seed {seed}") for number, octets in enumerate(files)]
    entries, lookups, ends, by_slot, wrong = map(sum, zip(*tallies))
    print(
        f"run_calls: {len(files)} random and damaged files with {entries} whole entries ({lookups} of lookups)"
        f" and {ends} ends ({by_slot} by a slot); {wrong} went wrong"
    )
    return 0 if count and entries > lookups > 0 and ends > by_slot > 0 and not wrong else 1


if __name__ == "__main__":
    sys.exit(main())
