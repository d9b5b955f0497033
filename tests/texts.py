#!/usr/bin/env python3
"""Tests calls/make.py by itself, without run_calls.

    python3 tests/texts.py

Each stored call file, and damaged ones made from them, is printed as a text, and the text gives the same octets. Words for octets stand for
those that are written out beside them. Texts with mistakes are refused, each with a message that says which line is wrong and why. The exit
status is 0 only if there were some of each and none failed.
"""

import sys
from pathlib import Path

ROOT = Path(__file__).resolve().parent.parent
sys.path.insert(0, str(ROOT / "calls"))

import damaged
import show
from make import Text
from words import Mistake

FILES = 300
SEED = 1035

MISTAKES = [
    ("walk t=0", "line 1: not a call: walk"),
    ("# nothing\n\ntick if=0", "line 3: t= is missing"),
    ("tick t=0 t=1", "line 1: t= comes twice"),
    ("tick t=0 if=256", "line 1: not a number of 1 octets: 256"),
    ("tick t=-1", "line 1: not a number of 8 octets: -1"),
    ("tick t=soon", "line 1: not a number: soon"),
    ("tick t=0 name=0", "line 1: not understood: name=0"),
    ("start t=0", "line 1: name= is missing"),
    ("set-up t=0 if0=192.0.2.17", "line 1: an interface without an interval: 192.0.2.17"),
    ("set-up t=0 if0=192.0.2.256/100", "line 1: not an address: 192.0.2.256"),
    ("set-up t=0 if0=4/c0000211/100", "line 1: an address of 4 octets instead of 16: 4/c0000211"),
    ("table unique", "line 1: what belongs to unique is missing"),
    ("table unique a..b", "line 1: a label of 0 octets"),
    ("table unique a\\256", "line 1: not an octet: \\256"),
    ("table A 2001:db8::17", "line 1: not an address for A: 2001:db8::17"),
    ("table unique a on", "line 1: what belongs to on is missing"),
    ("table unique a on 4", "line 1: an interface above 3: 4"),
    ("table unique a on 0,4", "line 1: an interface above 3: 0,4"),
    ("table unique a on 1,1", "line 1: interfaces that do not rise: 1,1"),
    ("table unique a on 2,0", "line 1: interfaces that do not rise: 2,0"),
    ("table unique a on 0, 2", "line 1: not a number: "),
    ("table unique a on A 192.0.2.17", "line 1: not a number: A"),
    ("table hex:abc", "line 1: not octets in hexadecimal: abc"),
    ("table scale3", "line 1: not octets: scale3"),
    ("table hex:{00*65532}", "line 1: an entry of 65536 octets"),
    ("datagram t=0 query scale3 A IN", "line 1: from= is missing"),
    ("datagram t=0 from=192.0.2.99:5555 query scale3 A IN", "line 1: the interface is unused: write the address and not `group`"),
    ("datagram t=0 from=192.0.2.99 to=192.0.2.17 query scale3 A IN", "line 1: an address without a port: 192.0.2.99"),
    ("datagram t=0 from=192.0.2.99:1 to=192.0.2.17 query scale3 A", "line 1: the question's class is missing"),
    ("datagram t=0 from=192.0.2.99:1 to=192.0.2.17 query flags=X scale3 A IN", "line 1: not a flag: X"),
    ("name at=0 pointer:16384", "line 1: not a pointer's target: 16384"),
    ("name at=0 name:x\n> next=3 pointers=0 x", "line 2: labels= is missing"),
    ("table cut=10 unique abc", "line 1: cut=10 of 9 octets"),
    ("tick t=0\n> maybe", "line 2: no line of this call: maybe"),
    ("tick t=0\n> ready", "line 2: no line of this call: ready"),
    ("entry 7 hex:\n> quiet", "line 2: no line of this call: quiet"),
    ("tick t=0\n> quiet\n> quiet", "line 3: a line that belongs to no call"),
    ("tick t=0\ntick t=0\n> quiet", "line 3: a line that belongs to no call"),
    ("tick t=0\n> quiet\ntick t=0\ntick t=0", "line 4: the call before this one has no line beneath it"),
    ("tick t=0\n> quiet\ntick t=0", "the last call has no line beneath it"),
    ("raw hex:00\n> end cut\ntick t=0\n> quiet", "line 4: a line that belongs to no call"),
    ("tick t=9\n> query name=0 scale3", "line 2: id= is missing: a repeat has the ID of the first query"),
    ("datagram t=0 from=192.0.2.99:1 to=192.0.2.17 hex:00\n> reply", "line 2: the call has no datagram with a question"),
    ("lookup-settings t=0", "line 1: not understood: t=0"),
    ("lookup-settings if0=192.0.2.99", "line 1: an interface without an interval: 192.0.2.99"),
    ("ask t=0 slot=256 scale3 A", "line 1: not a number of 1 octets: 256"),
    ("ask t=0", "line 1: the name to look up is missing"),
    ("ask t=0 scale3", "line 1: the type to look up is missing"),
    ("ask t=0 scale3 A IN", "line 1: not octets: IN"),
    ("ask t=0 cut=9 scale3 A", "line 1: cut=9 of 8 octets"),
    ("answer t=0 response scale3 A IN", "line 1: from= is missing"),
    ("answer t=0 from=192.0.2.17:1 query scale3 A IN", "line 1: the interface is unused: write the address and not `group`"),
    ("answer t=0 cache=4294967296 from=192.0.2.17:1 hex:", "line 1: not a number of 4 octets: 4294967296"),
    ("answer t=0 from=192.0.2.17:1 response scale3 A IN fields:A", "line 1: not the fields of a record: A"),
    ("answer t=0 from=192.0.2.17:1 response scale3 A IN fields:MX/scale3", "line 1: not the fields of a record: MX/scale3"),
    ("name at=0 fields:ttl=0", "line 1: not the fields of a record: ttl=0"),
    ("name at=0 fields:ttl=0/192.0.2.17", "line 1: not the fields of a record: ttl=0/192.0.2.17"),
    ("name at=0 fields:ttl=/A/192.0.2.17", "line 1: not a number: "),
    ("name at=0 fields:ttl=4294967296/A/192.0.2.17", "line 1: not a number of 4 octets: 4294967296"),
    ("name at=0 fields:A/ttl=0/192.0.2.17", "line 1: not octets in hexadecimal: 192.0.2.17"),
    ("answer t=0 from=192.0.2.17:1 response scale3 A IN\n> found", "line 2: at= is missing"),
    ("answer t=0 from=192.0.2.17:1 response scale3 A IN\n> part at=24", "line 2: an= is missing"),
    ("answer t=0 from=192.0.2.17:1 response scale3 A IN\n> none", "line 2: no line of this call: none"),
    ("ask-tick t=0 scale3 A", "line 1: not understood: scale3"),
    ("ask-tick t=0\n> found at=24 an=1", "line 2: not understood: at=24"),
    ("ask-tick t=0\n> query scale3 A", "line 2: id= is missing: a repeat has the ID of the first query"),
    ("lookup-settings if0=192.0.2.99/100\n> settings\nask t=0 scale3 A\n> query name=0 scale3 A", "line 4: name= stands only with the queries of a host"),
    ("tick t=0 \\", "the last line ends in \\"),
]


# Words on the left, and the octets that they stand for on the right.
WRITTEN = [
    ("fields:A/192.0.2.17", "hex:000100010000001e0004c0000211"),
    ("fields:ttl=30/A/192.0.2.17", "hex:000100010000001e0004c0000211"),
    ("fields:ttl=0/A/192.0.2.17", "hex:00010001000000000004c0000211"),
    ("fields:ttl=0x80000001/AAAA/2001:db8::17", "hex:001c000180000001001020010db8000000000000000000000017"),
    ("fields:ttl=4294967295/PTR/ttl=1/a", "hex:000c0001ffffffff00090774746c3d312f6100"),
    ("label:x pointer:12 name:y", "hex:0178c00c017900"),
]


def comes_back(octets):
    """Whether the call file, printed as a text, is what the text gives."""
    return Text("\n".join(show.text(octets))).octets == octets


def written(words, octets):
    """Whether the words stand for these octets, and a call file with them comes back."""
    file = Text(f"name at=0 {words}").octets
    return file == Text(f"name at=0 {octets}").octets and comes_back(file)


def refused(text, message):
    """Whether the text is refused with this message."""
    try:
        Text(text)
    except Mistake as mistake:
        return str(mistake) == message
    return False


def main():
    stored = damaged.stored_files()
    if not stored:
        print("no stored call files")
        return 1
    maker = damaged.Maker(stored, SEED)
    files = stored + [maker.file() for _ in range(FILES)]
    lost = [number for number, octets in enumerate(files) if not comes_back(octets)]
    for number in lost:
        print(f"texts: file {number} of seed {SEED} does not come back")
    other = [words for words, octets in WRITTEN if not written(words, octets)]
    for words in other:
        print(f"texts: not the octets that they stand for: {words}")
    taken = [text for text, message in MISTAKES if not refused(text, message)]
    for text in taken:
        print(f"texts: not refused as it should be: {text!r}")
    failed = len(lost) + len(other) + len(taken)
    print(f"texts: {len(files)} call files, {len(WRITTEN)} words and {len(MISTAKES)} mistakes, {failed} failed")
    return 1 if failed else 0


if __name__ == "__main__":
    sys.exit(main())
