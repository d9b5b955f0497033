"""The words of a text line, and the octets that they stand for: names, addresses, questions and records as DNS writes them."""

import ipaddress
import re
import struct

TYPES = {"A": 1, "PTR": 12, "AAAA": 28, "ANY": 255}
CLASSES = {"IN": 1, "ANY": 255}
FLAGS = {"QR": 0x8000, "C": 0x0400, "TC": 0x0200, "T": 0x0100}
COUNTS = ("qd", "an", "ns", "ar")
TTL = 30  # unless another is given
GROUPS = {4: "224.0.0.252", 6: "ff02::1:3"}
REPEAT = re.compile(r"\{([^{}]*)\*(\d+)\}")
ESCAPE = re.compile(r"\\(\d\d\d)")


class Mistake(Exception):
    """A text that cannot be read; the message says why."""


class Words:
    """The words of one line, taken one after another."""

    def __init__(self, line):
        self.words = line.split()

    def __bool__(self):
        return bool(self.words)

    def next(self):
        return self.words[0] if self.words else ""

    def take(self, what):
        if not self.words:
            raise Mistake(f"{what} is missing")
        return self.words.pop(0)

    def options(self, allowed):
        """The words KEY=VALUE that come next, for the allowed keys."""
        found = {}
        while "=" in self.next() and self.next().split("=", 1)[0] in allowed:
            key, value = self.take("an option").split("=", 1)
            if key in found:
                raise Mistake(f"{key}= comes twice")
            found[key] = value
        return found

    def end(self):
        if self.words:
            raise Mistake(f"not understood: {self.words[0]}")


def needed(options, key):
    if key not in options:
        raise Mistake(f"{key}= is missing")
    return options[key]


def repeated(line):
    """The line with each {TEXT*COUNT} written out: TEXT, COUNT times."""
    while REPEAT.search(line):
        line = REPEAT.sub(lambda m: m.group(1) * int(m.group(2)), line)
    return line


def number(word, octets=8):
    """A number in decimal, or in hexadecimal after 0x, that fits into so many octets."""
    try:
        value = int(word, 0)
    except ValueError:
        raise Mistake(f"not a number: {word}") from None
    if not 0 <= value < 256**octets:
        raise Mistake(f"not a number of {octets} octets: {word}")
    return value


def big(*values):
    """16-bit numbers, high octet first, as messages have them."""
    return struct.pack(f">{len(values)}H", *values)


def from_hex(digits):
    try:
        return bytes.fromhex(digits)
    except ValueError:
        raise Mistake(f"not octets in hexadecimal: {digits[:40]}") from None


def octet(digits):
    if int(digits) > 255:
        raise Mistake(f"not an octet: \\{digits}")
    return bytes([int(digits)])


def label(text):
    """A label with its length octet. \\DDD is the octet with that decimal number."""
    parts = ESCAPE.split(text)
    octets = b""
    for place, part in enumerate(parts):
        octets += part.encode() if place % 2 == 0 else octet(part)
    if not 0 < len(octets) < 256:
        raise Mistake(f"a label of {len(octets)} octets")
    return bytes([len(octets)]) + octets


def name(word):
    """A name: labels with dots between them, `.` for the root, or hex:OCTETS as they stand."""
    if word.startswith("hex:"):
        return from_hex(word[4:])
    if word == ".":
        return b"\0"
    return b"".join(label(text) for text in word.split(".")) + b"\0"


def address(word):
    """An address, family and 16 octets: in its usual writing, or FAMILY/HEX with 32 digits."""
    if "/" in word:
        family, digits = word.split("/", 1)
        octets = from_hex(digits)
        if len(octets) != 16:
            raise Mistake(f"an address of {len(octets)} octets instead of 16: {word}")
        return bytes([number(family, 1)]) + octets
    try:
        value = ipaddress.ip_address(word.strip("[]"))
    except ValueError:
        raise Mistake(f"not an address: {word}") from None
    return bytes([value.version]) + value.packed.ljust(16, b"\0")


def group(family):
    if family not in GROUPS:
        raise Mistake("the interface is unused: write the address and not `group`")
    return address(GROUPS[family])


def endpoint(word):
    """An address and a port: 192.0.2.99:5555, [2001:db8::99]:5555 or FAMILY/HEX/PORT."""
    where, mark, port = word.rpartition("/" if "/" in word else ":")
    if not mark:
        raise Mistake(f"an address without a port: {word}")
    return address(where), number(port, 2)


def setting(word):
    """One interface: ADDRESS/INTERVAL."""
    where, mark, interval = word.rpartition("/")
    if not mark:
        raise Mistake(f"an interface without an interval: {word}")
    return address(where) + struct.pack("<H", number(interval, 2))


def octets(words):
    """The octets of all words that are left: hex:OCTETS, label:TEXT, name:NAME, pointer:TARGET, fields:[ttl=SECONDS/]TYPE/DATA."""
    found = b""
    while words:
        form, mark, text = words.take("octets").partition(":")
        if mark and form in OCTETS:
            found += OCTETS[form](text)
        else:
            raise Mistake(f"not octets: {form}")
    return found


def pointer(text):
    """A compression pointer: 14 bits after two that are set."""
    target = number(text, 2)
    if target > 0x3FFF:
        raise Mistake(f"not a pointer's target: {text}")
    return big(0xC000 | target)


def type_number(word):
    return TYPES[word] if word in TYPES else number(word, 2)


def class_number(word):
    return CLASSES[word] if word in CLASSES else number(word, 2)


def flags(word, usual):
    """Four hexadecimal digits are all the flags; names joined by + are added to the usual ones."""
    if re.fullmatch("[0-9a-fA-F]{4}", word):
        return int(word, 16)
    for flag in word.split("+"):
        if flag not in FLAGS:
            raise Mistake(f"not a flag: {flag}")
        usual |= FLAGS[flag]
    return usual


def question(words):
    """NAME TYPE CLASS."""
    asked = name(words.take("the question's name"))
    asked_type = type_number(words.take("the question's type"))
    return asked + big(asked_type, class_number(words.take("the question's class")))


def record_data(kind, word):
    """The data of an A, AAAA or PTR record."""
    if kind == "PTR":
        return name(word)
    found = address(word)
    if found[0] != {"A": 4, "AAAA": 6}[kind]:
        raise Mistake(f"not an address for {kind}: {word}")
    return found[1:5] if kind == "A" else found[1:]


def mask(word):
    """Interfaces by their numbers, joined by commas in rising order, as an octet with a bit for each."""
    interfaces = [number(one, 1) for one in word.split(",")]
    if max(interfaces) > 3:
        raise Mistake(f"an interface above 3: {word}")
    if interfaces != sorted(set(interfaces)):
        raise Mistake(f"interfaces that do not rise: {word}")
    return bytes([sum(1 << interface for interface in interfaces)])


def fields(text):
    """What a record has after its owner's name, from TYPE/DATA or ttl=SECONDS/TYPE/DATA: type, class 1, TTL, length of the data, data."""
    ttl, rest = TTL, text
    if text.startswith("ttl="):
        seconds, _, rest = text[4:].partition("/")
        ttl = number(seconds, 4)
    kind, mark, word = rest.partition("/")
    if kind not in ("A", "AAAA", "PTR") or not mark:
        raise Mistake(f"not the fields of a record: {text}")
    data = record_data(kind, word)
    return big(TYPES[kind], 1) + struct.pack(">IH", ttl, len(data)) + data


OCTETS = {"hex": from_hex, "label": label, "name": name, "pointer": pointer, "fields": fields}


def records(words):
    """The records that come next, as a reply has them: the name at offset 12, class 1, TTL 30. Gives their number too."""
    found, count = b"", 0
    while words.next() in ("A", "AAAA", "PTR"):
        kind = words.take("a record")
        found += pointer("12") + fields(f"{kind}/{words.take('the data of the record')}")
        count += 1
    return found, count


def less(octets, options):
    """The octets without the last ones, as many as cut= says."""
    cut = number(options.get("cut", "0"))
    if cut > len(octets):
        raise Mistake(f"cut={cut} of {len(octets)} octets")
    return octets[: len(octets) - cut]


def message(words, usual_flags):
    """[id=] [flags=] [qd=] [an=] [ns=] [ar=] [cut=] NAME TYPE CLASS, then records, then octets; less the last `cut` octets."""
    options = words.options({"id", "flags", "cut", *COUNTS})
    asked = question(words)
    answers, answer_count = records(words)
    usual = {"qd": 1, "an": answer_count, "ns": 0, "ar": 0}
    counts = [number(options[key], 2) if key in options else usual[key] for key in COUNTS]
    word = flags(options["flags"], usual_flags) if "flags" in options else usual_flags
    whole = big(number(options.get("id", "0"), 2), word, *counts) + asked + answers + octets(words)
    return less(whole, options)
