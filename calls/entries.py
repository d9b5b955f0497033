"""The calls of a text as entries of a call file."""

import struct
from dataclasses import dataclass, field

import words as w

KINDS = {
    "table": 31,
    "set-up": 32,
    "start": 33,
    "datagram": 34,
    "tick": 35,
    "lookup-settings": 40,
    "ask": 41,
    "answer": 42,
    "ask-tick": 43,
    "name": 54,
}
TABLE_KINDS = {"unique": 1, "shared": 2, "A": 3, "AAAA": 4, "PTR": 5, "on": 6}
INTERFACES = ("if0", "if1", "if2", "if3")
ROOM = 4096
CACHE = 18432
PREFIX = {"if": (1, "0"), "t": (8, None), "id": (2, "0"), "room": (4, str(ROOM))}  # octets, and what it is if left out
UNUSED = bytes(19)


@dataclass
class Call:
    """One call of the text: its entry, and what the printed line repeats of it."""

    word: str
    number: int = 0
    offset: int = 0
    octets: bytes = b""
    prefix: dict = field(default_factory=dict)
    setting: bytes = UNUSED
    source: tuple = ()
    datagram: bytes = b""


class Reader:
    """Reads the calls of one text. Remembers settings, for `to=group`, `to=own` and the queries: the host's, those for lookups, and for each
    slot those of the interface that its lookup asks on."""

    def __init__(self):
        self.settings = self.lookup_settings = [UNUSED] * 4
        self.asks_on = {}

    def read(self, line):
        words = w.Words(line)
        word = words.take("a call")
        if word not in READERS:
            raise w.Mistake(f"not a call: {word}")
        call = Call(word)
        call.octets = READERS[word](self, call, words)
        words.end()
        return call

    def prefix(self, call, words, more=()):
        """Reads the options of a call, and gives the prefix and the other options."""
        options = words.options({*PREFIX, *more})
        values = {}
        for key, (size, usual) in PREFIX.items():
            values[key] = w.number(w.needed(options, key) if usual is None else options.get(key, usual), size)
        call.prefix = {key: values[key] for key in ("if", "t", "id")}
        return struct.pack("<BQHI", *values.values()), options

    def host_call(self, call, words, more=()):
        """The same, of a call of the host."""
        prefix, options = self.prefix(call, words, more)
        call.setting = setting_of(self.settings, call)
        return prefix, options

    def lookup_call(self, call, words, more=()):
        """The same, of a call of the lookup in a slot, with the slot after the prefix."""
        prefix, options = self.prefix(call, words, {"slot", *more})
        slot = w.number(options.get("slot", "0"), 1)
        if call.word == "ask":
            self.asks_on[slot] = setting_of(self.lookup_settings, call)
        call.setting = self.asks_on.get(slot, UNUSED)
        return prefix + bytes([slot]), options

    def table(self, call, words):
        """Entries of a table one after another; or octets as they stand. cut=N leaves off the last N."""
        options = words.options({"cut"})
        found = b""
        while words:
            found += table_entry(words)
        return entry(KINDS["table"], w.less(found, options))

    def set_up(self, call, words):
        prefix, options = self.prefix(call, words, INTERFACES)
        self.settings = self.lookup_settings = settings(options)
        return entry(KINDS["set-up"], prefix + b"".join(self.settings))

    def start(self, call, words):
        prefix, options = self.host_call(call, words, {"name"})
        return entry(KINDS["start"], prefix + bytes([w.number(w.needed(options, "name"), 1)]))

    def datagram(self, call, words):
        prefix, options = self.host_call(call, words, {"from", "to"})
        return entry(KINDS["datagram"], prefix + arrival(call, words, options))

    def tick(self, call, words):
        return entry(KINDS["tick"], self.host_call(call, words)[0])

    def settings_for_lookups(self, call, words):
        self.lookup_settings = settings(words.options(INTERFACES))
        return entry(KINDS["lookup-settings"], b"".join(self.lookup_settings))

    def ask(self, call, words):
        """NAME TYPE, then octets that are left over; less the last `cut` octets."""
        prefix, options = self.lookup_call(call, words, {"permission", "cut"})
        name = w.name(words.take("the name to look up"))
        asked_type = w.type_number(words.take("the type to look up"))
        octets = w.less(name + w.octets(words), options)
        permitted = w.number(options.get("permission", str(permission(octets))), 1)
        return entry(KINDS["ask"], prefix + struct.pack("<BH", permitted, asked_type) + octets)

    def answer(self, call, words):
        prefix, options = self.lookup_call(call, words, {"cache", "from", "to"})
        cache = w.number(options.get("cache", str(CACHE)), 4)
        return entry(KINDS["answer"], prefix + struct.pack("<I", cache) + arrival(call, words, options))

    def ask_tick(self, call, words):
        return entry(KINDS["ask-tick"], self.lookup_call(call, words)[0])

    def name(self, call, words):
        at = w.number(w.needed(words.options({"at"}), "at"), 2)
        return entry(KINDS["name"], struct.pack("<H", at) + w.octets(words))

    def any_entry(self, call, words):
        """An entry of any kind: entry KIND OCTETS."""
        kind = w.number(words.take("the kind"), 2)
        return entry(kind, w.octets(words))

    def raw(self, call, words):
        """Octets of the file as they stand."""
        return w.octets(words)


READERS = {
    "table": Reader.table,
    "set-up": Reader.set_up,
    "start": Reader.start,
    "datagram": Reader.datagram,
    "tick": Reader.tick,
    "lookup-settings": Reader.settings_for_lookups,
    "ask": Reader.ask,
    "answer": Reader.answer,
    "ask-tick": Reader.ask_tick,
    "name": Reader.name,
    "entry": Reader.any_entry,
    "raw": Reader.raw,
}


def entry(kind, body):
    """An entry of a call file or of a table: length and kind, low octet first, then the body."""
    length = 4 + len(body)
    if length > 0xFFFF:
        raise w.Mistake(f"an entry of {length} octets")
    return struct.pack("<HH", length, kind) + body


def settings(options):
    """The settings of the four interfaces; one that is not named is unused."""
    return [w.setting(options[key]) if key in options else UNUSED for key in INTERFACES]


def setting_of(all_settings, call):
    """The setting of the interface that the call's prefix names."""
    interface = call.prefix["if"]
    return all_settings[interface] if interface < 4 else UNUSED


def arrival(call, words, options):
    """Source, port, destination and octets of a datagram."""
    call.source = w.endpoint(w.needed(options, "from"))
    form = words.next()
    if form in ("query", "response"):
        words.take("the datagram")
        call.datagram = w.message(words, 0 if form == "query" else w.FLAGS["QR"])
    else:
        call.datagram = w.octets(words)
    to = destination(call.setting, options.get("to", "own" if form == "response" else "group"))
    source, port = call.source
    return source + struct.pack("<H", port) + to + call.datagram


def destination(setting, word):
    """`group` and `own` are the group and the address of the interface with this setting."""
    if word == "own":
        return setting[:17]
    return w.group(setting[0]) if word == "group" else w.address(word)


def permission(name):
    """What is written into the octet of permission: 1 for a name of several labels, else 0."""
    first = name[0] if name else 0
    second = name[1 + first :][:1]
    return int(first > 0 and second > b"\0")


def table_entry(words):
    """The next entry of a table: unique NAME, shared NAME, A ADDRESS, AAAA ADDRESS, PTR NAME, on INTERFACES, kind=K OCTETS; or octets alone."""
    word = words.take("an entry")
    if word.startswith("kind="):
        return entry(w.number(word[5:], 2), w.octets(w.Words(words.take("the entry's octets"))))
    if word not in TABLE_KINDS:
        return w.octets(w.Words(word))
    body = words.take(f"what belongs to {word}")
    return entry(TABLE_KINDS[word], table_body(word, body))


def table_body(word, body):
    if word == "on":
        return w.mask(body)
    return w.name(body) if word in ("unique", "shared") else w.record_data(word, body)
