"""The lines that a text expects, written out in full as run_calls prints them."""

import words as w

PORT = 5355
WHATS = {
    "table": ("good", "refused"),
    "set-up": ("ready", "refused"),
    "start": ("shared", "query", "refused"),
    "datagram": ("reply", "query", "stopped", "kept", "refused"),
    "tick": ("query", "unique", "quiet", "refused"),
    "lookup-settings": ("settings",),
    "ask": ("query", "refused"),
    "answer": ("part", "found", "refused"),
    "ask-tick": ("query", "found", "none", "quiet", "refused"),
    "name": ("bad", "next"),
}
REPEATS = ("tick", "ask-tick")
LOOKUPS = ("ask", "ask-tick")


def line(call, text):
    """The whole line for what stands after `>` beneath the call."""
    words = w.Words(text)
    first = words.next()
    if first == "end":
        return end(call, words)
    what = "next" if first.startswith("next=") else words.take("what the call gives")
    if what not in WHATS.get(call.word, ()):
        raise w.Mistake(f"no line of this call: {what}")
    fields = READERS[what](call, words, what)
    words.end()
    return " ".join([*head(call), *fields])


def head(call):
    """What the line repeats of the call. The line of settings for lookups has its number alone."""
    if call.word == "lookup-settings":
        return [str(call.number)]
    return [str(call.number), call.word, *(f"{key}={value}" for key, value in call.prefix.items())]


def end(call, words):
    words.take("end")
    why = words.take("why the run ends")
    words.end()
    return f"end at={call.offset} why={why}"


def alone(call, words, what):
    return [what]


def refused(call, words, what):
    """refused NUMBER, and with 2 at=OFFSET."""
    fields = [what, f"no={w.number(words.take('the number'))}"]
    return fields + required(words, "at") if words else fields


def required(words, *keys):
    """KEY=NUMBER for each of the keys."""
    options = words.options(set(keys))
    return [f"{key}={w.number(w.needed(options, key))}" for key in keys]


def good(call, words, what):
    return [what, *required(words, "names")]


def with_name(call, words, what):
    return [what, *required(words, "name")]


def found(call, words, what):
    """With the offset and number of a response's answers, except where a tick ends a lookup."""
    return [what] if call.word == "ask-tick" else [what, *required(words, "at", "an")]


def query(call, words, what):
    """query name=K [id=ID] NAME [TYPE [CLASS]]: to the group; the call's own ID, ANY and IN unless they are written. A lookup's query has no
    name=K."""
    options = words.options({"name", "id"})
    if call.word in LOOKUPS and "name" in options:
        raise w.Mistake("name= stands only with the queries of a host")
    served = [] if call.word in LOOKUPS else [f"name={w.number(w.needed(options, 'name'))}"]
    if call.word in REPEATS and "id" not in options:
        raise w.Mistake("id= is missing: a repeat has the ID of the first query")
    ident = w.number(options["id"], 2) if "id" in options else call.prefix["id"]
    asked = w.name(words.take("the name asked for"))
    asked_type = w.type_number(words.take("the type") if words else "ANY")
    asked_class = w.class_number(words.take("the class") if words else "IN")
    octets = w.big(ident, 0, 1, 0, 0, 0) + asked + w.big(asked_type, asked_class)
    return [what, *sent(w.group(call.setting[0]), PORT, octets), *served]


def reply(call, words, what):
    """reply [flags=FLAGS] RECORDS: to the query's source, with its ID and its question."""
    flags = w.flags(words.options({"flags"}).get("flags", "QR"), w.FLAGS["QR"])
    records, count = w.records(words)
    octets = call.datagram[:2] + w.big(flags, 1, count, 0, 0) + question(call.datagram) + records
    return [what, *sent(*call.source, octets)]


def question(datagram):
    """The octets of the question after the header."""
    place = 12
    while place < len(datagram) and datagram[place] > 0:
        place += 1 + datagram[place]
    if place + 5 > len(datagram):
        raise w.Mistake("the call has no datagram with a question")
    return datagram[12 : place + 5]


def sent(address, port, octets):
    return [f"to={address[0]}/{address[1:].hex()}/{port}", f"len={len(octets)}", f"hex={octets.hex()}"]


def name_read(call, words, what):
    """next=OFFSET pointers=COUNT labels=COUNT NAME, the name as expanded."""
    return [*required(words, "next", "pointers", "labels"), f"name={w.name(words.take('the name')).hex()}"]


READERS = {
    "refused": refused,
    "good": good,
    "ready": alone,
    "quiet": alone,
    "none": alone,
    "settings": alone,
    "bad": alone,
    "shared": with_name,
    "unique": with_name,
    "stopped": with_name,
    "kept": with_name,
    "query": query,
    "reply": reply,
    "part": found,
    "found": found,
    "next": name_read,
}
