#!/usr/bin/env python3
"""Turns a capture into calls of our host in a captured host's place, or of our lookup in a captured asker's place.

    captures/convert.py host CAPTURE ADDRESS       the calls of our host, as a text that calls/make.py takes
    captures/convert.py lookup CAPTURE ADDRESS     the calls of our lookups

places.py has the captures and addresses. A call stands 1,000 ms after the captured millisecond; `# line N` names the line that it stands for.
Left out are TCP, datagrams between others, in a host's run the queries of lookups on that host, and in a lookup's run what no lookup sends, with
the responses to it.
"""

import sys
from collections import Counter
from dataclasses import dataclass, replace
from pathlib import Path

import lines as captured
from places import ASKERS, HOSTS

ROOT = Path(__file__).resolve().parent.parent
sys.path.insert(0, str(ROOT / "calls"))

import show  # noqa: E402
import words  # noqa: E402

BASE = 1000  # the first line's time in the calls
INTERVAL = 100
SENDS = 3
SLOTS = 4
OTHERS, TCP, LOOKUPS, NO_LOOKUP = "between others", "TCP", "of its own lookups", "no lookup's query or its response"


@dataclass(frozen=True)
class Step:
    """One call: its words, the captured line that it stands for, and what was sent at this place there, if anything was. Without words it is no
    call: what was sent has no like in our run."""

    text: str
    line: captured.Line | None = None
    sent: captured.Line | None = None


@dataclass
class Run:
    """The calls of one run, and how many lines were left out, by the reason."""

    steps: list
    left_out: Counter

    def text(self):
        notes = ((step.text, f"  # line {step.line.number}" if step.line else "") for step in self.steps)
        return "".join(f"{text}{note}\n" for text, note in notes if text)


def prefix(word, time, interface, ident):
    return f"{word} t={time} if={interface} id={ident}"


def arrival(line):
    """Where a captured datagram comes from and goes to, and its octets."""
    source = words.address(line.source)
    octets = f" hex:{line.octets.hex()}" if line.octets else ""
    return f"from={show.endpoint_text(source, line.port)} to={line.to}{octets}"


def settings(addresses):
    return " ".join(f"if{interface}={address}/{INTERVAL}" for interface, address in enumerate(addresses))


# Our host in a captured host's place


def names_of(table):
    """The names of a table in the words of calls/make.py, in their order, folded."""
    entries = table.split()
    return [words.name(body).lower() for kind, body in zip(entries[::2], entries[1::2]) if kind in ("unique", "shared")]


def set_up(place, table):
    """The host before the first line: set up, and if it is up then, all its names started and checked on both interfaces."""
    steps = [Step(f"table {table}"), Step(f"{prefix('set-up', 0, 0, 0)} {settings(place.addresses)}")]
    if not place.up:
        return steps
    for interface in (0, 1):
        steps += [Step(f"{prefix('start', 0, interface, 0)} name={name}") for name in range(len(names_of(table)))]
    if "unique" in table.split():
        for time in range(INTERVAL, INTERVAL * (SENDS + 1), INTERVAL):
            steps += [Step(prefix("tick", time, interface, 0)) for interface in (0, 1) for _ in names_of(table)]
    return steps


def checks_name(line):
    """Whether a query is one of a uniqueness check: from port 5355, of type 255."""
    return line.is_plain_query and line.port == captured.PORT and line.question[-4:-2] == b"\0\xff"


def own_check(place, line, seen):
    """A query of the captured host's check. Of a name that starts in the capture the first is a start, each repeat a tick; else it has no call."""
    names = names_of(place.table)
    name = line.question[:-4].lower() if line.question else b""
    if place.up or name not in names:
        return Step("", line, line)
    time, key = BASE + line.time, (line.interface, line.ident)
    if key in seen:
        return Step(prefix("tick", time, line.interface, line.number), line, line)
    seen.add(key)
    return Step(f"{prefix('start', time, line.interface, line.ident)} name={names.index(name)}", line, line)


def reaches(place, line):
    """Whether a line is a datagram of another that reaches this place."""
    return line.proto == "udp" and line.source not in place.addresses and line.to in (*place.addresses, *captured.GROUPS)


def is_own_check(place, line):
    return line.proto == "udp" and line.source in place.addresses and checks_name(line)


def is_own_lookup(place, line):
    return line.proto == "udp" and line.source in place.addresses and not line.is_response and not checks_name(line)


def received(place, lines):
    """For each line the datagrams that are delivered there, with the captured answer or None. Each is delivered where it was captured; but one
    that was captured before the host's own query and answered after it is delivered after that query: it was already checking then."""
    placed = {}
    sent = [line for line in lines if line.source in place.addresses and line.proto == "udp"]
    for line in lines:
        if reaches(place, line):
            answer = None if line.is_response else captured.answer_to(line, sent)
            begun = [own for own in sent if is_own_check(place, own) and own.interface == line.interface]
            late = answer and begun and line.number < begun[0].number < answer.number
            placed.setdefault(begun[0].number if late else line.number, []).append((line, answer))
    return placed


def datagram(time, query, answer):
    return Step(f"{prefix('datagram', time, query.interface, query.number)} {arrival(query)}", query, answer)


class Ticks:
    """The ticks that end a check, an interval after its third query, and a defence, an interval after the conflict notification."""

    def __init__(self):
        self.due = []
        self.sent = Counter()

    def after_check(self, query):
        check = (query.interface, query.ident)
        self.sent[check] += 1
        if self.sent[check] == SENDS:
            self.due.append((BASE + query.time + INTERVAL, query.interface))

    def after_received(self, time, query):
        if query.flags & captured.CONFLICT and not query.is_response:
            self.due.append((time + INTERVAL, query.interface))

    def until(self, now):
        """Those that are due by this time, no more in the list."""
        ready = sorted(tick for tick in self.due if tick[0] <= now)
        self.due = [tick for tick in self.due if tick[0] > now]
        return [Step(prefix("tick", time, interface, 0)) for time, interface in ready]


def host(place):
    """Our host in the place of a captured one."""
    lines, seen, ticks = captured.read(place.capture), set(), Ticks()
    placed, steps, left_out = received(place, lines), set_up(place, place.table), Counter()
    for line in lines:
        time = BASE + line.time
        steps += ticks.until(time)
        if line.proto != "udp":
            left_out[TCP] += 1
        elif line.source not in place.addresses and not reaches(place, line):
            left_out[OTHERS] += 1
        elif is_own_lookup(place, line):
            left_out[LOOKUPS] += 1
        if is_own_check(place, line):
            steps.append(own_check(place, line, seen))
            ticks.after_check(line)
        for query, answer in placed.get(line.number, ()):
            steps.append(datagram(time, query, answer))
            ticks.after_received(time, query)
    steps += ticks.until(BASE + lines[-1].time + INTERVAL)
    return Run(steps, left_out)


# Our lookup in a captured asker's place


@dataclass
class Asked:
    """A lookup that waits: its slot, its query and how many times it has been sent, and when it was sent last."""

    slot: int
    query: captured.Line
    sends: int
    last: int
    heard: bool = False  # a response has come, though none that ended it

    def same(self, line):
        """Whether a query is this one again: from the same port, with the same question and ID. llmnr-query, which asks each time from a new
        port, repeats with another ID if nothing was heard."""
        mine = self.query
        alike = (mine.interface, mine.port, mine.question) == (line.interface, line.port, line.question)
        return alike and (mine.ident == line.ident or not (self.heard or mine.port == captured.PORT))

    def answered_by(self, line):
        return (line.to, line.to_port, line.ident) == (self.query.source, self.query.port, self.query.ident)


class Lookups:
    """The calls of the lookups of one asker."""

    def __init__(self, place, queries):
        self.queries = queries
        self.waiting = []
        self.steps = [Step(f"lookup-settings {settings(place.addresses)}")]
        self.left_out = Counter()

    def run_out(self, now, number):
        """The ticks that are due before this time, of lookups that the captured asker does not go on with from the line of this number on."""
        later = [query for query in self.queries if query.number >= number]
        for asked in list(self.waiting):
            gone_on = any(asked.same(query) for query in later)
            while not gone_on and asked in self.waiting and asked.last + INTERVAL < now:
                self.tick(asked, asked.last + INTERVAL)

    def tick(self, asked, time, line=None):
        text = f"{prefix('ask-tick', time, asked.query.interface, 0)} slot={asked.slot}"
        self.steps.append(Step(text, line, line))
        asked.last, asked.sends = time, asked.sends + 1
        if asked.sends > SENDS:
            self.waiting.remove(asked)

    def ask(self, line):
        """A new lookup, in the lowest free slot. Where none is free it takes that of the longest waiting one."""
        if len(self.waiting) == SLOTS:
            self.waiting.pop(0)
        slot = min(set(range(SLOTS)) - {asked.slot for asked in self.waiting})
        name = show.name_text(line.question, 0)[0]
        qtype = show.type_text(int.from_bytes(line.question[-4:-2], "big"))
        head = prefix("ask", BASE + line.time, line.interface, line.ident)
        self.steps.append(Step(f"{head} slot={slot} {name} {qtype}", line, line))
        self.waiting.append(Asked(slot, line, 1, BASE + line.time))

    def query(self, line):
        if not line.is_plain_query:
            self.left_out[NO_LOOKUP] += 1
            return
        again = [asked for asked in self.waiting if asked.same(line)]
        if again:
            self.tick(again[0], BASE + line.time, line)
        else:
            self.ask(line)

    def response(self, line):
        asked = [asked for asked in self.waiting if asked.answered_by(line)]
        if not asked:
            self.left_out[NO_LOOKUP] += 1
            return
        head = f"{prefix('answer', BASE + line.time, line.interface, 0)} slot={asked[0].slot}"
        self.steps.append(Step(f"{head} {arrival(line)}", line))
        asked[0].heard = True
        if not line.flags & (captured.TENTATIVE | captured.CONFLICT):
            self.waiting.remove(asked[0])


def lookup(place):
    """Our lookups in the place of a captured asker."""
    lines = captured.read(place.capture)
    lookups = Lookups(place, [line for line in lines if line.source in place.addresses and line.is_plain_query])
    for line in lines:
        if line.proto != "udp":
            lookups.left_out[TCP] += 1
            continue
        lookups.run_out(BASE + line.time, line.number)
        if line.source in place.addresses and not line.is_response:
            lookups.query(line)
        elif line.to in place.addresses and line.is_response:
            lookups.response(line)
        else:
            lookups.left_out[OTHERS] += 1
    lookups.run_out(BASE + lines[-1].time + INTERVAL * (SENDS + 1), len(lines) + 1)
    return Run(lookups.steps, lookups.left_out)


# Our host and our lookup together


def together(host_place, asker, replies):
    """Our host with the captured names as shared ones, asked by our lookup for what the asker asked for. `replies` has what the host replied to
    the query of a line, as far as it is known."""
    lines = captured.read(asker.capture)
    steps = set_up(replace(host_place, up=True), host_place.table.replace("unique ", "shared ")) + [Step(f"lookup-settings {settings(asker.addresses)}")]
    lookups = Lookups(asker, [])
    for line in lines:
        if line.proto != "udp" or line.source not in asker.addresses or not line.is_plain_query:
            continue
        lookups.steps, lookups.waiting = [], []
        lookups.ask(line)
        steps += [*lookups.steps, datagram(BASE + line.time, line, None)]
        if line.number in replies:
            reply = replies[line.number]
            back = captured.Line(line.number, line.time, "udp", host_place.addresses[line.interface], captured.PORT, line.source, line.port, reply)
            steps.append(Step(f"{prefix('answer', BASE + line.time, line.interface, 0)} slot=0 {arrival(back)}", line))
        steps.append(Step(f"{prefix('ask-tick', BASE + line.time + INTERVAL, line.interface, 0)} slot=0", line))
    return Run(steps, Counter())


def main():
    runs = {"host": (host, HOSTS), "lookup": (lookup, ASKERS)}
    if len(sys.argv) != 4 or sys.argv[1] not in runs:
        print(__doc__.strip(), file=sys.stderr)
        return 2
    convert, places = runs[sys.argv[1]]
    found = [place for place in places if place.capture == sys.argv[2] and sys.argv[3] in place.addresses]
    if not found:
        print("no such place; there are:", *(f"{place.capture} {place.addresses[0]}" for place in places), sep="\n  ", file=sys.stderr)
        return 2
    run = convert(found[0])
    print(f"# {found[0].program}, {found[0].addresses[0]} and {found[0].addresses[1]}, in capture {found[0].capture}")
    print(run.text(), end="")
    return 0


if __name__ == "__main__":
    sys.exit(main())
