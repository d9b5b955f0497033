"""The lines of a capture, and what a message in one says."""

import json
import struct
from dataclasses import dataclass
from pathlib import Path

HERE = Path(__file__).resolve().parent
GROUPS = ("224.0.0.252", "ff02::1:3")
PORT = 5355
RESPONSE, CONFLICT, TENTATIVE = 0x8000, 0x0400, 0x0100


@dataclass(frozen=True)
class Line:
    """One packet of a capture. Lines are counted from 1."""

    number: int
    time: int  # whole milliseconds since the first line
    proto: str
    source: str
    port: int
    to: str
    to_port: int
    octets: bytes

    @property
    def interface(self):
        """Our interface 0 is IPv4, our interface 1 IPv6."""
        return int(":" in self.source)

    @property
    def ident(self):
        return int.from_bytes(self.octets[:2], "big")

    @property
    def flags(self):
        return int.from_bytes(self.octets[2:4], "big") if len(self.octets) >= 4 else 0

    @property
    def is_response(self):
        return bool(self.flags & RESPONSE)

    @property
    def question(self):
        """The octets of the question, or None where there is none that can be read."""
        place = 12
        while place < len(self.octets) and 0 < self.octets[place] < 64:
            place += 1 + self.octets[place]
        whole = place + 5 <= len(self.octets) and self.octets[place] == 0
        return self.octets[12 : place + 5] if whole else None

    @property
    def is_plain_query(self):
        """Whether a lookup could have sent it: flags 0, one question and nothing else, class 1, to the group."""
        question = self.question
        if question is None or self.to not in GROUPS:
            return False
        head = struct.pack(">6H", self.ident, 0, 1, 0, 0, 0)
        return self.octets == head + question and question[-2:] == b"\0\1"


def read(capture):
    """All lines of a capture, in its order."""
    found = []
    for number, text in enumerate((HERE / f"{capture}.jsonl").read_text(encoding="ascii").splitlines(), 1):
        packet = json.loads(text)
        found.append(
            Line(
                number,
                int(packet["t_ms"]),
                packet["proto"],
                packet["src"],
                packet["sport"],
                packet["dst"],
                packet["dport"],
                bytes.fromhex(packet["hex"]),
            )
        )
    return found


def answer_to(query, lines):
    """The first response to a query, of any host but the asker: from port 5355 to where it came from, with its ID; or None."""
    for line in lines:
        back = (line.to, line.to_port, line.ident) == (query.source, query.port, query.ident)
        if line.proto == "udp" and line.number > query.number and line.is_response and back:
            return line
    return None
