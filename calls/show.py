"""A call file as a text: each entry in the most readable form that gives the same octets, else its octets in hexadecimal."""

import ipaddress
import struct

import entries
import words as w

TYPE_WORDS = {value: word for word, value in w.TYPES.items()}
CLASS_WORDS = {value: word for word, value in w.CLASSES.items()}
TABLE_WORDS = {value: word for word, value in entries.TABLE_KINDS.items()}
PLAIN = set(b"-_/@[]^`~!$%&'()+,;<>?|\"") | set(b"0123456789abcdefghijklmnopqrstuvwxyzABCDEFGHIJKLMNOPQRSTUVWXYZ")
PREFIX = struct.Struct("<BQHI")


class Unreadable(Exception):
    """Octets that have no readable form."""


def text(octets):
    """The lines of the text."""
    reader, place, found = entries.Reader(), 0, []
    while place < len(octets):
        length = int.from_bytes(octets[place : place + 2], "little")
        if len(octets) - place < 4 or length < 4 or place + length > len(octets):
            return found + [f"raw {hexadecimal(octets[place:])}"]
        found.append(entry_text(reader, octets[place : place + length]))
        place += length
    return found


def entry_text(reader, octets):
    """The entry's line. A form is taken only if it gives the octets back."""
    kind, body = int.from_bytes(octets[2:4], "little"), octets[4:]
    for form in FORMS.get(kind, ()):
        try:
            line = form(body)
            if reader.read(line).octets == octets:
                return line
        except (Unreadable, w.Mistake, struct.error, IndexError):
            continue
    return f"entry {kind} {hexadecimal(body)}"


def hexadecimal(octets):
    return f"hex:{octets.hex()}"


def prefix_text(octets):
    interface, time, ident, room = PREFIX.unpack_from(octets)
    line = f"t={time} if={interface} id={ident}"
    return line if room == entries.ROOM else f"{line} room={room}"


def address_text(octets):
    """In its usual writing if that gives all 17 octets back."""
    used = {4: 4, 6: 16}.get(octets[0])
    if used and not any(octets[1 + used :]):
        return str(ipaddress.ip_address(octets[1 : 1 + used]))
    return f"{octets[0]}/{octets[1:].hex()}"


def endpoint_text(octets, port):
    where = address_text(octets)
    if "/" in where:
        return f"{where}/{port}"
    return f"[{where}]:{port}" if ":" in where else f"{where}:{port}"


def setting_texts(octets):
    for interface in range(4):
        one = octets[19 * interface : 19 * interface + 19]
        if one != entries.UNUSED:
            yield f"if{interface}={address_text(one[:17])}/{int.from_bytes(one[17:], 'little')}"


def label_text(octets):
    return "".join(chr(octet) if octet in PLAIN else f"\\{octet:03}" for octet in octets)


def name_text(octets, place):
    """The name without pointers that begins there, and where it ends."""
    labels = []
    while octets[place] > 0:
        end = place + 1 + octets[place]
        if octets[place] > 63 or end >= len(octets):
            raise Unreadable
        labels.append(label_text(octets[place + 1 : end]))
        place = end
    return ".".join(labels) or ".", place + 1


def table(body):
    """The table by its entries."""
    place, found = 0, ["table"]
    while place < len(body):
        length, kind = struct.unpack_from("<HH", body, place)
        if length < 4 or place + length > len(body):
            raise Unreadable
        found.append(table_entry_text(kind, body[place + 4 : place + length]))
        place += length
    return " ".join(found)


def table_entry_text(kind, body):
    """A readable entry if it gives the octets back, else its kind and octets."""
    try:
        return f"{TABLE_WORDS[kind]} {table_body_text(kind, body)}"
    except (KeyError, Unreadable, IndexError):
        return f"kind={kind} {hexadecimal(body)}"


def table_body_text(kind, body):
    if kind in (1, 2, 5):
        readable, end = name_text(body, 0)
        if end != len(body):
            raise Unreadable
        return readable
    if kind == 6:
        return mask_text(body)
    if len(body) != {3: 4, 4: 16}[kind]:
        raise Unreadable
    return str(ipaddress.ip_address(body))


def mask_text(body):
    """The interfaces of a mask that is good."""
    if len(body) != 1 or not 0 < body[0] < 16:
        raise Unreadable
    return ",".join(str(interface) for interface in range(4) if body[0] >> interface & 1)


def table_raw(body):
    return f"table {hexadecimal(body)}"


def set_up(body):
    return " ".join(["set-up", prefix_text(body), *setting_texts(body[15:])])


def start(body):
    return f"start {prefix_text(body)} name={body[15]}"


def tick(body):
    return f"tick {prefix_text(body)}"


def arrival_text(octets):
    """Where a datagram comes from and goes to."""
    (port,) = struct.unpack_from("<H", octets, 17)
    return f"from={endpoint_text(octets[:17], port)} to={address_text(octets[19:36])}"


def message_text(message):
    """A datagram by its header and question; what stands after the question in hexadecimal."""
    ident, flags, *counts = struct.unpack_from(">6H", message)
    asked, end = name_text(message, 12)
    asked_type, asked_class = struct.unpack_from(">HH", message, end)
    line = f"{'response' if flags & w.FLAGS['QR'] else 'query'} id={ident} flags={flags:04x}"
    for key, usual, count in zip(w.COUNTS, (1, 0, 0, 0), counts):
        if count != usual:
            line += f" {key}={count}"
    line += f" {asked} {type_text(asked_type)} {CLASS_WORDS.get(asked_class, asked_class)}"
    return f"{line} {hexadecimal(message[end + 4:])}" if message[end + 4 :] else line


def type_text(number):
    return TYPE_WORDS.get(number, number)


def datagram_head(body):
    return f"datagram {prefix_text(body)} {arrival_text(body[15:])}"


def datagram(body):
    return f"{datagram_head(body)} {message_text(body[51:])}"


def datagram_raw(body):
    return f"{datagram_head(body)} {hexadecimal(body[51:])}"


def lookup_settings(body):
    return " ".join(["lookup-settings", *setting_texts(body)])


def lookup_prefix_text(body):
    return f"{prefix_text(body)} slot={body[15]}"


def ask_head(body):
    line = f"ask {lookup_prefix_text(body)}"
    return line if body[16] == entries.permission(body[19:]) else f"{line} permission={body[16]}"


def asked_type_text(body):
    return type_text(int.from_bytes(body[17:19], "little"))


def ask(body):
    """The name by its labels; octets that are left over in hexadecimal."""
    asked, end = name_text(body[19:], 0)
    line = f"{ask_head(body)} {asked} {asked_type_text(body)}"
    return f"{line} {hexadecimal(body[19 + end:])}" if body[19 + end :] else line


def ask_raw(body):
    return f"{ask_head(body)} {hexadecimal(body[19:])} {asked_type_text(body)}"


def answer_head(body):
    (cache,) = struct.unpack_from("<I", body, 16)
    line = f"answer {lookup_prefix_text(body)}"
    return f"{line if cache == entries.CACHE else f'{line} cache={cache}'} {arrival_text(body[20:])}"


def answer(body):
    return f"{answer_head(body)} {message_text(body[56:])}"


def answer_raw(body):
    return f"{answer_head(body)} {hexadecimal(body[56:])}"


def ask_tick(body):
    return f"ask-tick {lookup_prefix_text(body)}"


def name(body):
    return f"name at={int.from_bytes(body[:2], 'little')} {hexadecimal(body[2:])}"


FORMS = {
    31: (table, table_raw),
    32: (set_up,),
    33: (start,),
    34: (datagram, datagram_raw),
    35: (tick,),
    40: (lookup_settings,),
    41: (ask, ask_raw),
    42: (answer, answer_raw),
    43: (ask_tick,),
    54: (name,),
}
