"""A small LLMNR responder that answers as told, to see what other makers' programs do with it.

Run in a host of the link (link.sh):
    python3 scripted.py --name NAME --a 169.254.77.2 --aaaa fe80::ff:fe00:2 --rule RULE [--rule RULE ...] [--tcp]

RULE is FAMILY:TYPE:WORDS. FAMILY is 4, 6 or *; TYPE is A, AAAA, ANY, PTR or *; the first rule that fits a query counts,
and a query that no rule fits is not answered, nor is one with C set. WORDS, joined by commas:
    addr       put the addresses that fit the type into the answer     empty     no answer records
    tc, c, t   set that flag                                          rcode=N   set the response code
    wait=MS    answer so many milliseconds later                      ttl=N     IP TTL / hop limit of the answer
    otherid    answer with another ID                                 port=N     answer from UDP port N instead of 5355
Examples:  --rule '*:*:addr,tc'   --rule 4:A:addr --rule '*:*:empty'   --rule '*:*:addr,c'
With --tcp it also listens on TCP 5355 and answers there with the addresses. Each query for NAME is printed, with --all
every other datagram too. Its sockets have SO_REUSEADDR set before they are bound, as it is when a port is to be shared.
"""
import argparse
import select
import socket
import struct
import threading

PORT = 5355
GROUPS = {4: "224.0.0.252", 6: "ff02::1:3"}
TYPES = {"A": 1, "AAAA": 28, "ANY": 255, "PTR": 12}
FLAGS = {"c": 0x0400, "tc": 0x0200, "t": 0x0100}
RESPONSE = 0x8000


def open_udp(family, interface, port=PORT):
    """Return a UDP socket on the LLMNR port that has joined the LLMNR group."""
    index = socket.if_nametoindex(interface)
    kind = socket.AF_INET if family == 4 else socket.AF_INET6
    sock = socket.socket(kind, socket.SOCK_DGRAM)
    sock.setsockopt(socket.SOL_SOCKET, socket.SO_REUSEADDR, 1)
    if family == 4:
        member = struct.pack("4s4si", socket.inet_aton(GROUPS[4]), bytes(4), index)
        sock.setsockopt(socket.IPPROTO_IP, socket.IP_ADD_MEMBERSHIP, member)
    else:
        sock.setsockopt(socket.IPPROTO_IPV6, socket.IPV6_V6ONLY, 1)
        member = socket.inet_pton(socket.AF_INET6, GROUPS[6]) + struct.pack("@I", index)
        sock.setsockopt(socket.IPPROTO_IPV6, socket.IPV6_JOIN_GROUP, member)
    sock.bind(("", port))
    return sock


def set_ttl(sock, family, ttl):
    """Set the TTL or hop limit of what is sent by unicast."""
    if family == 4:
        sock.setsockopt(socket.IPPROTO_IP, socket.IP_TTL, ttl)
    else:
        sock.setsockopt(socket.IPPROTO_IPV6, socket.IPV6_UNICAST_HOPS, ttl)


def read_query(message):
    """Return (id, flags, name, type, question bytes), or None when it is not a query with one question."""
    if len(message) < 17:
        return None
    ident, flags, questions = struct.unpack("!HHH", message[:6])
    if flags & RESPONSE or questions != 1:
        return None
    labels, at = [], 12
    while message[at]:
        labels.append(message[at + 1:at + 1 + message[at]].decode("latin-1"))
        at += 1 + message[at]
    kind, = struct.unpack("!H", message[at + 1:at + 3])
    return ident, flags, ".".join(labels), kind, message[12:at + 5]


def find_rule(rules, family, kind):
    """Return the words of the first rule that fits, as a dictionary; None when there is none."""
    for rule in rules:
        for_family, for_type, words = rule.split(":", 2)
        if for_family in ("*", str(family)) and (for_type == "*" or TYPES[for_type] == kind):
            return dict((word + "=").split("=")[:2] for word in words.split(","))
    return None


def address_records(kind, options):
    """Return the records (owner name by pointer, TTL 30) that fit the type asked for."""
    records = []
    for number, family, texts in ((1, socket.AF_INET, options.a), (28, socket.AF_INET6, options.aaaa)):
        for text in texts if kind in (number, 255) else ():
            data = socket.inet_pton(family, text)
            records.append(struct.pack("!HHHIH", 0xC00C, number, 1, 30, len(data)) + data)
    return records


def build_answer(query, words, options):
    """Return the response to a query as the rule's words tell."""
    ident, _, _, kind, question = query
    flags = RESPONSE | sum(FLAGS[word] for word in words if word in FLAGS) | int(words.get("rcode", 0))
    records = address_records(kind, options) if "addr" in words else []
    if "othername" in words:
        question = b"\x05other\x00" + question[-4:]
    return struct.pack("!HHHHHH", ident, flags, 1, len(records), 0, 0) + question + b"".join(records)


def answer_udp(sock, family, options):
    """Read one datagram and answer it when a rule fits."""
    message, peer = sock.recvfrom(9000)
    query = read_query(message)
    if query is None or query[2].lower() not in options.name:
        if options.all:
            print("udp", peer[0], peer[1], "flags", message[2:4].hex(), "of others:", message[12:].hex(), flush=True)
        return
    words = None if query[1] & FLAGS["c"] else find_rule(options.rule, family, query[3])
    print("udp", peer[0], peer[1], "flags %04x name %s type %d:" % query[1:4], words, flush=True)
    if words is None:
        return
    out = open_udp(family, options.interface, int(words["port"])) if "port" in words else sock
    set_ttl(out, family, int(words.get("ttl", 255)))
    answer = build_answer(query, words, options)
    if "wait" in words:
        threading.Timer(int(words["wait"]) / 1000, out.sendto, (answer, peer)).start()
    else:
        out.sendto(answer, peer)


def answer_tcp(listener, options):
    """Take one connection and answer one query on it with the addresses."""
    connection, peer = listener.accept()
    with connection:
        connection.settimeout(2)
        message = connection.recv(9000)
        query = read_query(message[2:])
        print("tcp", peer[0], peer[1], query and query[2:4], flush=True)
        if query:
            answer = build_answer(query, {"addr": ""}, options)
            connection.sendall(struct.pack("!H", len(answer)) + answer)


def open_tcp():
    """Return a TCP listener on the LLMNR port, for both families."""
    listener = socket.create_server(("::", PORT), family=socket.AF_INET6, dualstack_ipv6=True)
    return listener


def parse_options():
    """Return the options of the command line."""
    parser = argparse.ArgumentParser(description="LLMNR responder that answers as told")
    parser.add_argument("--name", action="append", required=True, type=str.lower)
    parser.add_argument("--rule", action="append", default=[])
    parser.add_argument("--a", action="append", default=[])
    parser.add_argument("--aaaa", action="append", default=[])
    parser.add_argument("--interface", default="eth0")
    parser.add_argument("--tcp", action="store_true")
    parser.add_argument("--all", action="store_true")
    return parser.parse_args()


def main():
    """Answer queries until ended."""
    options = parse_options()
    families = {open_udp(4, options.interface): 4, open_udp(6, options.interface): 6}
    listener = open_tcp() if options.tcp else None
    sockets = list(families) + ([listener] if listener else [])
    print("ready", flush=True)
    while True:
        for sock in select.select(sockets, [], [])[0]:
            if sock is listener:
                answer_tcp(sock, options)
            else:
                answer_udp(sock, families[sock], options)


if __name__ == "__main__":
    main()
