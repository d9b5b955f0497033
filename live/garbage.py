"""Send damaged and random datagrams to the hosts of the link: to the groups and to addresses, by IPv4 and IPv6.

Run in a host of the link (link.sh):  python3 garbage.py NAME ADDRESS .. [--count N] [--seed N]

A third are random octets; the others are queries and responses for NAME, cut, lengthened or with some octets changed. None of them may make a
host stop or lose its name: a response that a host waits for carries an ID that only it knows, so that a random one hardly ever fits.
"""
import argparse
import random
import socket
import struct

GROUPS = {4: "224.0.0.252", 6: "ff02::1:3"}
PORT = 5355


def whole(source, name):
    """Return a query or a response for the name, with likely and unlikely fields. C stays clear in queries: it is no garbage."""
    flags = source.choice((0, 0x8000, 0x8100, 0x8400, 0x8200, 0x0200, 0x00F0, 0x7800, 0x8003))
    counts = [source.choice((0, 1, 1, 1, 2, 65535)) for _ in range(4)]
    question = bytes([len(name)]) + name.encode() + struct.pack("!BHH", 0, source.choice((1, 28, 255, 12)), source.choice((1, 1, 255, 3)))
    record = b"\xc0\x0c" + struct.pack("!HHIH", 1, 1, 30, 4) + source.randbytes(4)
    return struct.pack("!HHHHHH", source.randrange(65536), flags, *counts) + question + record * source.randrange(3)


def damaged(source, name):
    """Return a datagram as it should not be."""
    if source.random() < 0.33:
        return source.randbytes(source.choice((0, 1, 11, 12, 13, 24, 100, 512, 1400)))
    octets = bytearray(whole(source, name))
    for _ in range(source.choice((0, 1, 1, 2, 5))):
        octets[source.randrange(len(octets))] = source.randrange(256)
    octets[2] &= 0xFB if octets[2] < 128 else 0xFF
    cut = source.choice((None, None, source.randrange(len(octets))))
    return bytes(octets[:cut]) + source.randbytes(source.choice((0, 0, 3, 300)))


def open_sockets(interface):
    """Return a socket for each family, which sends by the interface."""
    index = socket.if_nametoindex(interface)
    four, six = socket.socket(socket.AF_INET, socket.SOCK_DGRAM), socket.socket(socket.AF_INET6, socket.SOCK_DGRAM)
    four.setsockopt(socket.IPPROTO_IP, socket.IP_MULTICAST_IF, struct.pack("4s4si", bytes(4), bytes(4), index))
    six.setsockopt(socket.IPPROTO_IPV6, socket.IPV6_MULTICAST_IF, index)
    return {4: four, 6: six}


def main():
    """Send them."""
    parser = argparse.ArgumentParser(description="send damaged LLMNR datagrams")
    parser.add_argument("name")
    parser.add_argument("address", nargs="*")
    parser.add_argument("--interface", default="eth0")
    parser.add_argument("--count", type=int, default=20000)
    parser.add_argument("--seed", type=int, default=4795)
    options = parser.parse_args()
    source, sockets = random.Random(options.seed), open_sockets(options.interface)
    scope = socket.if_nametoindex(options.interface)
    for _ in range(options.count):
        target = source.choice(list(GROUPS.values()) + options.address)
        family = 6 if ":" in target else 4
        place = (target, PORT) if family == 4 else (target, PORT, 0, scope)
        sockets[family].sendto(damaged(source, options.name), place)


if __name__ == "__main__":
    main()
