"""Send one LLMNR query to the group and print every response to it, one line each: source, flags, number of answers.

Run in a host of the link (link.sh):  python3 probe.py NAME [--family 4|6] [--type N] [--conflict] [--octets N] [--to ADDRESS]

--conflict sets C: the query is then a conflict notification, which no host should answer. --octets fills the datagram up to
so many octets, behind the question. --to sends it to an address and not to the group. It listens for --wait MS (400).
"""
import argparse
import select
import socket
import struct
import time

GROUPS = {4: "224.0.0.252", 6: "ff02::1:3"}
PORT = 5355
CONFLICT = 0x0400
ID = 0x4C4C


def build_query(options):
    """Return the octets of the query."""
    labels = b"".join(bytes([len(label)]) + label.encode() for label in options.name.split("."))
    header = struct.pack("!HHHHHH", ID, CONFLICT if options.conflict else 0, 1, 0, 0, 0)
    return (header + labels + struct.pack("!BHH", 0, options.type, 1)).ljust(options.octets, b"\0")


def open_socket(family, interface):
    """Return a UDP socket that sends to the group by the interface."""
    index = socket.if_nametoindex(interface)
    if family == 4:
        sock = socket.socket(socket.AF_INET, socket.SOCK_DGRAM)
        sock.setsockopt(socket.IPPROTO_IP, socket.IP_MULTICAST_IF, struct.pack("4s4si", bytes(4), bytes(4), index))
        sock.setsockopt(socket.IPPROTO_IP, socket.IP_MULTICAST_TTL, 255)
        return sock
    sock = socket.socket(socket.AF_INET6, socket.SOCK_DGRAM)
    sock.setsockopt(socket.IPPROTO_IPV6, socket.IPV6_MULTICAST_IF, index)
    sock.setsockopt(socket.IPPROTO_IPV6, socket.IPV6_MULTICAST_HOPS, 255)
    return sock


def responses(sock, seconds):
    """Yield (source, octets) of each datagram that comes within so many seconds."""
    end = time.monotonic() + seconds
    while select.select([sock], [], [], max(0, end - time.monotonic()))[0]:
        octets, source = sock.recvfrom(9200)
        yield source[0].split("%")[0], octets


def main():
    """Send the query, print the responses."""
    parser = argparse.ArgumentParser(description="send one LLMNR query, print every response")
    parser.add_argument("name")
    parser.add_argument("--family", type=int, choices=(4, 6), default=4)
    parser.add_argument("--type", type=int, default=255)
    parser.add_argument("--conflict", action="store_true")
    parser.add_argument("--octets", type=int, default=0)
    parser.add_argument("--to")
    parser.add_argument("--interface", default="eth0")
    parser.add_argument("--wait", type=float, default=400)
    options = parser.parse_args()
    sock = open_socket(options.family, options.interface)
    target = socket.getaddrinfo(options.to or GROUPS[options.family], PORT, type=socket.SOCK_DGRAM)[0][4]
    if options.family == 6:
        target = target[:3] + (socket.if_nametoindex(options.interface),)
    sock.sendto(build_query(options), target)
    for source, octets in responses(sock, options.wait / 1000):
        ident, flags, _, answers = struct.unpack("!HHHH", octets[:8])
        if ident == ID:
            print(source, "%04x" % flags, answers)


if __name__ == "__main__":
    main()
