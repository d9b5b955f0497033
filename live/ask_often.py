"""Ask one name again and again by LLMNR multicast over IPv4 and print the flags of the replies as they change.

Run in a host of the link (link.sh):  python3 ask_often.py NAME [--every MS] [--after MS] [--most MS]

It asks for type A every MS (25), until --after MS (1200) have passed since the first reply, at the longest --most
MS (8000). Times are milliseconds since the first reply.
"""
import argparse
import socket
import struct
import time

GROUP, PORT = "224.0.0.252", 5355


def build_query(ident, name):
    """Return a query for type A, class IN."""
    return struct.pack("!HHHHHH", ident, 0, 1, 0, 0, 0) + bytes([len(name)]) + name.encode() + b"\0\0\1\0\1"


def open_socket():
    """Return a UDP socket that sends with TTL 255."""
    sock = socket.socket(socket.AF_INET, socket.SOCK_DGRAM)
    sock.setsockopt(socket.IPPROTO_IP, socket.IP_MULTICAST_TTL, 255)
    sock.setblocking(False)
    return sock


def read_replies(sock):
    """Yield the flags of each reply that has come."""
    while True:
        try:
            message = sock.recv(9000)
        except BlockingIOError:
            return
        yield struct.unpack("!H", message[2:4])[0]


def ask(options):
    """Send queries and return [(time, flags)] of the replies, and the number of queries sent."""
    sock, replies, sent = open_socket(), [], 0
    start = time.monotonic()
    end = start + options.most / 1000
    while time.monotonic() < end:
        sent += 1
        sock.sendto(build_query(sent, options.name), (GROUP, PORT))
        time.sleep(options.every / 1000)
        for flags in read_replies(sock):
            if not replies:
                end = min(end, time.monotonic() + options.after / 1000)
            replies.append((time.monotonic(), flags))
    return replies, sent


def main():
    """Ask, then print each change of the flags."""
    parser = argparse.ArgumentParser(description="ask one name often")
    parser.add_argument("name")
    parser.add_argument("--every", type=float, default=25)
    parser.add_argument("--after", type=float, default=1200)
    parser.add_argument("--most", type=float, default=8000)
    replies, sent = ask(parser.parse_args())
    print(sent, "queries,", len(replies), "replies")
    last = None
    for number, (moment, flags) in enumerate(replies, 1):
        if flags != last:
            print("reply %d, at %.0f ms: flags %04x" % (number, (moment - replies[0][0]) * 1000, flags))
        last = flags


if __name__ == "__main__":
    main()
