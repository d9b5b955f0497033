"""Turn pcap files into lines of JSON, one for each UDP or TCP packet over IPv4 or IPv6.

Run:  python3 to_jsonl.py IN.pcap [MORE.pcap ...] > OUT.jsonl

Each line has t_ms (milliseconds from the first packet), src, dst, ttl, proto, sport, dport, hex (what UDP or TCP
carries) and for TCP also flags. Several files are merged by time. The time of the first packet, in seconds since
1970, goes to standard error. Files must be classic pcap with Ethernet frames, as tcpdump -w writes them.
"""
import ipaddress
import json
import struct
import sys

MICROSECONDS, NANOSECONDS = 0xA1B2C3D4, 0xA1B23C4D
ETHERNET = 1
IPV4, IPV6, VLAN = 0x0800, 0x86DD, 0x8100
TCP, UDP = 6, 17
EXTENSION_HEADERS = (0, 43, 60)
TCP_FLAGS = "FSRPAUEC"


def read_pcap(data):
    """Yield (time in nanoseconds, frame) for each record of a pcap file."""
    order = "<" if struct.unpack("<I", data[:4])[0] in (MICROSECONDS, NANOSECONDS) else ">"
    magic, _, _, _, _, _, link = struct.unpack(order + "IHHiIII", data[:24])
    if magic not in (MICROSECONDS, NANOSECONDS) or link != ETHERNET:
        raise ValueError("not a pcap file of Ethernet frames")
    unit = 1000 if magic == MICROSECONDS else 1
    at = 24
    while at + 16 <= len(data):
        seconds, part, length, _ = struct.unpack(order + "IIII", data[at:at + 16])
        yield seconds * 10**9 + part * unit, data[at + 16:at + 16 + length]
        at += 16 + length


def read_ipv4(packet):
    """Return (src, dst, ttl, protocol, payload), or None for a fragment that is not the first."""
    header = (packet[0] & 15) * 4
    total, = struct.unpack("!H", packet[2:4])
    if struct.unpack("!H", packet[6:8])[0] & 0x1FFF:
        return None
    return packet[12:16], packet[16:20], packet[8], packet[9], packet[header:total]


def read_ipv6(packet):
    """Return (src, dst, hop limit, protocol, payload), past the extension headers."""
    length, = struct.unpack("!H", packet[4:6])
    protocol, payload = packet[6], packet[40:40 + length]
    while protocol in EXTENSION_HEADERS and len(payload) >= 8:
        protocol, payload = payload[0], payload[(payload[1] + 1) * 8:]
    return packet[8:24], packet[24:40], packet[7], protocol, payload


def read_ip(frame):
    """Return the parts of the IP packet in an Ethernet frame, or None."""
    kind, at = struct.unpack("!H", frame[12:14])[0], 14
    if kind == VLAN:
        kind, at = struct.unpack("!H", frame[16:18])[0], 18
    if kind == IPV4:
        return read_ipv4(frame[at:])
    if kind == IPV6:
        return read_ipv6(frame[at:])
    return None


def tcp_flags(bits):
    """Return the letters of the TCP flags that are set."""
    return "".join(letter for place, letter in enumerate(TCP_FLAGS) if bits >> place & 1)


def describe(frame):
    """Return the JSON fields of a frame, but for the time; None for a frame of another kind."""
    parts = read_ip(frame)
    if parts is None or parts[3] not in (TCP, UDP):
        return None
    src, dst, ttl, protocol, payload = parts
    sport, dport = struct.unpack("!HH", payload[:4])
    out = {"src": str(ipaddress.ip_address(src)), "dst": str(ipaddress.ip_address(dst)), "ttl": ttl,
           "proto": "udp" if protocol == UDP else "tcp", "sport": sport, "dport": dport}
    if protocol == UDP:
        out["hex"] = payload[8:].hex()
    else:
        out["flags"] = tcp_flags(payload[13])
        out["hex"] = payload[(payload[12] >> 4) * 4:].hex()
    return out


def main(paths):
    """Print all packets of the files, ordered by time."""
    records = []
    for path in paths:
        with open(path, "rb") as file:
            records += [(time, describe(frame)) for time, frame in read_pcap(file.read())]
    records = sorted((r for r in records if r[1] is not None), key=lambda r: r[0])
    if not records:
        return
    first = records[0][0]
    print("%d.%09d" % divmod(first, 10**9), file=sys.stderr)
    for time, fields in records:
        print(json.dumps({"t_ms": round((time - first) / 10**6, 3), **fields}))


if __name__ == "__main__":
    main(sys.argv[1:])
