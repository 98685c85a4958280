"""Puts recordings together, for the tests that run over them: IPv4 and UDP, the link layers, pcap and pcapng."""
import struct

A, B, S = ("224.0.31.1", 14310), ("224.0.32.1", 15310), ("224.0.31.43", 14310)
MICROSECONDS, NANOSECONDS = 0xA1B2C3D4, 0xA1B23C4D
IPV4, ARP, IPV6 = 0x800, 0x806, 0x86DD
ETHERNET, RAW, COOKED, COOKED_2, UNREAD = 1, 101, 113, 276, 147


def ip(group, body, options=b"", fragment=0, protocol=17):
    words = 5 + len(options) // 4
    head = struct.pack(">BBHHHBBH", 0x40 | words, 0, words * 4 + len(body), 7, fragment, 16, protocol, 0)
    return head + bytes([10, 0, 0, 1]) + bytes(int(part) for part in group.split(".")) + options + body


def udp(payload, port, length=None):
    return struct.pack(">HHHH", 40000, port, 8 + len(payload) if length is None else length, 0) + payload


def datagram(address, payload):
    return ip(address[0], udp(payload, address[1]))


def framed(packet, link=ETHERNET, kind=IPV4, tags=()):
    """Puts a packet into a frame of a link layer; one of Ethernet has 60 bytes at least."""
    if link == RAW:
        return packet
    if link == COOKED:
        return struct.pack(">HHH8sH", 0, 1, 6, b"\2\0\0\0\0\1\0\0", kind) + packet
    if link == COOKED_2:
        return struct.pack(">HHIHBB8s", kind, 0, 2, 1, 0, 6, b"\2\0\0\0\0\1\0\0") + packet
    head = bytes.fromhex("01005e001f01") + bytes.fromhex("020000000001")
    for tag in tags:
        head += struct.pack(">HH", tag, 100)
    return (head + struct.pack(">H", kind) + packet).ljust(60, b"\xee")


def sizes_of(frame):
    """Gives the captured bytes of a frame, and how many it had: a frame that was cut comes as a pair."""
    return frame if isinstance(frame, tuple) else (frame, len(frame))


def pcap_header(order="<", magic=MICROSECONDS, link=ETHERNET, version=(2, 4)):
    return struct.pack(order + "IHHiIII", magic, *version, 0, 0, 262144, link)


def record(frame, order="<", place=0):
    captured, original = sizes_of(frame)
    return struct.pack(order + "IIII", 1700000000 + place, place, len(captured), original) + captured


def block(kind, body, order="<"):
    body = body.ljust((len(body) + 3) // 4 * 4, b"\0")
    size = struct.pack(order + "I", 12 + len(body))
    return struct.pack(order + "I", kind) + size + body + size


def section_header(order="<", version=(1, 0)):
    return block(0x0A0D0D0A, struct.pack(order + "IHHq", 0x1A2B3C4D, *version, -1), order)


def interface(order="<", link=ETHERNET):
    return block(1, struct.pack(order + "HHI", link, 0, 0), order)


def enhanced(frame, order="<", which=0):
    captured, original = sizes_of(frame)
    return block(6, struct.pack(order + "IIIII", which, 0, 0, len(captured), original) + captured, order)


def simple(frame, order="<"):
    return block(3, struct.pack(order + "I", len(frame)) + frame, order)


# What follows gives a recording as pieces: headers, records and blocks, each with how many frames it has.


def classic(frames, order="<", magic=MICROSECONDS, link=ETHERNET):
    return [(pcap_header(order, magic, link), 0)] + [(record(frame, order, n), 1) for n, frame in enumerate(frames)]


def section(frames, order="<", link=ETHERNET):
    """A section of a pcapng: enhanced and simple packet blocks by turns, and blocks between that are stepped over."""
    pieces = [(section_header(order), 0), (interface(order, link), 0), (block(4, bytes(4), order), 0)]
    for n, frame in enumerate(frames):
        pieces.append((simple(frame, order) if n % 2 and not isinstance(frame, tuple) else enhanced(frame, order), 1))
    return pieces + [(block(5, bytes(12), order), 0)]


def joined(pieces):
    return b"".join(piece for piece, _ in pieces)
