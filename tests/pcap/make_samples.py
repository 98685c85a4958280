#!/usr/bin/env python3
"""Writes the samples of captured traffic beside this file. Their frames are put together here; `editcap` of Wireshark turns
some of the files into its other formats. What stands in the frames is told by tshark alone: make_frames.sh."""
import pathlib
import struct
import subprocess

HERE = pathlib.Path(__file__).parent
A, B, S = "224.0.31.1", "224.0.32.1", "224.0.31.43"
PORT = 14310


def address(text):
    return bytes(int(part) for part in text.split("."))


def udp(payload, port=PORT, length=None):
    size = 8 + len(payload) if length is None else length
    return struct.pack(">HHHH", 40000, port, size, 0) + payload


def ip(group, body, options=b"", fragment=0, protocol=17, total=None):
    words = 5 + len(options) // 4
    size = words * 4 + len(body) if total is None else total
    head = struct.pack(">BBHHHBBH", 0x40 | words, 0, size, 7, fragment, 64, protocol, 0)
    return head + address("10.0.0.1") + address(group) + options + body


def ethernet(packet, tags=(), kind=0x800):
    head = bytes.fromhex("01005e001f01") + bytes.fromhex("020000000001")
    for tag in tags:
        head += struct.pack(">HH", tag, 100)
    frame = head + struct.pack(">H", kind) + packet
    return frame.ljust(60, b"\xee")


def pcap(name, frames, order="<", magic=0xA1B2C3D4, link=1):
    text = struct.pack(order + "IHHiIII", magic, 2, 4, 0, 0, 262144, link)
    for place, frame in enumerate(frames):
        frame, original = frame if isinstance(frame, tuple) else (frame, len(frame))
        text += struct.pack(order + "IIII", 1700000000 + place, place, len(frame), original) + frame
    (HERE / name).write_bytes(text)


def block(order, kind, body):
    body = body.ljust((len(body) + 3) // 4 * 4, b"\0")
    size = struct.pack(order + "I", 12 + len(body))
    return struct.pack(order + "I", kind) + size + body + size


def section(order, link, frames, snap_length=0):
    """A section: its header, an interface, two blocks that are stepped over, and simple and enhanced packet blocks in turn."""
    text = block(order, 0x0A0D0D0A, struct.pack(order + "IHHq", 0x1A2B3C4D, 1, 0, -1))
    text += block(order, 1, struct.pack(order + "HHI", link, 0, snap_length))
    text += block(order, 4, bytes(4))
    text += block(order, 5, struct.pack(order + "III", 0, 0, 7))
    for place, frame in enumerate(frames):
        if place % 2 == 0:
            taken = frame if snap_length == 0 else frame[:snap_length]
            text += block(order, 3, struct.pack(order + "I", len(frame)) + taken)
        else:
            text += block(order, 6, struct.pack(order + "IIIII", 0, 0, place, len(frame), len(frame)) + frame)
    return text


def mixed():
    whole = ethernet(ip(A, udp(b"on A")))
    return [
        whole,
        ethernet(ip(S, udp(b"on S, at A's port"))),
        ethernet(ip(B, udp(b"tagged")), tags=(0x8100,)),
        ethernet(ip(B, udp(b"tagged twice")), tags=(0x88A8, 0x8100)),
        ethernet(ip(A, udp(b"with options"), options=b"\x94\x04\0\0")),
        ethernet(ip(A, udp(b"foreign", port=14311))),
        ethernet(ip("224.0.99.1", udp(b"foreign too"))),
        ethernet(ip(A, udp(b"a front of a datagram....."), fragment=0x2000)),
        ethernet(ip(A, b"behind a fragment offset", fragment=2)),
        (ethernet(ip(A, udp(b"cut off in its payload")))[:54], 64),
        (ethernet(ip(A, udp(b"cut off in its headers")))[:30], 64),
        ethernet(bytes(28), kind=0x806),
        ethernet(ip(A, b"\0" * 20, protocol=6)),
        ethernet(ip(A, udp(b"longer than its packet", length=90))),
        ethernet(ip(B, udp(b""))),
    ]


def main():
    pcap("big_endian.pcap", mixed(), order=">")
    (HERE / "cut_short.pcap").write_bytes((HERE / "big_endian.pcap").read_bytes()[:500])
    pcap("nanoseconds.pcap", mixed()[:3], magic=0xA1B23C4D)
    pcap("big_nanoseconds.pcap", mixed()[:3], order=">", magic=0xA1B23C4D)
    cooked = struct.pack(">HHH8sH", 0, 1, 6, b"\2\0\0\0\0\1\0\0", 0x800)
    pcap("cooked.pcap", [cooked + ip(A, udp(b"cooked"))], link=113)
    cooked2 = struct.pack(">HHIHBB8s", 0x800, 0, 2, 1, 0, 6, b"\2\0\0\0\0\1\0\0")
    pcap("cooked2.pcap", [cooked2 + ip(S, udp(b"cooked again"))], link=276)
    pcap("raw.pcap", [ip(B, udp(b"raw")), ip(A, udp(b"raw too"))], link=101)
    whole = [frame for frame in mixed() if not isinstance(frame, tuple)]
    raw = [ip(A, udp(b"raw in a section")), ip(S, udp(b"and one more"))]
    (HERE / "sections.pcapng").write_bytes(section("<", 1, whole[:4]) + section(">", 101, raw))
    (HERE / "snapped.pcapng").write_bytes(section(">", 1, [whole[1], whole[0], whole[3]], snap_length=50))
    subprocess.run(["editcap", "-F", "pcapng", "big_endian.pcap", "editcap.pcapng"], cwd=HERE, check=True)


main()
