#!/usr/bin/env python3
"""Writes a pcap of the datagrams of a capture: make_recording.py CHANNEL < capture > pcap

CHANNEL is a channel file: the datagrams of a feed go to its first address there. Each is a frame of Ethernet, 100 microseconds after the
one before. `multicast.pcap` was written so, of `recovery.capture` and `multicast.channel`.
"""
import struct
import sys

SENDER, SENDER_PORT = bytes([10, 0, 0, 1]), 40000
SENDER_MAC = bytes([2, 0, 0, 0, 0, 1])
FIRST_TIME, STEP = 1_700_000_000, 100


def addresses_in(lines):
    """Gives the first group and port of each feed."""
    addresses = {}
    for line in lines:
        if line.startswith("F "):
            _, feed, group, port = line.split()
            addresses.setdefault(feed, (bytes(int(part) for part in group.split(".")), int(port)))
    return addresses


def checksum(header):
    total = sum(struct.unpack(f">{len(header) // 2}H", header))
    while total >> 16:
        total = (total & 0xFFFF) + (total >> 16)
    return ~total & 0xFFFF


def frame_of(group, port, payload):
    # A UDP checksum of 0 says that there is none.
    datagram = struct.pack(">HHHH", SENDER_PORT, port, 8 + len(payload), 0) + payload
    head = struct.pack(">BBHHHBB", 0x45, 0, 20 + len(datagram), 0, 0x4000, 16, 17)
    addresses = SENDER + group
    packet = head + struct.pack(">H", checksum(head + bytes(2) + addresses)) + addresses + datagram
    group_mac = bytes([1, 0, 0x5E, group[1] & 0x7F, group[2], group[3]])
    return (group_mac + SENDER_MAC + struct.pack(">H", 0x800) + packet).ljust(60, b"\0")


def main():
    with open(sys.argv[1], encoding="ascii") as file:
        addresses = addresses_in(file)
    out = sys.stdout.buffer
    out.write(struct.pack("<IHHiIII", 0xA1B2C3D4, 2, 4, 0, 0, 262144, 1))
    datagrams = [line.split() for line in sys.stdin if line[:2] in ("A ", "B ", "S ")]
    for place, (feed, digits) in enumerate(datagrams):
        frame = frame_of(*addresses[feed], bytes.fromhex(digits))
        seconds, microseconds = divmod(place * STEP, 1_000_000)
        out.write(struct.pack("<IIII", FIRST_TIME + seconds, microseconds, len(frame), len(frame)) + frame)


main()
