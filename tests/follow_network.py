#!/usr/bin/env python3
"""Follows datagrams that are sent over a pair of interfaces: unshare --net tests/follow_network.py PROGRAM

It is run in a network namespace of its own, by tests/run_channel.py. tcpdump captures what comes out of one interface and hands it to
PROGRAM, while the datagrams of a row are sent into the other. What a datagram shows must be there before the next one is sent, and what
ends the text once tcpdump was interrupted. Prints what is otherwise; the exit status is then 1.
"""
import os
import pathlib
import signal
import socket
import subprocess
import sys
import tempfile
import time

from piped import PATIENCE, Run, text_by_packet
from recordings import A, B, S

ROW = pathlib.Path(__file__).resolve().parent / "rows/two_legs_and_a_spread"
ADDRESSES = {"A": A, "B": B, "S": S}
SENDS, RECEIVES, ADDRESS = "feed0", "feed1", "10.9.0.1"


def make_pair():
    for name in "all", "default":
        pathlib.Path(f"/proc/sys/net/ipv6/conf/{name}/disable_ipv6").write_text("1\n")
    for words in (
        f"link add {SENDS} type veth peer name {RECEIVES}", f"address add {ADDRESS}/24 dev {SENDS}", f"link set {SENDS} up",
        f"link set {RECEIVES} up",
    ):
        subprocess.run(["ip", *words.split()], check=True)


def sender():
    found = socket.socket(socket.AF_INET, socket.SOCK_DGRAM)
    found.setsockopt(socket.IPPROTO_IP, socket.IP_MULTICAST_IF, socket.inet_aton(ADDRESS))
    found.setsockopt(socket.IPPROTO_IP, socket.IP_MULTICAST_LOOP, 0)
    return found


def main():
    capture = (ROW / "capture").read_text().split("\n")
    by_packet = text_by_packet((ROW / "stdout").read_bytes())
    listed = [line for line in capture if line.startswith("I ")]
    datagrams = [line.split(" ") for line in capture if line[:2] in ("A ", "B ", "S ")]
    make_pair()
    with tempfile.NamedTemporaryFile("w", suffix=".channel") as channel:
        lines = listed + [f"F {feed} {group} {port}" for feed, (group, port) in ADDRESSES.items()]
        channel.write("\n".join(lines) + "\n")
        channel.flush()
        words = f"tcpdump -i {RECEIVES} --immediate-mode -s 0 -U -Z root -w - udp".split()
        dump = subprocess.Popen(words, stdout=subprocess.PIPE, stderr=subprocess.PIPE)
        run = Run([sys.argv[1], "--channel", channel.name], stdin=dump.stdout)
        dump.stdout.close()
        told = b""
        while b"listening on" not in told:
            told += os.read(dump.stderr.fileno(), 4096) or sys.exit(f"tcpdump ended: {told!r}")
        time.sleep(0.2)
        faults, text = [], b""
        with sender() as out:
            for number, (feed, digits) in enumerate(datagrams, 1):
                payload = bytes.fromhex(digits)
                out.sendto(payload, ADDRESSES[feed])
                if feed != "S":
                    text += by_packet.pop(int.from_bytes(payload[:4], "little"), b"")
                run.read(PATIENCE, len(text), 0)
                if run.text != text:
                    faults.append(f"datagram {number} shows {run.text[-200:]!r} in place of {text[-200:]!r}")
                    break
        dump.send_signal(signal.SIGINT)
        dump.wait(PATIENCE)
        status = run.end()
    text += by_packet.pop(0, b"")
    if (status, run.text, run.told) != (0, text, b""):
        faults.append(f"at the end: status {status}, {run.text[-200:]!r} {run.told!r}")
    counts = dump.stderr.read().decode()
    if "0 packets dropped by kernel" not in counts:
        faults.append(f"tcpdump tells of no drops: {counts!r}")
    print("\n".join(faults))
    return len(faults) > 0


sys.exit(main())
