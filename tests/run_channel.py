#!/usr/bin/env python3
"""Runs a built program over recordings of a channel: tests/run_channel.py PROGRAM [PLAIN]

With --channel the rows of tests/rows give their texts as recordings too, in each form of a file and over pipes that stay open; a file
that is cut gives the text of its whole frames; each note and each fault of a recording and of a channel file is told where it must be.
PLAIN is the bench's plain_handler: files with a bent byte give what it gives; without it they are left out. Where a network namespace can
be made and tcpdump is there, datagrams that are sent over a network are followed. Prints each check that fails and each part that is not
run, and then 'N passed, M failed'. The exit status is 1 if any failed.
"""
import os
import pathlib
import random
import re
import shutil
import subprocess
import sys
import tempfile
from typing import NamedTuple

import recordings
from piped import PATIENCE, QUIET, Run, text_by_packet
from recordings import A, B, S, classic, datagram, framed, ip, joined, record, section, udp

ROOT = pathlib.Path(__file__).resolve().parent.parent
ADDRESSES = {b"A": A, b"B": B, b"S": S}
OTHER_ADDRESSES = {b"A": ("224.0.31.2", 14310), b"B": ("224.0.32.2", 15310), b"S": ("224.0.31.44", 14310)}
LISTED = b"I 1 NEAR O\n"
BENT, SEED = 1000, 20240613
FEW, MANY = 100_000, 1_000_000  # frames

passed = failed = 0


def judge(is_right, says):
    global passed, failed
    passed += is_right
    failed += not is_right
    if not is_right:
        print(f"FAILED {says}")


class Outcome(NamedTuple):
    """What a run ends with."""

    status: int
    text: bytes
    told: bytes


def difference(found, wanted):
    """Tells how an outcome differs from the wanted one, in a few lines."""
    told = []
    for name, is_it, it in zip(Outcome._fields, found, wanted):
        if is_it != it and name == "status":
            told.append(f"status {is_it} in place of {it}")
        elif is_it != it:
            lines, others = is_it.splitlines(), it.splitlines()
            first = next((n for n, (one, other) in enumerate(zip(lines, others)) if one != other), min(len(lines), len(others)))
            told.append(f"{name} from line {first + 1} on {lines[first : first + 2]} in place of {others[first : first + 2]}")
    return "; ".join(told)


def lines_of(addresses):
    """Gives the lines of a channel file with the feeds' addresses."""
    return b"".join(b"F %s %s %d\n" % (feed, group.encode(), port) for feed, (group, port) in addresses.items())


CHANNEL = LISTED + lines_of(ADDRESSES)


class Runner:
    """A program that reads recordings, and where its channel files are written."""

    def __init__(self, program, scratch):
        self.program = program
        self.scratch = pathlib.Path(tempfile.mkdtemp(dir=scratch))
        self.files = {}

    def file_of(self, channel):
        """Gives the path of a file with the text of a channel."""
        if channel not in self.files:
            self.files[channel] = self.scratch / f"channel.{len(self.files)}"
            self.files[channel].write_bytes(channel)
        return self.files[channel]

    def words(self, channel, *words):
        return [self.program, "--channel", str(self.file_of(channel)), *words]

    def run(self, recording, channel=CHANNEL, words=()):
        ended = subprocess.run(self.words(channel, *words), input=recording, capture_output=True, timeout=PATIENCE)
        return Outcome(ended.returncode, ended.stdout, ended.stderr)

    def wants(self, says, wanted, recording, channel=CHANNEL, words=()):
        """Judges what a run over a recording ends with."""
        found = self.run(recording, channel, words)
        judge(found == wanted, f"{says}: {difference(found, wanted)}")


# The rows as recordings.


class Row(NamedTuple):
    """A row of tests/rows: its words, its instruments' lines, its datagrams with their feeds and lines, and what it gives."""

    name: str
    words: list
    listed: bytes
    datagrams: list
    text: bytes
    told: bytes


def row_at(folder):
    """Reads a row; none where it ends with another status than 0, has an `X` line or skips one."""
    capture = (folder / "capture").read_bytes()
    lines = [line.removesuffix(b"\r") for line in capture.split(b"\n")]
    text = folder / "stdout"
    if (folder / "status").read_text().strip() != "0" or (folder / "stderr").read_bytes() or b"X" in lines or not text.exists():
        return None
    listed = b"".join(line + b"\n" for line in lines if line.startswith(b"I "))
    fields = [(number, line.split(b" ")) for number, line in enumerate(lines, 1) if line and not line.startswith(b"I ")]
    datagrams = [(number, feed, bytes.fromhex(digits.decode())) for number, (feed, digits) in fields]
    told = folder / "stderr.live"
    told = told.read_bytes() if told.exists() else b""
    words = (folder / "args").read_text().split("\n")[:-1]
    return Row(folder.name, words, listed, datagrams, text.read_bytes(), told)


def all_rows():
    rows = [row_at(folder) for folder in sorted((ROOT / "tests/rows").iterdir()) if folder.is_dir()]
    return [row for row in rows if row is not None]


def with_frames(text, frame_of):
    """Puts frames for the lines of a capture into what is printed, or told."""
    text = re.sub(rb"^(X [ABS] )(\d+)", lambda found: found[1] + b"%d" % frame_of[int(found[2])], text, flags=re.M)
    return re.sub(rb"^line (\d+):", lambda found: b"frame %d:" % frame_of[int(found[1])], text, flags=re.M)


def foreign(link=recordings.ETHERNET):
    """Gives frames that are no feed's."""
    other_port, other_group = (A[0], 15310), ("224.0.99.1", A[1])
    return [
        framed(datagram(other_port, b"at a feed's group, and another's port"), link),
        framed(datagram(other_group, b"at a feed's port"), link),
        framed(ip(A[0], b"\0" * 20, protocol=6), link),
        framed(bytes(28), link, recordings.ARP),
        framed(b"\x60" + bytes(59), link, recordings.IPV6),
    ]


def frames_of(row, between=0, link=recordings.ETHERNET, addresses=None):
    """Gives the frames of a row, with so many foreign ones before each, and which frame each line of its capture is."""
    addresses, others = addresses or ADDRESSES, foreign(link)
    frames, frame_of = [], {}
    for number, feed, payload in row.datagrams:
        frames += [others[(len(frames) + n) % len(others)] for n in range(between)]
        frames.append(framed(datagram(addresses[feed], payload), link))
        frame_of[number] = len(frames)
    return frames, frame_of


def wanted_of(row, frame_of):
    return Outcome(0, with_frames(row.text, frame_of), with_frames(row.told, frame_of))


def run_rows(runner, rows):
    """Runs each row as a recording: as it is, and with foreign frames between; words that are without effect change nothing."""
    for row in rows:
        channel = row.listed + lines_of(ADDRESSES)
        frames, frame_of = frames_of(row)
        recording = joined(classic(frames))
        wanted = wanted_of(row, frame_of)
        runner.wants(f"{row.name} as a recording", wanted, recording, channel, row.words)
        others = [word for word in row.words if word != "--in-order"]
        runner.wants(f"{row.name} with --live", wanted, recording, channel, [*others, "--live"])
        if "--workers" not in others:
            runner.wants(f"{row.name} with workers", wanted, recording, channel, [*others, "--workers", "4"])
        frames, frame_of = frames_of(row, between=1)
        runner.wants(f"{row.name} and foreign frames", wanted_of(row, frame_of), joined(classic(frames)), channel, row.words)


def two_sections(frames):
    half = len(frames) // 2
    return section(frames[:half]) + section(frames[half:], ">")


def run_headers(runner):
    """Runs over datagrams after tags and options, and over sections whose interfaces differ."""
    one, two, three = packets()
    text = text_of([1, 2, 3])
    options = b"\x94\x04\0\0"
    frames = [
        framed(datagram(A, one), tags=(0x88A8, 0x8100)),
        framed(ip(B[0], udp(two, B[1]), options)),
        framed(ip(A[0], udp(three, A[1]), 10 * options), tags=(0x8100,)),
        framed(datagram(A, bytes(40)), tags=(0x8100, 0x8100, 0x8100)),
    ]
    runner.wants("tags and options", Outcome(0, text, b""), joined(classic(frames)))
    sections = section([framed(datagram(A, one))]) + section([datagram(B, two)], ">", recordings.RAW)
    sections += section([framed(datagram(A, three), recordings.COOKED)], link=recordings.COOKED)
    runner.wants("sections of three link types", Outcome(0, text, b""), joined(sections))
    interfaces = recordings.section_header() + recordings.interface(link=recordings.RAW) + recordings.interface()
    interfaces += recordings.enhanced(framed(datagram(A, one)), which=1) + recordings.enhanced(datagram(B, two))
    interfaces += recordings.simple(datagram(A, three))
    runner.wants("interfaces of two link types", Outcome(0, text, b""), interfaces)


def run_forms(runner, rows):
    """Runs some rows in each form of a file, and over each link layer."""
    nanoseconds = recordings.NANOSECONDS
    forms = {
        "big-endian": lambda frames: classic(frames, ">"),
        "of nanoseconds": lambda frames: classic(frames, magic=nanoseconds),
        "big-endian, of nanoseconds": lambda frames: classic(frames, ">", nanoseconds),
        "pcapng": section,
        "big-endian pcapng": lambda frames: section(frames, ">"),
        "pcapng of two sections": two_sections,
    }
    links = {"raw": recordings.RAW, "cooked": recordings.COOKED, "cooked of version 2": recordings.COOKED_2}
    for row in rows:
        channel = row.listed + lines_of(ADDRESSES)
        frames, frame_of = frames_of(row, between=1)
        for name, form in forms.items():
            runner.wants(f"{row.name}, {name}", wanted_of(row, frame_of), joined(form(frames)), channel, row.words)
        for name, link in links.items():
            frames, frame_of = frames_of(row, 1, link)
            for form in classic, section:
                recording = joined(form(frames, link=link))
                says = f"{row.name}, {name}, {form.__name__}"
                runner.wants(says, wanted_of(row, frame_of), recording, channel, row.words)


def run_two_channels(runner, one, other):
    """Runs over two channels in one recording, by turns, with the file of each."""
    frames, frame_of, other_frame_of = [], {}, {}
    left, others_left = one.datagrams[:], other.datagrams[:]
    while left or others_left:
        for some, addresses, places in (left, ADDRESSES, frame_of), (others_left, OTHER_ADDRESSES, other_frame_of):
            if some:
                number, feed, payload = some.pop(0)
                frames.append(framed(datagram(addresses[feed], payload)))
                places[number] = len(frames)
    recording = joined(classic(frames))
    runner.wants("the first of two channels", wanted_of(one, frame_of), recording, one.listed + lines_of(ADDRESSES), one.words)
    channel = other.listed + lines_of(OTHER_ADDRESSES)
    runner.wants("the second of two channels", wanted_of(other, other_frame_of), recording, channel, other.words)


# Pipes that stay open.


def follow(runner, row):
    """Sends a recording frame by frame: what a frame shows and tells is there before the next one is sent."""
    frames, frame_of = frames_of(row)
    wanted = wanted_of(row, frame_of)
    line_of = {frame: number for number, frame in frame_of.items()}
    payload_of = {number: (feed, payload) for number, feed, payload in row.datagrams}
    by_packet = text_by_packet(wanted.text)
    run = Run(runner.words(row.listed + lines_of(ADDRESSES), *row.words))
    (header, _), *records = classic(frames)
    text = told = b""
    run.send(header)
    for number, (piece, _) in enumerate(records, 1):
        run.send(piece[:70])
        run.read(QUIET, 1 << 60, 1 << 60)
        judge((run.text, run.told) == (text, told), f"{row.name}: a part of frame {number} shows {run.text[-200:]!r} {run.told!r}")
        run.send(piece[70:])
        feed, payload = payload_of[line_of[number]]
        notes = [note for note in wanted.told.splitlines(keepends=True) if note.startswith(b"frame %d:" % number)]
        told += b"".join(notes)
        if any(b": 52 " in note for note in notes):
            # A jump shows all that follows it and came before.
            text = text_up_to(wanted.text, frames, number, row)
            by_packet = {}
        elif feed in b"AB" and not row.told:
            text += by_packet.pop(int.from_bytes(payload[:4], "little"), b"")
        run.read(PATIENCE, len(text), len(told))
        judge((run.text, run.told) == (text, told), f"{row.name}: frame {number} shows {run.text[-200:]!r} {run.told!r}")
    judge(Outcome(run.end(), run.text, run.told) == wanted, f"{row.name}: the end of a pipe: {run.text[-200:]!r} {run.told!r}")


def text_up_to(text, frames, number, row):
    """Gives the text of a row whose jump comes with its last frame: all but its last line."""
    assert number == len(frames), row.name
    return b"".join(line for line in text.splitlines(keepends=True) if line[:1] not in b"XZ")


def waits(runner):
    """Sends what is no recording, too little of one, and nothing: each is told when it is known, and not before."""
    run = Run(runner.words(CHANNEL))
    run.send(b"I 1 NEAR O\n")
    run.process.wait(PATIENCE)
    run.read(QUIET, 1 << 60, 1 << 60)
    found = Outcome(run.process.returncode, run.text, run.told)
    judge(found == Outcome(2, b"", b"71 NotPcap\n"), f"text in place of a recording, in a pipe that stays open: {found}")
    for few in b"", b"\xd4", b"\xd4\xc3\xb2":
        run = Run(runner.words(CHANNEL))
        if few:
            run.send(few)
        run.read(QUIET, 1 << 60, 1 << 60)
        judge((run.process.poll(), run.told) == (None, b""), f"{len(few)} bytes: it waits for more: {run.told!r}")
        found = Outcome(run.end(), run.text, run.told)
        judge(found == Outcome(2, b"", b"71 NotPcap\n"), f"{len(few)} bytes: {found}")
    # Each fault of a channel file is told before a byte was sent.
    for channel, told in FAULTY_CHANNELS[:1] + FAULTY_CHANNELS[-4:]:
        run = Run(runner.words(channel))
        run.process.wait(PATIENCE)
        run.read(QUIET, 1 << 60, 1 << 60)
        found = Outcome(run.process.returncode, run.text, run.told)
        judge(found == Outcome(2, b"", told), f"{channel[-40:]!r}, and nothing sent: {found}")


def memory_of(runner, count):
    """Sends so many frames, each packet on both feeds, and gives the peak of the program's memory, its status and what it tells."""
    out = os.open(os.devnull, os.O_WRONLY)
    process = subprocess.Popen(runner.words(CHANNEL), stdin=subprocess.PIPE, stdout=out, stderr=subprocess.PIPE)
    os.close(out)
    rest = packets()[0][4:]
    ahead = {address: framed(datagram(address, bytes(4) + rest))[:42] for address in (A, B)}
    header = record(framed(datagram(A, bytes(4) + rest)))[:16]
    with process.stdin as pipe:
        pipe.write(recordings.pcap_header())
        for first in range(1, count // 2 + 1, 1000):
            numbers = [number.to_bytes(4, "little") + rest for number in range(first, min(first + 1000, count // 2 + 1))]
            pipe.write(b"".join(header + ahead[A] + packet + header + ahead[B] + packet for packet in numbers))
    told = process.stderr.read()
    _, status, usage = os.wait4(process.pid, 0)
    return usage.ru_maxrss, os.waitstatus_to_exitcode(status), told


def grow(runner):
    few, many = memory_of(runner, FEW), memory_of(runner, MANY)
    judge(few[1:] == (0, b"") and many[1:] == (0, b""), f"long runs: {few} {many}")
    judge(many[0] <= few[0] * 1.05, f"memory of {MANY} frames: {many[0]} kB, where {FEW} took {few[0]}")


# Files that are cut or bent.


def packets():
    """Gives the packets 1 to 3 of an example."""
    lines = (ROOT / "examples/plain.capture").read_text().splitlines()
    return [bytes.fromhex(line[2:]) for line in lines if line.startswith("A ")]


def shown():
    """Gives the text of these packets by their numbers."""
    return text_by_packet((ROOT / "examples/plain.txt").read_bytes())


# A small channel: its frames, with the packet or the `X` line that each brings.
def small():
    one, two, three = packets()
    return [
        (framed(datagram(A, one)), 1),
        (foreign()[0], None),
        (framed(datagram(B, one), tags=(0x8100,)), None),
        (framed(datagram(A, two[:40])), b"X A 4 5 SizePast\n"),
        (framed(datagram(S, b"")), b"X S 5 1 TooShort\n"),
        (framed(datagram(B, two)), 2),
        (framed(datagram(B, three[:11])), b"X B 7 1 TooShort\n"),
        (framed(datagram(A, two)), None),
        (framed(datagram(A, three)), 3),
    ]


def text_of(brought):
    """Gives the text of the first frames of the small channel, by what each of them brings."""
    numbers = [it for it in brought if isinstance(it, int)]
    refused = sorted(it for it in brought if isinstance(it, bytes))
    return b"".join([shown()[number] for number in numbers] + refused + [b"Z %d live\n" % (len(numbers) + 1)])


def cut(runner):
    """Cuts small files at each length: the text is that of their whole frames."""
    frames = [frame for frame, _ in small()]
    brought = [it for _, it in small()]
    forms = {"a pcap": classic(frames), "a big-endian pcap": classic(frames, ">"), "a pcapng": two_sections(frames)}
    for name, pieces in forms.items():
        file = joined(pieces)
        for length in range(len(file) + 1):
            end = count = 0
            ends = {0: 0}
            for piece, of_frames in pieces:
                end += len(piece)
                if end <= length:
                    count += of_frames
                    ends[end] = count
            if length < 4:
                wanted = Outcome(2, b"", b"71 NotPcap\n")
            elif length in ends:
                wanted = Outcome(0, text_of(brought[:count]), b"")
            else:
                wanted = Outcome(1, text_of(brought[:count]), b"frame %d: 74 CutShort\n" % (count + 1))
            runner.wants(f"{name} cut at {length}", wanted, file[:length])


def bent_files(rows):
    """Gives files of which one byte is bent, by a fixed seed, each with its channel and words."""
    chosen = random.Random(SEED)
    files = []
    for row in rows:
        frames, _ = frames_of(row, between=1)
        some = [(framed(datagram(A, packets()[0][:30])), 90), (framed(datagram(S, b"cut off in its headers"))[:36], 64)]
        frames[2:2] = [framed(ip(A[0], bytes(16), fragment=2)), *some]
        forms = [classic(frames), classic(frames, ">", recordings.NANOSECONDS), section(frames), two_sections(frames)]
        files += [(joined(form), row.listed + lines_of(ADDRESSES), row.words) for form in forms]
    for number in range(BENT):
        file, channel, words = files[number % len(files)]
        # Half of them near the beginning, where the headers are.
        place = chosen.randrange(min(len(file), 200) if number % 2 else len(file))
        bent = bytearray(file)
        bent[place] ^= chosen.randrange(1, 256)
        yield f"bent file {number}, byte {place}", bytes(bent), channel, words


def bend(runner, plain, rows):
    for says, file, channel, words in bent_files(rows):
        runner.wants(says, plain.run(file, channel, words), file, channel, words)


# What is told of frames.


def tells(runner):
    """Runs over frames that bring no datagram: each is told, or is no feed's, and changes nothing."""
    one, two, three = packets()
    good = framed(datagram(A, one))
    long = framed(datagram(B, bytes(2049)))
    to_other = ("224.0.99.1", 14310)

    def broken(address, length, payload=one):
        return framed(ip(address[0], udp(payload, address[1], length)))

    def short(address, count):
        """Gives a frame that was captured whole, and ends so many bytes into UDP."""
        packet = ip(address[0], udp(one, address[1]))[: 20 + count]
        return framed(packet, recordings.COOKED)

    cases = [
        ("a long payload on B", [long], b"frame 2: 23 TooLong\n"),
        ("long payloads on A and S", [framed(datagram(A, bytes(2049))), framed(datagram(S, bytes(3000)))],
         b"frame 2: 23 TooLong\nframe 3: 23 TooLong\n"),
        ("a long payload to another group", [framed(datagram(to_other, bytes(3000)))], b""),
        ("a frame to A that was cut", [(framed(datagram(A, two))[:80], 110)], b"frame 2: 55 FrameCut A\n"),
        ("frames to B and S that were cut in UDP's header", [(framed(datagram(at, two))[:38], 110) for at in (B, S)],
         b"frame 2: 55 FrameCut B\nframe 3: 55 FrameCut S\n"),
        ("a frame to another group that was cut", [(framed(datagram(to_other, two))[:80], 110)], b""),
        ("a frame that was cut in padding alone", [(framed(datagram(A, one[:12]))[:56], 60)], b""),
        ("a frame that was cut before its group", [(good[:30], 110)], b"frame 2: 55 FrameCut -\n"),
        ("a frame that was cut in its link's header", [(good[:13], 110)], b"frame 2: 55 FrameCut -\n"),
        ("a frame that was cut before its port", [(good[:37], 110)], b"frame 2: 55 FrameCut -\n"),
        ("several of these: it is told once", [(good[:13], 110), (good[:37], 110), (good[:30], 110), (good[:60], 110)],
         b"frame 2: 55 FrameCut -\nframe 5: 55 FrameCut A\n"),
        ("a frame to another group that was cut before its port", [(framed(datagram(to_other, one))[:37], 110)], b""),
        ("the first fragment of a datagram to A", [framed(ip(A[0], udp(one, A[1]), fragment=0x2000))], b"frame 2: 56 Fragment A\n"),
        ("later fragments to B and S", [framed(ip(at[0], bytes(24), fragment=3)) for at in (B, S)],
         b"frame 2: 56 Fragment B\nframe 3: 56 Fragment S\n"),
        ("a fragment to another group", [framed(ip(to_other[0], bytes(24), fragment=3))], b""),
        ("a packet that must not be fragmented", [framed(ip(A[0], udp(one, A[1]), fragment=0x4000))], b""),
        ("datagrams longer than their packets", [broken(at, 77) for at in (A, B, S)],
         b"frame 2: 57 FrameBroken A\nframe 3: 57 FrameBroken B\nframe 4: 57 FrameBroken S\n"),
        ("a datagram shorter than its header", [broken(A, 7)], b"frame 2: 57 FrameBroken A\n"),
        ("one of another group", [broken(to_other, 7)], b""),
    ]
    for says, frames, told in cases:
        recording = joined(classic([good, *frames, framed(datagram(B, two))]))
        runner.wants(says, Outcome(0, text_of([1, 2]), told), recording)
    # Frames that were captured whole, and end before their datagram does.
    ends = [short(A, 20), short(A, 3), short(S, 0), short(to_other, 20)]
    frames = [framed(datagram(A, one), recordings.COOKED), *ends]
    runner.wants("frames that end early", Outcome(0, text_of([1]), b"frame 2: 57 FrameBroken A\n"),
                 joined(classic(frames, link=recordings.COOKED)))
    # Where A and S have one group.
    channel = LISTED + lines_of({b"A": A, b"S": (A[0], 14311)})
    frames = [good, framed(ip(A[0], bytes(24), fragment=3)), framed(ip(A[0], bytes(24), fragment=9))]
    told = b"frame 2: 56 Fragment -\nframe 3: 56 Fragment -\n"
    runner.wants("fragments to a group of two feeds", Outcome(0, text_of([1]), told), joined(classic(frames)), channel)
    # A group with two ports of one feed.
    channel = LISTED + lines_of({b"A": A}) + b"F A 224.0.31.1 14399\n"
    frames = [good, framed(ip(A[0], bytes(24), fragment=3)), framed(datagram((A[0], 14399), two))]
    told = b"frame 2: 56 Fragment A\n"
    runner.wants("two addresses of one feed", Outcome(0, text_of([1, 2]), told), joined(classic(frames)), channel)
    # What is missing at the end, after all else but a fault.
    waits_for = joined(classic([good, (good[:60], 110), framed(datagram(A, three))]))
    told = b"frame 2: 55 FrameCut A\n53 Waits 2 1\n"
    runner.wants("a packet that waits", Outcome(0, text_of([1]), told), waits_for)
    told += b"frame 4: 74 CutShort\n"
    runner.wants("the same, cut off after it", Outcome(1, text_of([1]), told), waits_for + bytes(5))
    lost = joined(classic([good, framed(datagram(B, three)), framed(datagram(S, bytes(12)))]))
    told = b"frame 2: 51 Lost 2 3\n54 NoSnapshot 1 NEAR\n"
    text = text_of([1]).replace(b"live", b"lost")
    runner.wants("a packet that is lost", Outcome(0, text, told), lost, words=["--window", "1"])
    told += b"frame 4: 73 RecordSize\n"
    runner.wants("the same before a fault", Outcome(1, text, told), lost + b"\xff" * 16, words=["--window", "1"])
    runner.wants("a run that joins and has no snapshot", Outcome(0, b"Z 1 lost\n", b"54 NoSnapshot 1 NEAR\n"),
                 joined(classic([good])), words=["--join"])


# The channel file.

TWO_LISTED = b"I 1 NEAR O\nI 2 FAR O\n"
MANY_LISTED = b"".join(b"I %d N%d O\n" % (n, n) for n in range(1, 514))
BAD_LINES = [
    *[b"F %s 224.0.31.1 14310" % feed for feed in (b"C", b"a", b"AB", b"")],
    *[b"F A %s 14310" % group for group in (
        b"224.0.31", b"224.0.31.1.1", b"224.0.31.256", b"224.0.031.1", b"224.0.31.01", b"224.0.31.00", b"224.0..1", b"224.0.31.1.",
        b".224.0.31.1", b"+224.0.31.1", b"0xe0.0.31.1", b"224.0.31.1000", b"224.0.31.-1", b"224.0.31.a", b"localhost", b"::1", b"", b"224,0,31,1")],
    *[b"F A 224.0.31.1 %s" % port for port in (
        b"0", b"65536", b"-1", b"+1", b"014310", b"1431a", b"1.5", b"", b"4294967297", b"18446744073709551617", b"0x37e6")],
    b"F", b"F A", b"F A 224.0.31.1", b"F A 224.0.31.1 14310 ", b"F A 224.0.31.1 14310 X", b"F  A 224.0.31.1 14310", b" F A 224.0.31.1 14310",
    b"F\tA 224.0.31.1 14310", b"f A 224.0.31.1 14310", b"F A 224.0.31.1:14310", b"F A 224.0.31.1 14310 # a comment", b"A 0100", b"X", b"Q",
    b" # a comment", b" ", b"\r\r", b"\0", b"\xef\xbb\xbf# a byte order mark", b"I", b"I 0 NEAR O", b"I 01 NEAR O", b"I 2147483648 NEAR O",
    b"I 7 NEAR", b"I 7 NEAR O 0", b"I 7 NEAR O 11", b"I 7 NEAR O 5 ", b"I 7 A_NAME_OF_21_LETTERS_ O", b"I 7 NE\tAR O", b"I 7 NEAR o", b"I 7 CAL C 1",
    b"I 7 CAL C 1 2 3", b"i 7 NEAR O", b"F A 224.0.31.1 " + 100_000 * b"0123456789", b"F A " + 1000 * b"0" + b"1.0.0.1 1",
]
# Channel files that are refused, with what is told. Where a file has several faults the first line's is told.
FAULTY_CHANNELS = [
    (CHANNEL + b"F S 224.0.31.43 14311\nF B 224.0.31.1 14310\nQ\n", b"channel line 6: 62 AddressTwice\n"),
    (CHANNEL + b"F A 224.0.31.1 14310\n", b"channel line 5: 62 AddressTwice\n"),
    (b"F A 0.0.0.0 1\n\n# S too\nF S 0.0.0.0 1\n" + LISTED, b"channel line 4: 62 AddressTwice\n"),
    (LISTED + b"I 1 FAR O\n" + lines_of(ADDRESSES), b"channel line 2: 31 DuplicateId\n"),
    (lines_of(ADDRESSES) + LISTED + b"I 2 NEAR O\n", b"channel line 5: 31 DuplicateId\n"),
    (LISTED + b"I 3 CAL C 1 2\nI 2 FAR O\n" + lines_of(ADDRESSES), b"channel line 2: 32 UnknownLeg\n"),
    (TWO_LISTED + b"# a spread of one leg\nI 3 CAL C 2 2\n" + lines_of(ADDRESSES), b"channel line 4: 32 UnknownLeg\n"),
    (TWO_LISTED + b"I 3 CAL C 1 2\nI 4 FLY C 3 1\n" + lines_of(ADDRESSES), b"channel line 4: 32 UnknownLeg\n"),
    (LISTED + b"I 1 CAL C 8 9\n" + lines_of(ADDRESSES), b"channel line 2: 31 DuplicateId\n"),
    (lines_of(ADDRESSES) + MANY_LISTED, b"channel line 516: 33 TooMany\n"),
    (MANY_LISTED.replace(b"I 513 N513 O", b"I 1 N1 O") + lines_of(ADDRESSES), b"channel line 513: 33 TooMany\n"),
    (lines_of(ADDRESSES) + b"Q\nI 1 NEAR O\nI 1 NEAR O\n", b"channel line 4: 61 ChannelForm\n"),
    (b"F A 224.0.31.1 14310\nF", b"channel line 2: 61 ChannelForm\n"),
    (b"", b"channel: 34 None\n"),
    (b"# nothing\n\n", b"channel: 34 None\n"),
    (lines_of(ADDRESSES), b"channel: 34 None\n"),
    (LISTED, b"channel: 63 NoAddress\n"),
    (TWO_LISTED + b"\n#F A 224.0.31.1 14310", b"channel: 63 NoAddress\n"),
]


def refuses(runner):
    """Runs with channel files that are refused: nothing is printed, and no byte of standard input is read."""
    for line in BAD_LINES:
        wanted = Outcome(2, b"", b"channel line 2: 61 ChannelForm\n")
        runner.wants(f"{line[:60]!r}", wanted, b"", b"# a channel\n" + line + b"\n" + CHANNEL)
        runner.wants(f"{line[:60]!r} at the end", Outcome(2, b"", b"channel line 5: 61 ChannelForm\n"), b"", CHANNEL + line)
    recording = runner.scratch / "recording"
    recording.write_bytes(joined(classic([framed(datagram(A, packets()[0]))])))
    nowhere = runner.scratch / "nowhere"
    cases = [(runner.file_of(channel), told) for channel, told in FAULTY_CHANNELS]
    cases += [(path, b"channel: 64 ChannelRead\n") for path in (nowhere, runner.scratch, nowhere / "channel", "")]
    for path, told in cases:
        with recording.open("rb", buffering=0) as file:
            words = [runner.program, "--channel", str(path)]
            ended = subprocess.run(words, stdin=file, capture_output=True, timeout=PATIENCE)
            found = Outcome(ended.returncode, ended.stdout, ended.stderr)
            judge(found == Outcome(2, b"", told), f"{path}: {found} in place of {told!r}")
            judge(file.seek(0, os.SEEK_CUR) == 0, f"{path}: standard input was read before the channel file was judged")


def takes(runner):
    """Runs with channel files in all the forms that are lawful."""
    one, two, _ = packets()
    frames = [framed(datagram(A, one)), framed(datagram(("10.0.0.1", 1), two)), framed(datagram(("0.0.0.0", 65535), packets()[2]))]
    text = (ROOT / "examples/plain.txt").read_bytes()
    a, rest = b"F A 224.0.31.1 14310\n", b"F A 10.0.0.1 1\nF B 0.0.0.0 65535\n"
    cases = {
        "addresses first": a + rest + LISTED,
        "addresses between": rest + LISTED + a + b"I 2 FAR O 5\n",
        "comments and empty lines": b"#\n\n# F A 224.0.31.1\n#I 1 NEAR O\n" + a + b"\n##\n" + LISTED + b"\n\n" + rest + b"# the end",
        "carriage returns": (LISTED + b"\n# a comment\n" + a + rest).replace(b"\n", b"\r\n"),
        "no line feed at the end": LISTED + rest + a.rstrip(),
        "comments of any length and bytes": b"#" + 100_000 * b"0123456789 " + b"\n" + LISTED + b"#\xff\0\t\r\n" + a + rest,
        "most instruments": MANY_LISTED[: MANY_LISTED.index(b"I 513")].replace(b" N1 ", b" NEAR ") + a + rest,
    }
    for says, channel in cases.items():
        runner.wants(says, Outcome(0, text, b""), joined(classic(frames)), channel)
    many = b"".join(b"F S 224.1.%d.%d 9\n" % (n // 256, n % 256) for n in range(2000))
    runner.wants("two thousand addresses", Outcome(0, text, b""), joined(classic(frames)), LISTED + many + a + rest)


# Faults of recordings.


def faults(runner):
    """Runs over recordings that end with a fault: before it stands the text of the whole frames."""
    one, two, _ = packets()
    first, second = framed(datagram(A, one)), framed(datagram(B, two))
    header, ng = recordings.pcap_header(), recordings.section_header() + recordings.interface()
    good = header + record(first)
    good_ng = ng + recordings.enhanced(first)
    other_link = recordings.interface(link=recordings.UNREAD)
    refused = [
        ("text", b"I 1 NEAR O\nA 00\n"), ("gzip", bytes.fromhex("1f8b08000000000000ff") + bytes(20)), ("zeros", bytes(64)),
        ("a pcap of another version", recordings.pcap_header(version=(2, 3)) + record(first)),
        ("a pcap of version 3", recordings.pcap_header(version=(3, 4))),
        ("a magic number with two bytes exchanged", bytes.fromhex("c3d4b2a1") + good[4:]),
        ("a pcapng of unknown order", ng[:8] + b"\x1a\x2b\x3c\x4e" + ng[12:]),
        ("a pcapng of version 2", recordings.section_header(version=(2, 0)) + ng[28:]),
    ]
    for says, file in refused:
        runner.wants(says, Outcome(2, b"", b"71 NotPcap\n"), file)
    nothing, text = b"Z 1 live\n", text_of([1])

    def bent(block, place, value):
        return block[:place] + value.to_bytes(4, "little") + block[place + 4 :]

    packet = recordings.enhanced(second)
    large = recordings.block(9, bytes((16 << 20) - 12))
    cases = [
        # 72: frames of a link type that is not read.
        ("a link type that is not read", recordings.pcap_header(link=recordings.UNREAD) + record(first), 2, b"", b"frame 1: 72 LinkType\n"),
        ("the same in a pcapng", recordings.section_header() + other_link + recordings.enhanced(first), 2, b"", b"frame 1: 72 LinkType\n"),
        ("such a frame after a good one", good_ng + other_link + recordings.enhanced(second, which=1), 1, text, b"frame 2: 72 LinkType\n"),
        ("such a link type without frames", recordings.pcap_header(link=recordings.UNREAD), 0, nothing, b""),
        ("such an interface without frames", good_ng + other_link, 0, text, b""),
        # 73: sizes.
        ("a record that is too long", good + bent(record(second), 8, 262_145), 1, text, b"frame 2: 73 RecordSize\n"),
        ("the same as the first frame", header + bent(record(first), 8, 262_145), 1, nothing, b"frame 1: 73 RecordSize\n"),
        ("a record of most bytes", good + record(bytes(262_144)) + record(second), 0, text_of([1, 2]), b""),
        ("a block that is too long", good_ng + bent(large, 4, (16 << 20) + 4), 1, text, b"frame 2: 73 RecordSize\n"),
        ("a block of most bytes", good_ng + large + packet, 0, text_of([1, 2]), b""),
        ("a block whose length is no multiple of 4", good_ng + bent(packet, 4, 33), 1, text, b"frame 2: 73 RecordSize\n"),
        ("a block that is shorter than its frame", good_ng + bent(packet, 20, len(packet)), 1, text, b"frame 2: 73 RecordSize\n"),
        ("a block that ends with another length", good_ng + bent(packet, len(packet) - 4, 8), 1, text, b"frame 2: 73 RecordSize\n"),
        ("such a block as the first", ng[:28] + bent(ng[28:], len(ng) - 32, 8), 1, nothing, b"frame 1: 73 RecordSize\n"),
        ("an interface that is not described", good_ng + recordings.enhanced(second, which=1), 1, text, b"frame 2: 73 RecordSize\n"),
        ("a section without an interface", recordings.section_header() + packet, 1, nothing, b"frame 1: 73 RecordSize\n"),
        ("a later section of unknown order", good_ng + bent(recordings.section_header(), 8, 1), 1, text, b"frame 2: 73 RecordSize\n"),
        ("a later section of another version", good_ng + recordings.section_header(version=(2, 0)), 1, text, b"frame 2: 73 RecordSize\n"),
        # 74: the end inside a header, a record or a block.
        ("the end inside a file header", header[:23], 1, nothing, b"frame 1: 74 CutShort\n"),
        ("the end inside a record's header", good + record(second)[:15], 1, text, b"frame 2: 74 CutShort\n"),
        ("the end inside a record", good + record(second)[:-1], 1, text, b"frame 2: 74 CutShort\n"),
        ("the end inside a block", good_ng + packet[:-1], 1, text, b"frame 2: 74 CutShort\n"),
        ("a record of all frames and no more", good, 0, text, b""),
        ("no frame", header, 0, nothing, b""),
    ]
    for says, file, status, wanted, told in cases:
        runner.wants(says, Outcome(status, wanted, told), file)
    # Nothing is read after a fault.
    runner.wants("a good frame after a fault", Outcome(1, text, b"frame 2: 73 RecordSize\n"),
                 good + bent(record(second), 8, 262_145) + record(second))


def ends(runner):
    """Runs with a reader and a writer that fail, and with faults of the command line."""
    file = runner.scratch / "recording"
    file.write_bytes(joined(classic([framed(datagram(A, packets()[0]))])))
    with file.open("rb") as recording, open("/dev/full", "wb") as full:
        ended = subprocess.run(runner.words(CHANNEL), stdin=recording, stdout=full, stderr=subprocess.PIPE, timeout=PATIENCE)
    found = Outcome(ended.returncode, b"", ended.stderr)
    judge(found == Outcome(1, b"", b"42 Output after 0 bytes\n"), f"a failed write: {found}")
    folder = os.open(runner.scratch, os.O_RDONLY)
    ended = subprocess.run(runner.words(CHANNEL), stdin=folder, capture_output=True, timeout=PATIENCE)
    os.close(folder)
    found = Outcome(ended.returncode, ended.stdout, ended.stderr)
    judge(found == Outcome(1, b"", b"43 Input\n"), f"a failed read: {found}")
    path = str(runner.file_of(CHANNEL))
    for words in ["--channel"], ["--channel", path, "--channel", path], ["--channel", path, "--window", "0"]:
        ended = subprocess.run([runner.program, *words], input=file.read_bytes(), capture_output=True, timeout=PATIENCE)
        found = Outcome(ended.returncode, ended.stdout, b"")
        judge(found == Outcome(2, b"", b"") and ended.stderr.startswith(b"error:"), f"{words}: {found} {ended.stderr!r}")
    ended = subprocess.run([runner.program, f"--channel={path}"], input=file.read_bytes(), capture_output=True, timeout=PATIENCE)
    found = Outcome(ended.returncode, ended.stdout, ended.stderr)
    judge(found == Outcome(0, text_of([1]), b""), f"--channel=FILE: {found}")
    ended = subprocess.run([runner.program, "--help"], capture_output=True, timeout=PATIENCE)
    judge(b"--channel" in ended.stdout, "--help lacks --channel")


def over_network(program):
    """Runs tests/follow_network.py in a network namespace of its own, where one can be made."""
    missing = [name for name in ("unshare", "ip", "tcpdump") if not shutil.which(name)]
    words = ["unshare", "--net"] if os.geteuid() == 0 else ["unshare", "--user", "--map-root-user", "--net"]
    pair = ["ip", "link", "add", "name0", "type", "veth", "peer", "name", "name1"]
    if missing:
        print(f"not run: datagrams over a network, there is no {missing[0]}")
    elif subprocess.run([*words, *pair], capture_output=True).returncode != 0:
        print("not run: datagrams over a network, no network namespace with a pair of interfaces can be made here")
    else:
        script = str(ROOT / "tests/follow_network.py")
        ended = subprocess.run([*words, sys.executable, script, program], capture_output=True, text=True, timeout=6 * PATIENCE)
        judge(ended.returncode == 0, f"datagrams over a network: {ended.stdout} {ended.stderr}")


def parts(runner, plain):
    """Gives the parts of the test, each with what it is run over."""
    rows = all_rows()
    named = {row.name: row for row in rows}
    judge(len(rows) >= 47, f"{len(rows)} rows as recordings, where 47 were")
    some = [named["two_legs_and_a_spread"], named["recovery"], named["malformed_beside_good"]]
    yield run_rows, runner, rows
    yield run_forms, runner, some
    yield run_headers, runner
    yield run_two_channels, runner, named["recovery"], named["malformed_beside_good"]
    yield run_two_channels, runner, named["snapshot_before_the_loss"], named["two_legs_and_a_spread"]
    yield follow, runner, named["two_legs_and_a_spread"]
    yield follow, runner, named["recovery"]
    for part in waits, grow, cut, tells, refuses, takes, faults, ends:
        yield part, runner
    if plain:
        yield bend, runner, plain, some
    yield over_network, runner.program


def main():
    if len(sys.argv) not in (2, 3) or not all(os.access(word, os.X_OK) for word in sys.argv[1:]):
        print("usage: run_channel.py PROGRAM [PLAIN]", file=sys.stderr)
        return 2
    with tempfile.TemporaryDirectory() as scratch:
        runner, *plain = (Runner(os.path.realpath(word), scratch) for word in sys.argv[1:])
        for part, *over in parts(runner, plain and plain[0]):
            try:
                part(*over)
            except (subprocess.TimeoutExpired, BrokenPipeError) as why:
                judge(False, f"{part.__name__}: {type(why).__name__}: a run did not end, or ended too early")
    if not plain:
        print("not run: files with a bent byte, no plain handler was given")
    print(f"{passed} passed, {failed} failed")
    return failed > 0


sys.exit(main())
