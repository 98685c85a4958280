#!/usr/bin/env python3
"""Runs a built program over pipes that stay open: tests/run_live.py PROGRAM

With --live, what the lines of a capture show is there before the next line is sent, a late instrument ends the text after all that
stands before it, and memory does not grow with the capture. Prints each check that fails, and then 'N passed, M failed'. The exit status
is 1 if any failed.
"""
import os
import pathlib
import subprocess
import sys

from piped import PATIENCE, QUIET, Run, text_by_packet

ROOT = pathlib.Path(__file__).resolve().parent.parent
FEW, MANY = 300_000, 3_000_000  # datagrams

passed = failed = 0


def judge(is_right, says):
    global passed, failed
    passed += is_right
    failed += not is_right
    if not is_right:
        print(f"FAILED {says}")


def follow(program):
    """Sends a capture line by line: the text of each packet is there before the next line is sent."""
    capture = (ROOT / "tests/rows/three_hundred_packets/capture").read_bytes()
    wanted = text_by_packet((ROOT / "tests/rows/three_hundred_packets/stdout").read_bytes())
    run = Run([program, "--live"])
    text = b""
    for line in capture.splitlines(keepends=True):
        run.send(line)
        if line[:2] in (b"A ", b"B "):
            text += wanted.pop(int.from_bytes(bytes.fromhex(line[2:10].decode()), "little"), b"")
        run.read(PATIENCE, len(text), 0)
        if run.text != text:
            break
    judge(run.text == text, f"the text of each packet before the next line: {run.text[-200:]!r} in place of {text[-200:]!r}")
    judge(run.end() == 0, "the end of a pipe")
    judge(run.text == text + wanted.get(0, b""), f"the text at the end: {run.text[-200:]!r}")
    judge(run.told == b"", f"nothing is told: {run.told!r}")


def tell(program):
    """Sends lines that are skipped and lost: they are told before the next line is sent."""
    lines = (ROOT / "tests/rows/recovery/capture").read_bytes().splitlines(keepends=True)
    told = (ROOT / "tests/rows/recovery/stderr.live").read_bytes().splitlines(keepends=True)
    run = Run([program, "--live", "--window", "4"])
    came = b""
    for number, line in enumerate(lines, 1):
        run.send(line)
        place = b"line %d: " % number
        came += b"".join(note for note in told if note.startswith(place))
        run.read(PATIENCE, 0, len(came))
        judge(run.told == came, f"what is told up to line {number}: {run.told!r} in place of {came!r}")
    run.send(b"Q\n")
    came += b"line %d: 21 LineForm\n" % (len(lines) + 1)
    run.read(PATIENCE, 0, len(came))
    judge(run.told == came, f"a skipped line before the next: {run.told!r}")
    judge(run.end() == 0, "the end of a pipe")


def late(program, pieces, says):
    """Sends an instrument after records: the text before it is there, without an end."""
    text = (ROOT / "examples/plain.txt").read_bytes()
    text = b"".join(line for line in text.splitlines(keepends=True) if line[:1] not in b"XZ")
    run = Run([program, "--live"])
    for piece in pieces:
        run.send(piece)
        run.read(QUIET, 0, 0)
    run.process.wait(PATIENCE)
    run.read(QUIET, 0, 0)
    judge(run.process.returncode == 2, f"{says}: status {run.process.returncode}")
    judge(run.text == text, f"{says}: text {run.text!r} in place of {text!r}")
    judge(run.told.endswith(b": 35 InstrumentLate\n"), f"{says}: told {run.told!r}")


def memory_of(program, datagrams):
    """Sends so many datagrams, each packet on both feeds, and gives the peak of the program's memory, its status and its last line."""
    plain = (ROOT / "examples/plain.capture").read_text().splitlines()
    rest = next(line for line in plain if line.startswith("A "))[10:]
    out = os.open(os.devnull, os.O_WRONLY)
    process = subprocess.Popen([program, "--live"], stdin=subprocess.PIPE, stdout=out, stderr=subprocess.PIPE)
    os.close(out)
    with process.stdin as pipe:
        pipe.write(b"I 1 NEAR O\n")
        for first in range(1, datagrams // 2 + 1, 1000):
            lines = []
            for number in range(first, min(first + 1000, datagrams // 2 + 1)):
                line = f" {number.to_bytes(4, 'little').hex()}{rest}\n"
                lines += ["A", line, "B", line]
            pipe.write("".join(lines).encode())
    told = process.stderr.read()
    _, status, usage = os.wait4(process.pid, 0)
    return usage.ru_maxrss, os.waitstatus_to_exitcode(status), told


def grow(program):
    few = memory_of(program, FEW)
    many = memory_of(program, MANY)
    judge(few[1:] == (0, b"") and many[1:] == (0, b""), f"long runs: {few} {many}")
    judge(many[0] <= few[0] * 1.05, f"memory of {MANY} datagrams: {many[0]} kB, where {FEW} took {few[0]}")


def main():
    if len(sys.argv) != 2 or not os.access(sys.argv[1], os.X_OK):
        print("usage: run_live.py PROGRAM", file=sys.stderr)
        return 2
    program = os.path.realpath(sys.argv[1])
    follow(program)
    tell(program)
    plain = (ROOT / "examples/plain.capture").read_bytes()
    late(program, [plain + b"I 9 LATE O\n"], "a late instrument in one piece with records")
    late(program, [plain, b"I 9 LATE O\n"], "a late instrument in the next piece")
    late(program, [plain + b"I 9 LA", b"TE O\n"], "a late instrument in two pieces")
    grow(program)
    print(f"{passed} passed, {failed} failed")
    return failed > 0


sys.exit(main())
