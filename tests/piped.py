"""A program that runs with pipes to it and from it, for the tests that send it one piece after another."""
import os
import select
import subprocess
import time

PATIENCE = 20  # seconds to wait for what must come
QUIET = 0.05  # seconds in which no more may come


class Run:
    """A program that is running, with pipes to it and from it."""

    def __init__(self, words, stdin=subprocess.PIPE):
        self.process = subprocess.Popen(words, stdin=stdin, stdout=subprocess.PIPE, stderr=subprocess.PIPE)
        self.text = b""
        self.told = b""

    def send(self, text):
        os.write(self.process.stdin.fileno(), text)

    def read(self, patience, text, told):
        """Reads until both outputs have so many bytes, or for so long, and then whatever else comes at once."""
        end = time.monotonic() + patience
        while len(self.text) < text or len(self.told) < told:
            left = end - time.monotonic()
            if left <= 0 or not self.read_once(left):
                break
        while self.read_once(QUIET):
            pass

    def read_once(self, patience):
        pipes = {self.process.stdout.fileno(): "text", self.process.stderr.fileno(): "told"}
        found, _, _ = select.select(list(pipes), [], [], patience)
        got = False
        for pipe in found:
            piece = os.read(pipe, 65536)
            setattr(self, pipes[pipe], getattr(self, pipes[pipe]) + piece)
            got = got or bool(piece)
        return got

    def end(self):
        if self.process.stdin:
            self.process.stdin.close()
        self.read(PATIENCE, 1 << 60, 1 << 60) if self.process.poll() is None else None
        status = self.process.wait(PATIENCE)
        while self.read_once(QUIET):
            pass
        return status


def text_by_packet(text):
    """Gives the lines of a text by the packet that they are of, and the others under 0."""
    lines = {}
    for line in text.splitlines(keepends=True):
        fields = line.split()
        packet = int(fields[1].split(b".")[0]) if fields[0] in b"DICFA" else 0
        lines[packet] = lines.get(packet, b"") + line
    return lines
