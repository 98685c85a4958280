#!/usr/bin/env python3
"""Checks that the tests of mdp_pcap have each sample of tests/pcap, byte by byte, and what tshark found in it. Tells each that
differs, and then 'N passed, M failed'. With --write it writes the samples into the crate."""
import pathlib
import re
import sys

TOP = pathlib.Path(__file__).resolve().parent.parent
SAMPLES = sorted(TOP.glob("tests/pcap/*.pcap*"))
SOURCE = TOP / "crates/mdp_pcap/src/tests/samples.rt"


def write():
    text = "//! The samples of tests/pcap, and what tshark found in them; written by tests/check_pcap_samples.py.\n"
    for sample in SAMPLES:
        data = sample.read_bytes()
        frames = sample.with_suffix(".frames").read_text().replace("\n", "\\n")
        name = sample.stem.upper()
        numbers = ", ".join(str(byte) for byte in data)
        text += f"\npub(crate) const {name}: [u8; {len(data)}] = [{numbers}];\n"
        text += f'\npub(crate) const {name}_FRAMES: &str = "{frames}";\n'
    SOURCE.write_text(text)


def check():
    text = SOURCE.read_text()
    passed = failed = 0
    for sample in SAMPLES:
        name = sample.stem.upper()
        numbers = re.search(rf"const {name}: \[u8; \d+\] = \[([^\]]*)\];", text)
        frames = re.search(rf'const {name}_FRAMES: &str =\s*"([^"]*)";', text)
        has_bytes = numbers and bytes(int(n) for n in re.findall(r"\d+", numbers[1])) == sample.read_bytes()
        has_frames = frames and frames[1].replace("\\n", "\n") == sample.with_suffix(".frames").read_text()
        if has_bytes and has_frames:
            passed += 1
        else:
            failed += 1
            print(f"{SOURCE.relative_to(TOP)}: {name} is not {sample.relative_to(TOP)}")
    print(f"{passed} passed, {failed} failed")
    return failed > 0


if sys.argv[1:] == ["--write"]:
    write()
else:
    sys.exit(check())
