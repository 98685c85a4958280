#!/usr/bin/env python3
"""Prints what the proofs, the tests and the must-fail edits of each crate cost: tests/costs.py [--edits] [ROUND..] [CRATE..]

Goes over the crates in the order of crates.txt, lowest first: over all of them with `rt check`, then with `rt check --test`, then, where a
crate has must-fail edits, with `rt must-fail --anew`. These are the rounds `proof`, `tests` and `edits`; where rounds are named, no others
are run. Each command is timed whole: minutes of wall time, and processor minutes of it and of all that it waited for. It works in the
checkout in which it lies, so run it in a fresh clone, on a machine with nothing else at work. What checks keep on a machine makes later
ones quicker, wherever they run, so the costs from nothing are those of a machine that has kept nothing. With --edits, each edit of the
crates is put by itself into a copy of the checkout, where the temporary files lie (some 6 GB), and the `rt check` that must refuse it is
timed: seconds of wall and of processor time. Before a crate's edits its own check, timed too, must succeed there, and is then asked once
more, so that what a check takes with nothing changed is told. The exit status is 1 if a command ended otherwise than it
should.
"""
import os
import resource
import shutil
import subprocess
import sys
import tempfile
import time

ROUNDS = (("proof", ["rt", "check"]), ("tests", ["rt", "check", "--test"]), ("edits", ["rt", "must-fail", "--anew"]))


def crates_in_order():
    """Returns the crates of crates.txt, each behind those that it stands on."""
    needs = {}
    with open("crates.txt", encoding="utf-8") as file:
        for line in file:
            name, colon, rest = line.split("#")[0].partition(":")
            if colon:
                needs[name.split()[0]] = rest.split()
    order = []
    while len(order) < len(needs):
        order += [it for it in needs if it not in order and all(n in order for n in needs[it] if n in needs)]
    return order


def edits_of(crate):
    folder = f"crates/{crate}/must-fail"
    return sorted(os.listdir(folder)) if os.path.isdir(folder) else []


def timed(command, folder):
    """Runs a command, and returns its exit status, what it printed, and the seconds of wall and processor time that it took."""
    before = resource.getrusage(resource.RUSAGE_CHILDREN)
    begin = time.monotonic()
    done = subprocess.run(command, cwd=folder, stdin=subprocess.DEVNULL, stdout=subprocess.PIPE, stderr=subprocess.STDOUT, text=True,
                          errors="replace", check=False)
    wall = time.monotonic() - begin
    after = resource.getrusage(resource.RUSAGE_CHILDREN)
    return done.returncode, done.stdout, wall, after.ru_utime - before.ru_utime + after.ru_stime - before.ru_stime


def time_crates(rounds, crates):
    """Times rounds over crates, and returns whether all commands ended well."""
    is_good = True
    print("crate, round: minutes of wall, minutes of processor time", flush=True)
    for name, command in rounds:
        wall_of_all = processor_of_all = 0
        for crate in crates:
            if name == "edits" and not edits_of(crate):
                continue
            words = command + [crate] if name == "edits" else command
            status, text, wall, processor = timed(words, "." if name == "edits" else f"crates/{crate}")
            wall_of_all += wall
            processor_of_all += processor
            print(f"{crate}, {name}: {wall / 60:.1f} {processor / 60:.1f}", flush=True)
            missed = len(edits_of(crate)) - text.count(": refused, as it must be") if name == "edits" else 0
            if status or missed:
                is_good = False
                print(f"{' '.join(words)} ended with {status}, {missed} not refused:\n{text[-3000:]}", flush=True)
        print(f"all, {name}: {wall_of_all / 60:.1f} {processor_of_all / 60:.1f}", flush=True)
    return is_good


def apply(edit, folder):
    """Puts an edit into the crate that lies in a folder."""
    path = old = None
    with open(edit, encoding="utf-8") as file:
        for line in file.read().split("\n"):
            word, _, rest = line.partition(": ")
            if word == "file":
                path = os.path.join(folder, rest.strip())
            elif word == "old":
                old = rest
            elif word == "new" or line == "new:":
                with open(path, encoding="utf-8") as source:
                    text = source.read()
                if text.count(old) != 1:
                    sys.exit(f"{edit}: its line stands {text.count(old)} times")
                with open(path, "w", encoding="utf-8") as source:
                    source.write(text.replace(old, rest))


def time_edits(crates):
    """Times the check that refuses each edit, and returns whether each was refused."""
    is_good = True
    print("crate and edit: seconds of wall, seconds of processor time", flush=True)
    with tempfile.TemporaryDirectory() as copy:
        for name in ("HANDLES", "crates.txt", "crates"):
            subprocess.run(["cp", "-a", name, copy], check=True)
        for crate in (it for it in crates if edits_of(it)):
            folder, kept = f"{copy}/crates/{crate}", f"{copy}/kept"
            for name in ("proof", "nothing changed"):
                status, text, wall, processor = timed(["rt", "check"], folder)
                print(f"{crate}, {name}: {wall:.0f} {processor:.0f}", flush=True)
            if status:
                is_good = False
                print(f"{crate} is not proved:\n{text[-3000:]}", flush=True)
                continue
            subprocess.run(["cp", "-a", folder, kept], check=True)
            for edit in edits_of(crate):
                apply(f"crates/{crate}/must-fail/{edit}", folder)
                status, _, wall, processor = timed(["rt", "check"], folder)
                is_good = is_good and status != 0
                print(f"{crate}/{edit}: {wall:.0f} {processor:.0f}{'' if status else ', LET THROUGH'}", flush=True)
                shutil.rmtree(folder)
                subprocess.run(["cp", "-a", kept, folder], check=True)
            shutil.rmtree(kept)
    return is_good


def main():
    os.chdir(os.path.join(os.path.dirname(os.path.realpath(__file__)), ".."))
    words = sys.argv[1:]
    wants_edits = words[:1] == ["--edits"]
    rounds = [it for it in ROUNDS if it[0] in words] or ROUNDS
    named = [it for it in words[wants_edits:] if it not in [name for name, _ in ROUNDS]]
    crates = named or crates_in_order()
    unknown = [it for it in crates if it not in crates_in_order()]
    if unknown:
        sys.exit(f"no such crate: {', '.join(unknown)}")
    is_good = time_edits(crates) if wants_edits else time_crates(rounds, crates)
    sys.exit(0 if is_good else 1)


main()
