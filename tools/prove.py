#!/usr/bin/env python3
"""Proves mdp_handler with all crates that it stands on, and builds it: tools/prove.py

The crates are checked one after another, lowest first, each by as many jobs as processors and free memory allow (GIGABYTES for each), or by
JOBS of them. Checks side by side in one checkout would wait for each other, since each holds the libraries that it reads. A line on standard
error tells each crate that is done, how many of how many that is, and the minutes so far; in between a line each minute tells what is
checked. Where something is not proved, what rt prints of it is shown. Where the program is newer than all sources, `rt run` alone looks
whether anything changed.
"""
import os
import re
import subprocess
import sys
import threading
import time

GIGABYTES = 4
PROGRAM = "mdp_handler"
BUILT = f"crates/{PROGRAM}/out/{PROGRAM}"
# A line of rt that tells of nothing amiss.
WELL = re.compile(r"(checked|statements|crate|logic) |.*: proved$")


def job_count():
    """How many jobs a check has."""
    if os.environ.get("JOBS", "").isdigit():
        return max(1, int(os.environ["JOBS"]))
    free = 0
    with open("/proc/meminfo", encoding="ascii") as file:
        for line in file:
            if line.startswith("MemAvailable:"):
                free = int(line.split()[1]) >> 20
    return max(1, min(len(os.sched_getaffinity(0)), free // GIGABYTES))


def crates_in_order():
    """The crates of crates.txt that the program stands on and the program, each behind those that it stands on itself."""
    with open("crates.txt", encoding="utf-8") as file:
        lines = [line.split("#")[0].split(":") for line in file if ":" in line.split("#")[0]]
    needs = {name.split()[0]: below.split() for name, below in lines}
    order = []

    def add(name):
        for below in needs[name]:
            if below in needs and below not in order:
                add(below)
        order.append(name)

    add(PROGRAM)
    return order


def newest_source():
    newest = os.path.getmtime("crates.txt")
    for folder, below, files in os.walk("crates"):
        below[:] = [it for it in below if it not in ("out", "must-fail")]
        for name in files:
            if name.endswith((".rt", ".antt")):
                newest = max(newest, os.path.getmtime(os.path.join(folder, name)))
    return newest


def tell(text):
    print(text, file=sys.stderr, flush=True)


def minutes_since(begin):
    return f"{(time.monotonic() - begin) / 60:.1f} minutes"


def run(command, crate):
    """Runs a command in a crate's folder, and returns how it ended, with what it printed."""
    return subprocess.run(command, cwd=f"crates/{crate}", stdin=subprocess.DEVNULL, stdout=subprocess.PIPE, stderr=subprocess.STDOUT,
                          text=True, errors="replace", check=False)


def prove(crates, jobs, begin):
    """Proves the crates, and returns whether all are proved."""
    done, ended = [], threading.Event()

    def tell_each_minute():
        while not ended.wait(60):
            tell(f"{len(done)} of {len(crates)}, {minutes_since(begin)}; at work: {crates[min(len(done), len(crates) - 1)]}")

    threading.Thread(target=tell_each_minute, daemon=True).start()
    for crate in crates:
        check = run(["rt", "check", "--jobs", str(jobs)], crate)
        if check.returncode:
            tell("\n".join(line for line in check.stdout.split("\n") if not WELL.match(line)).rstrip())
            tell(f"{len(done)} of {len(crates)}, {minutes_since(begin)}: {crate} NOT PROVED")
            return False
        done.append(crate)
        tell(f"{len(done)} of {len(crates)}, {minutes_since(begin)}: {crate} proved")
    ended.set()
    return True


def main():
    os.chdir(os.path.join(os.path.dirname(os.path.realpath(__file__)), ".."))
    begin = time.monotonic()
    is_new = not os.path.exists(BUILT) or os.path.getmtime(BUILT) <= newest_source()
    if is_new:
        crates, jobs = crates_in_order(), job_count()
        tell(f"proving {len(crates)} crates, each by {jobs} jobs; the first time takes long (README.md says how long)")
        if not prove(crates, jobs, begin):
            sys.exit(f"not proved, after {minutes_since(begin)}")
        tell(f"all proved, {minutes_since(begin)}; building {PROGRAM}")
    built = run(["rt", "run", "--", "--version"], PROGRAM)
    if built.returncode:
        tell(built.stdout.rstrip())
        sys.exit(f"not built, after {minutes_since(begin)}")
    if is_new:
        tell(f"built {BUILT}, {minutes_since(begin)}")


main()
