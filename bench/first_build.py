#!/usr/bin/env python3
"""Measures the first build: what `./tardis` takes where nothing is proved yet, and what it takes for each crate.

usage: bench/first_build.py [--keep FOLDER] [--write]

What is committed is cloned into a folder of its own, and `./tardis --version` is run there. The last lines say how long that took by
the clock, how much of a processor, and how much of the machine others took meanwhile, or was idle: a machine is quiet where others
took less than a hundredth. What the build tells goes to standard error.

--keep FOLDER   clone into this folder, which isn't there yet, and leave it
--write         put the seconds of each crate into tools/seconds.txt, by which builds choose what to begin with
"""

import argparse
import os
import pathlib
import resource
import subprocess
import sys
import tempfile
import time

TOP = pathlib.Path(__file__).resolve().parent.parent
TABLE = TOP / "tools" / "seconds.txt"
TICKS = os.sysconf("SC_CLK_TCK")
HEAD = """# What the proof of each crate took once, in seconds of a processor, and how many bytes of code it had then. Builds choose by it what
# to begin with (tools/build.py); bench/first_build.py --write measures it anew.
"""


def machine_seconds():
    """The seconds that the machine's processors spent so far: idle, for others (of a virtual machine), and in all."""
    fields = pathlib.Path("/proc/stat").read_text().splitlines()[0].split()[1:9]
    ticks = [int(it) for it in fields]
    return (ticks[3] + ticks[4]) / TICKS, ticks[7] / TICKS, sum(ticks) / TICKS


def build(folder):
    subprocess.run(["git", "clone", "--quiet", str(TOP), str(folder)], check=True)
    before, began = machine_seconds(), time.monotonic()
    subprocess.run([str(folder / "tardis"), "--version"], stdout=sys.stderr, check=True)
    gone = time.monotonic() - began
    used = resource.getrusage(resource.RUSAGE_CHILDREN)
    idle, others, whole = (after - was for after, was in zip(machine_seconds(), before))
    return gone, used.ru_utime + used.ru_stime, idle / whole, others / whole


def took(folder):
    """For each crate the line of what it took, those that took most first."""
    found = {it.parent.parent.parent.name: it.read_text().split() for it in folder.glob("crates/*/out/statements/seconds")}
    return sorted(found.items(), key=lambda it: -int(it[1][0]))


def main():
    parser = argparse.ArgumentParser(description=__doc__.splitlines()[0])
    parser.add_argument("--keep", type=pathlib.Path)
    parser.add_argument("--write", action="store_true")
    given = parser.parse_args()
    with tempfile.TemporaryDirectory(prefix="first-build-") as passing:
        folder = (given.keep or pathlib.Path(passing, "clone")).absolute()
        gone, used, idle, others = build(folder)
        rows = took(folder)
    for name, (seconds, code) in rows:
        print(f"{name:18} {seconds:>5} s  {code:>7} bytes")
    print(f"{gone / 60:.1f} minutes by the clock, {used / 60:.1f} of a processor; {100 * others:.0f} in 100 taken by others, {100 * idle:.0f} idle")
    if given.write:
        TABLE.write_text(HEAD + "".join(f"{name} {seconds} {code}\n" for name, (seconds, code) in sorted(rows)), encoding="utf-8")


if __name__ == "__main__":
    main()
