#!/usr/bin/env python3
"""Runs the merge gate, and tells what it cost: for each crate the processor's seconds of its proof, its tests and its edits.

usage: bench/gate.py [WORD ..]

`rt ci` is run at the top of the repository with these words, and what it prints goes where this script's output goes. (Where a
toolchain's `rt ci` takes what earlier runs kept, its word `--anew` has it prove everything; where it takes no words, it does
that each time.) Beside it all processes are looked at five times a second. A process of the prover counts for the crate that
its words name: as its proof; as its tests; or as its edits, where it checks a copy with an edit in it, or what the edits begin
with. Compilers and linkers are left to the last line, which has the whole run by the system's own count. A process is seen
last up to a fifth of a second before it ends, so the table comes to a little less.
"""

import collections
import os
import pathlib
import resource
import subprocess
import sys
import time

TOP = pathlib.Path(__file__).resolve().parent.parent
TICKS = os.sysconf("SC_CLK_TCK")
KINDS = ("proof", "tests", "edits")


def running():
    """Each process of the prover that runs, by its number and when it began: its words and its seconds up to now."""
    found = {}
    for entry in os.scandir("/proc"):
        if not entry.name.isdigit():
            continue
        try:
            stat = pathlib.Path(entry.path, "stat").read_text()
            if not stat.partition("(")[2].startswith("rattle)"):
                continue
            words = pathlib.Path(entry.path, "cmdline").read_text().split("\0")
        except OSError:
            continue
        fields = stat.rpartition(")")[2].split()
        # (its own seconds, of the user and of the system, and those of its children that have ended)
        seconds = sum(int(it) for it in fields[11:15]) / TICKS
        found[entry.name, fields[19]] = fields[1], words, seconds
    # (a prover's copies of itself count with it)
    numbers = {number for number, _ in found}
    return {it: (words, seconds) for it, (parent, words, seconds) in found.items() if parent not in numbers}


def place_of(words):
    """The crate and the kind of work that a process is for, or None where its words name no crate."""
    if "--crate-name" not in words:
        return None
    crate = words[words.index("--crate-name") + 1]
    if "--test" in words:
        return crate, "tests"
    is_of_edits = "check" in words and ("--incremental" in words or "-o" not in words)
    return crate, "edits" if is_of_edits else "proof"


def print_table(seconds):
    crates = sorted({crate for crate, _ in seconds}, key=lambda it: -sum(seconds[it, kind] for kind in KINDS))
    print(f"{'':20}" + "".join(f"{kind:>9}" for kind in KINDS) + "      all")
    for crate in crates:
        row = [seconds[crate, kind] for kind in KINDS]
        print(f"{crate:20}" + "".join(f"{it:9.0f}" for it in (*row, sum(row))))
    sums = [sum(seconds[crate, kind] for crate in crates) / 60 for kind in KINDS]
    print(f"{'minutes':20}" + "".join(f"{it:9.1f}" for it in (*sums, sum(sums))))


def main(words):
    if words[:1] in (["-h"], ["--help"]):
        print(__doc__)
        return 0
    seen, begun = {}, time.time()
    gate = subprocess.Popen(["rt", "ci", *words], cwd=TOP)
    while gate.poll() is None:
        for it, (at, spent) in running().items():
            # (a process that has ended, and that nobody has asked about yet, tells its seconds and no words)
            seen[it] = (at if any(at) or it not in seen else seen[it][0], spent)
        time.sleep(0.2)
    seconds = collections.Counter()
    for at, spent in seen.values():
        if place_of(at):
            seconds[place_of(at)] += spent
    print_table(seconds)
    used = resource.getrusage(resource.RUSAGE_CHILDREN)
    print(
        f"the whole run: {used.ru_utime / 60:.1f} minutes of the processor for the user and {used.ru_stime / 60:.1f} for the"
        f" system, {(time.time() - begun) / 60:.1f} by the clock"
    )
    return gate.returncode


if __name__ == "__main__":
    sys.exit(main(sys.argv[1:]))
