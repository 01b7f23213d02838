#!/usr/bin/env python3
"""Runs the prover's gate and tells its processor minutes by crate: proofs, tests, edits.

usage: bench/gate.py [words for `rt ci`, such as --anew]

It looks at the processes below `rt ci` every quarter of a second and takes each one's processor time when it was last seen, so that up to a
quarter of a second of each is missing.
"""

import os
import subprocess
import sys
import time

TICKS = os.sysconf("SC_CLK_TCK")
TOP = os.path.join(os.path.dirname(os.path.abspath(__file__)), "..")


def children():
    """The children of each process."""
    below = {}
    for name in os.listdir("/proc"):
        if name.isdigit():
            try:
                with open(f"/proc/{name}/stat") as stat:
                    parent = int(stat.read().rpartition(")")[2].split()[1])
            except (OSError, ValueError):
                continue
            below.setdefault(parent, []).append(int(name))
    return below


def all_below(root):
    """All processes below one."""
    below, found, left = children(), [], [root]
    while left:
        more = below.get(left.pop(), [])
        found += more
        left += more
    return found


def look(number):
    """The crate and the kind of a process, and its processor seconds without those of its children."""
    try:
        with open(f"/proc/{number}/cmdline", "rb") as words:
            words = words.read().decode(errors="replace").split("\0")
        folder = os.readlink(f"/proc/{number}/cwd")
        with open(f"/proc/{number}/stat") as stat:
            fields = stat.read().rpartition(")")[2].split()
    except (OSError, ValueError):
        return None
    if "--crate-name" not in words:
        return None
    crate = words[words.index("--crate-name") + 1]
    kind = "edits" if "rt-edit" in folder or "rt-seed" in folder else "tests" if "--test" in words else "proof"
    return crate, kind, (int(fields[11]) + int(fields[12])) / TICKS


def main():
    gate = subprocess.Popen(["rt", "ci", *sys.argv[1:]], cwd=TOP)
    seen, begun = {}, time.time()
    while gate.poll() is None:
        for number in all_below(gate.pid):
            found = look(number)
            if found:
                seen[number] = found
        time.sleep(0.25)
    sums = {}
    for crate, kind, seconds in seen.values():
        row = sums.setdefault(crate, {"proof": 0.0, "tests": 0.0, "edits": 0.0})
        row[kind] += seconds / 60
    print(f"{'crate':14} {'proof':>6} {'tests':>6} {'edits':>6}")
    for crate, row in sums.items():
        print(f"{crate:14} {row['proof']:6.1f} {row['tests']:6.1f} {row['edits']:6.1f}")
    whole = sum(sum(row.values()) for row in sums.values())
    print(f"{'all':14} {whole:6.1f} processor minutes, {(time.time() - begun) / 60:.0f} by the clock")
    return gate.returncode


if __name__ == "__main__":
    sys.exit(main())
