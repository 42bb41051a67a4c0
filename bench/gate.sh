#!/usr/bin/env bash
# What the gate takes: runs `rt ci` with these words (for a whole run from nothing: --anew), and prints for each crate the
# processor seconds of its proof, of its tests' proof and of its edits (the check that they begin with, and each of them),
# then the longest chain of crates by these seconds, and the processor and wall minutes of the whole run by the times of
# its own children. What an earlier run kept costs nothing and shows as a dash. The log of `rt ci` is bench/gate.log. By
# hand, and not by the gate; needs python3.
#
#   bench/gate.sh --anew          the whole gate from nothing
#   bench/gate.sh cds_store       one crate, and what is below it and not kept
set -u
top=$(cd "$(dirname "$0")/.." && pwd)
cd "$top" || exit 1
exec python3 - "$@" <<'PYTHON'
import os
import re
import resource
import subprocess
import sys
import time

TICKS = os.sysconf("SC_CLK_TCK")
KINDS = ("proof", "tests", "seed", "edits")


def read(path):
    try:
        with open(path, "rb") as file:
            return file.read()
    except OSError:
        return b""


def looked_at(pid):
    """The parent of a process, when it began, and its processor seconds and those of its children that ended."""
    fields = read(f"/proc/{pid}/stat").rpartition(b")")[2].split()
    if len(fields) < 20:
        return None
    return int(fields[1]), int(fields[19]), sum(map(int, fields[11:15])) / TICKS


def kind_of(words, folder):
    """What a check of a crate is for."""
    held = words[words.index("--incremental") + 1] if "--incremental" in words else ""
    if "rt-edit-" in folder:
        return "seed" if held.endswith("/seed") else "edits"
    return "tests" if "--test" in words else "proof"


def sample(root, seen):
    """Notes the seconds of each check below the process: the outermost of its processes counts, with what ended in it."""
    parents = {}
    for name in os.listdir("/proc"):
        if name.isdigit() and (found := looked_at(int(name))):
            parents[int(name)] = found

    def is_below(pid):
        while pid in parents and pid != root:
            pid = parents[pid][0]
        return pid == root

    for pid, (parent, began, spent) in parents.items():
        words = read(f"/proc/{pid}/cmdline").decode(errors="replace").split("\0")
        if "--crate-name" not in words or not words[0].endswith("/rattle") or not is_below(pid):
            continue
        try:
            folder = os.readlink(f"/proc/{pid}/cwd")
        except OSError:
            continue
        crate = words[words.index("--crate-name") + 1]
        seen[pid, began] = [crate, kind_of(words, folder), spent, parent]


def table(seen):
    """The seconds by crate and kind. A check's own children count with it only once they ended, so those that the last
    look found within another check are added to it."""
    found = {}
    for crate, kind, spent, _ in seen.values():
        row = found.setdefault(crate, dict.fromkeys(KINDS, 0.0))
        row[kind] += spent
    return found


def chain(found):
    """The longest chain of crates by the seconds of their proofs, with the tests of its last one."""
    below = {}
    with open("crates.txt", encoding="utf-8") as file:
        for line in file:
            name, _, rest = line.partition("#")[0].partition(":")
            if name.strip():
                below[name.split()[0]] = rest.split()
    best = {}

    def ends_at(crate):
        if crate not in best:
            longest = max((ends_at(it) for it in below[crate] if it in below), default=(0.0, []))
            best[crate] = longest[0] + found.get(crate, {}).get("proof", 0.0), [*longest[1], crate]
        return best[crate]

    return max((ends_at(it)[0] + max(found.get(it, {}).get("tests", 0.0) - found.get(it, {}).get("proof", 0.0), 0.0), ends_at(it)[1]) for it in below)


began, seen = time.monotonic(), {}
with open("bench/gate.log", "w", encoding="utf-8") as log:
    run = subprocess.Popen(["rt", "ci", *sys.argv[1:]], stdout=log, stderr=subprocess.STDOUT, stdin=subprocess.DEVNULL)
    while run.poll() is None:
        sample(run.pid, seen)
        time.sleep(0.5)
# (a copy of a check that is within another is counted there once it ended)
found = table({key: it for key, it in seen.items() if not any(other[0] == it[3] for other in seen)})
spent = resource.getrusage(resource.RUSAGE_CHILDREN)
print(f"{'crate':<20}" + "".join(f"{it:>8}" for it in (*KINDS, "all")))
for crate, row in sorted(found.items(), key=lambda it: -sum(it[1].values())):
    print(f"{crate:<20}" + "".join(f"{row[it]:>8.0f}" if row[it] else f"{'-':>8}" for it in KINDS) + f"{sum(row.values()):>8.0f}")
print(f"{'all':<20}" + "".join(f"{sum(row[it] for row in found.values()):>8.0f}" for it in KINDS) + f"{sum(sum(row.values()) for row in found.values()):>8.0f}")
seconds, crates = chain(found)
print(f"longest chain: {seconds:.0f} s: {' '.join(crates)}")
print(f"whole: {(spent.ru_utime + spent.ru_stime) / 60:.0f} processor minutes, {(time.monotonic() - began) / 60:.0f} minutes of wall time")
with open("bench/gate.log", encoding="utf-8", errors="replace") as log:
    print(re.sub(r"\s+$", "", log.read()).rpartition("\n")[2])
sys.exit(run.returncode)
PYTHON
