#!/usr/bin/env bash
# Ratios measured in one run, by hand and not by the gate:
# - the time of a 20 MB script of comments against `wc -l` on it (goal: at most 10 times);
# - user time and peak memory of one scan, a full load and an ask for 500, 1,000, 2,000 and 4,000 tracks in folders of 10
#   (goal per doubling: at most 4.5 times in time and 2.1 in memory, and below 2 s at 4,000);
# - ten scans of these numbers of tracks with 2 % changed in each, with the growth per doubling;
# - peak memory after 40 scans of the same 2,000 tracks against one (goal: at most 1.2 times);
# - peak memory of 20 loads against one (goal: at most 1.2 times);
# - peak memory of 20 asks that come in one piece against one (goal: at most 1.2 times);
# - 1,000 tracks that are followed through 100 scans with 2 % changed in each, each note delivered and each changed track
#   read: the user time of the last ten scans against that of the first ten (goal: at most 1.2 times);
# - one scan, a full load and an ask for libraries of 4,000, 16,000 and 64,000 objects, tracks in folders of 10, and the same
#   flat at the root: user time and peak memory per object against those at 4,000 (goal: at most 1.4 and 1.1 times);
# - ten scans of 64,000 objects in folders with 2 % changed in each: the user time of each after the first against the first's
#   (goal: at most 0.7 times), and a scan of 64,000 tracks that changes one of them against one that changes none (goal: at
#   most 1.3 times);
# - a release of 131,070 changes (65,535 tracks that came and went), as notes to one subscription: user time and peak memory for
#   each change, beside the same script without the tick.
# - 40 scans of generated libraries of 1,200, 4,000 and 10,000 tracks (`generate 7 TRACKS`, then `summary`): user time and peak memory
#   for each line of the script against those at 1,200 (goal: at 10,000 at most 1.5 times in time and 1.0 in memory).
# Needs bash, python3 and GNU time (/usr/bin/time), which tells the program's own peak memory.
set -eu
top=$(cd "$(dirname "$0")/.." && pwd)
program=$top/crates/cds_cli/out/cds_cli
work=$(mktemp -d)
trap 'rm -rf "$work"' EXIT

python3 - "$work" <<'PY'
import sys
work = sys.argv[1]

# Folders of ten tracks; in each scan another 2 % of the tracks have grown by a byte.
def tracks(count, scan=0):
    lines = []
    for folder in range(count // 10):
        lines.append(f"folder f{folder}")
        for track in range(10):
            grown = scan if (folder * 10 + track) % 50 == scan % 50 else 0
            lines.append(f"track f{folder}/t{track}.flac {1000 + track + grown} 44100 2 16 441000")
    return lines

def reads(count):
    return 4 + 2 * (-(-(count // 10) // 256) + count // 10)

# A replica that follows so many scans, in each of which another 2 % of the tracks have grown by a byte for good.
def followed(count, scans):
    def found(scan):
        for folder in range(count // 10):
            yield f"folder f{folder}"
            for track in range(10):
                at = folder * 10 + track
                grown = sum(1 for past in range(1, scan + 1) if past % 50 == at % 50)
                yield f"track f{folder}/t{track}.flac {1000 + grown} 44100 2 16 441000"
    lines = [*found(0), "scan", "load", *["read"] * reads(count), "subscribe", "accept", "deliver 1"]
    for scan in range(1, scans + 1):
        lines += [*found(scan), "scan", f"at {scan * 200}", f"deliver {scan + 1}", *["read"] * (count // 50)]
    return lines + ["ask"]

# A library of so many objects: folders of ten tracks, or tracks at the root, of which one has grown.
def library(count, flat=False, scan=0, grown=-1):
    if flat:
        return [f"track t{at}.flac {1000 + (at == grown)} 44100 2 16 441000" for at in range(count)]
    return tracks(count // 11 * 10, scan)

def library_reads(count, flat):
    return 8 + 2 * -(-count // 256) if flat else reads(count // 11 * 10)

def write(name, lines):
    with open(f"{work}/{name}", "w") as file:
        file.write("\n".join(lines) + "\n")

with open(f"{work}/comments", "w") as file:
    line = "#" + "x" * 62 + "\n"
    file.write(line * (20_000_000 // len(line)))
for count in (500, 1000, 2000, 4000):
    write(f"load{count}", tracks(count) + ["scan", "load"] + ["read"] * reads(count) + ["ask"])
for count in (500, 1000, 2000, 4000):
    write(f"changed{count}", [line for scan in range(10) for line in tracks(count, scan) + ["scan"]])
write("scans1", tracks(2000) + ["scan"])
write("scans40", (tracks(2000) + ["scan"]) * 40)
write("loads1", tracks(2000) + ["scan"] + ["load"] + ["read"] * reads(2000) + ["ask"])
write("loads20", tracks(2000) + ["scan"] + (["load"] + ["read"] * reads(2000)) * 20 + ["ask"])
write("asks20", tracks(2000) + ["scan"] + ["load"] + ["read"] * reads(2000) + ["ask"] * 20)
for scans in (0, 10, 90, 100):
    write(f"followed{scans}", followed(1000, scans))
for count in (4000, 16000, 64000):
    for flat in (False, True):
        where = "flat" if flat else "folders"
        write(f"scan-{where}{count}", library(count, flat) + ["scan"])
        write(f"load-{where}{count}", library(count, flat) + ["scan", "load"] + ["read"] * library_reads(count, flat) + ["ask"])
write("ten64000", [line for scan in range(10) for line in library(64000, scan=scan) + ["scan"]])
write("none64000", (library(64000, True) + ["scan"]) * 2)
gone = ["subscribe", "accept", *library(65535, True), "scan", "scan"]
write("kept131070", gone)
write("released131070", gone + ["at 200"])
write("one64000", library(64000, True) + ["scan"] + library(64000, True, grown=32000) + ["scan"])
PY

for count in 1200 4000 10000; do
  "$program" generate 7 "$count" >"$work/generated$count"
done

PYTHONPATH=$top/bench python3 -B - "$work" "$program" <<'PY'
import sys
from measure import measured
work, program = sys.argv[1:]

def timed(command, name, runs=25):
    wall, user, most = measured(command, f"{work}/{name}", runs)
    return wall, user, most / (1024 * 1024)

play = [program, "replay"]
comments, lines = timed(play, "comments"), timed(["wc", "-l"], "comments")
print(f"20 MB of comments: {comments[0] * 1000:.0f} ms, wc -l {lines[0] * 1000:.0f} ms, {comments[0] / lines[0]:.1f} times")
before = None
for count in (500, 1000, 2000, 4000):
    now = timed(play, f"load{count}")
    grown = "" if before is None else f", {now[0] / before[0]:.2f} times in time and {now[2] / before[2]:.2f} in memory"
    print(f"{count} tracks: {now[0] * 1000:.1f} ms ({now[1] * 1000:.1f} ms user), {now[2]:.2f} MiB{grown}")
    before = now
before = None
for count in (500, 1000, 2000, 4000):
    now = timed(play, f"changed{count}", 10)
    grown = "" if before is None else f", {now[0] / before[0]:.2f} times in time and {now[2] / before[2]:.2f} in memory"
    print(f"ten scans of {count} tracks, 2 % changed in each: {now[0] * 1000:.1f} ms, {now[2]:.2f} MiB{grown}")
    before = now
for many, one in (("scans40", "scans1"), ("loads20", "loads1"), ("asks20", "loads1")):
    a, b = timed(play, many, 3), timed(play, one, 3)
    print(f"{many} against {one}: {a[2]:.2f} MiB and {b[2]:.2f} MiB, {a[2] / b[2]:.2f} times; {a[0] * 1000:.0f} ms and {b[0] * 1000:.0f} ms")
user = {scans: timed(play, f"followed{scans}", 10) for scans in (0, 10, 90, 100)}
first, last = user[10][1] - user[0][1], user[100][1] - user[90][1]
print(f"100 scans followed by notes: {user[100][0] * 1000:.0f} ms, {user[100][2]:.2f} MiB; the first ten {first * 1000:.0f} ms user, the last ten {last * 1000:.0f} ms, {last / first:.2f} times")
for where in ("folders", "flat"):
    for part in ("scan", "load"):
        small = timed(play, f"{part}-{where}4000", 3)
        for count in (4000, 16000, 64000):
            now = timed(play, f"{part}-{where}{count}", 3)
            each, room = now[1] / small[1] * 4000 / count, now[2] / small[2] * 4000 / count
            print(f"{part}, {count} objects, {where}: {now[1] * 1000:.0f} ms user, {now[2]:.1f} MiB, each {each:.2f} times the time and {room:.2f} the memory at 4,000")
one, ten = timed(play, "scan-folders64000", 3), timed(play, "ten64000", 3)
print(f"ten scans of 64,000 objects, 2 % changed in each: {ten[1] * 1000:.0f} ms user; each after the first {(ten[1] - one[1]) / 9 / one[1]:.2f} times the first")
flat, none, some = (timed(play, name, 3) for name in ("scan-flat64000", "none64000", "one64000"))
kept, gone = timed(play, "kept131070", 5), timed(play, "released131070", 5)
print(f"a release of 131,070 changes: {(gone[1] - kept[1]) * 1000:.0f} ms user, {(gone[1] - kept[1]) / 131.070 * 1000:.2f} us a change; peak {gone[2]:.1f} MiB against {kept[2]:.1f} MiB without it, {(gone[2] - kept[2]) * 1048576 / 131070:.0f} bytes a change")
print(f"a scan of 64,000 tracks that changes one: {(some[1] - flat[1]) * 1000:.0f} ms user, {(some[1] - flat[1]) / (none[1] - flat[1]):.2f} times one that changes none")
first = None
for count in (1200, 4000, 10000):
    with open(f"{work}/generated{count}", "rb") as file:
        lines = sum(1 for _ in file)
    now = timed([program, "summary"], f"generated{count}", 3)
    each, room = now[1] / lines * 1_000_000, now[2] * 1_048_576 / lines
    first = first or (each, room)
    print(f"40 scans of {count} generated tracks: {lines} lines, {now[1] * 1000:.0f} ms user, {now[2]:.1f} MiB; a line {each:.2f} us and {room:.0f} bytes, {each / first[0]:.2f} and {room / first[1]:.2f} times those at 1,200")
PY
