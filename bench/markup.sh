#!/usr/bin/env bash
# Ratios measured in one run, by hand and not by the gate:
# - user time of `cds check` on a StateEvent of 200,000 events against `xmllint --stream --noout` on the same file (goal: at
#   most 1.1 times), and on 25,000, 50,000, 100,000 and 200,000 events (goal per doubling: at most 2.2 times);
# - user time of `cds check` on as many bytes of plain text in a comment, in an attribute's value, and as white space between
#   tags, against that of xmllint on the events, which cannot take such texts in one node (goal: at most a quarter);
# - peak memory of `cds check` on such texts of 13 MB and of 52 MB (goal: at most 3 MiB, whatever the length);
# - a StateEvent read one byte at a time against whole (goal: at most 20 times as long), by a program of its own.
# Needs bash, python3, rt, GNU time (/usr/bin/time), which tells the program's own peak memory, and xmllint.
set -eu
top=$(cd "$(dirname "$0")/.." && pwd)
program=${PROGRAM:-$top/crates/cds_cli/out/cds_cli}
work=$(mktemp -d)
trap 'rm -rf "$work"' EXIT

PYTHONPATH=$top/bench python3 -B - "$work" "$program" <<'PY'
import os, sys
from measure import memory, once
work, program = sys.argv[1:]
START, END = '<StateEvent xmlns="urn:schemas-upnp-org:av:cds-event">', "</StateEvent>"

# Events of all four kinds, in turn.
def event(n):
    id, update = n % 60000 + 1, n + 1
    return (
        f'<objAdd objID="{id}" updateID="{update}" stUpdate="0" objParentID="{id // 10}" objClass="object.item.audioItem.musicTrack"/>',
        f'<objMod objID="{id}" updateID="{update}" stUpdate="1"/>',
        f'<objDel objID="{id}" updateID="{update}" stUpdate="0"/>',
        f'<stDone objID="{id}" updateID="{update}"/>',
    )[n % 4]

def write(name, text):
    with open(f"{work}/{name}", "w") as file:
        file.write(text)
    return f"{work}/{name}"

# White space, a comment and a value of so many bytes.
TEXTS = {
    "white space": lambda size: START + "  \n " * (size // 4) + END,
    "a comment": lambda size: START + "<!-- " + "plain text " * (size // 11) + "-->" + END,
    "a value": lambda size: START[:-1] + ' x="' + "plain text " * (size // 11) + '">' + END,
}

sizes = (25_000, 50_000, 100_000, 200_000)
paths = {f"{count} events": write(f"events{count}", START + "".join(map(event, range(count))) + END) for count in sizes}
paths |= {name: write(name, text(13_000_000)) for name, text in TEXTS.items()}
most = f"{sizes[-1]} events"

# In turn, so that a machine whose pace changes is the same for all of them.
stream = ["xmllint", "--stream", "--noout", "-"]
runs = [([program, "check"], name) for name in paths] + [(stream, most)]
users = {(command[0], name): [] for command, name in runs}
for _ in range(int(os.environ.get("RUNS", "40"))):
    for command, name in runs:
        users[command[0], name].append(once(command, paths[name])[1])
users = {key: sum(taken) / len(taken) for key, taken in users.items()}

before = None
for count in sizes:
    name = f"{count} events"
    user, size = users[program, name], os.path.getsize(paths[name])
    peak = min(memory([program, "check"], paths[name]) for _ in range(3))
    grown = "" if before is None else f", {user / before:.2f} times in user time"
    print(f"check of {name}, {size / 1e6:.1f} MB: {user * 1000:.0f} ms user, {peak / 1e6:.1f} MB at most{grown}")
    before = user
theirs = users["xmllint", most]
print(f"xmllint --stream --noout on {most}: {theirs * 1000:.0f} ms user")
for name in (most, *TEXTS):
    ours, size = users[program, name], os.path.getsize(paths[name])
    print(f"check of {name}, {size / 1e6:.1f} MB: {ours * 1000:.0f} ms user, {ours / theirs:.2f} times xmllint's")
for name, text in TEXTS.items():
    path = write(f"long {name}", text(52_000_000))
    peaks = [min(memory([program, "check"], it) for _ in range(3)) / 2**20 for it in (paths[name], path)]
    print(f"check of {name} of 13 MB and of 52 MB: {peaks[0]:.1f} and {peaks[1]:.1f} MiB at most")
PY

# A program over the crates, in a repository of its own.
mkdir -p "$work/crates/markup_bench/src"
below="cds_base cds_object cds_markup cds_lastchange"
# shellcheck disable=SC2086
tar -C "$top/crates" --exclude=out --exclude=must-fail -cf - $below | tar -C "$work/crates" -xf -
cp "$top/HANDLES" "$work"
for name in $below; do grep "^$name:" "$top/crates.txt"; done >"$work/crates.txt"
echo 'markup_bench: cds_lastchange cds_markup cds_object cds_base anyhow' >>"$work/crates.txt"
cat >"$work/crates/markup_bench/src/main.rt" <<'RT'
//! Times of reading documents in pieces.
#![tactic(auto)]

use cds_lastchange::{StateError, StateReader};
use std::alloc::{AllocError, Global};
use std::time::Instant;

/// Reads a StateEvent in pieces of so many bytes, and gives the number of its events.
fn read(alloc: Global, bytes: &[u8], step: usize) -> Result<usize, StateError> {
    let mut reader = StateReader::new(alloc)?;
    for piece in bytes.chunks(step.max(1)) {
        reader.feed(alloc, piece)?;
    }
    Ok(reader.finish(alloc)?.len())
}

/// A StateEvent of so many events.
fn events(alloc: Global, count: u32) -> Result<Vec<u8>, AllocError> {
    let mut bytes = Vec::new(alloc);
    bytes.extend_from_slice(b"<StateEvent xmlns=\"urn:schemas-upnp-org:av:cds-event\">")?;
    for number in 0..count {
        let id = number.to_string(alloc)?;
        bytes.extend_from_slice(b"<objAdd objID=\"")?;
        bytes.extend_from_slice(id.as_bytes())?;
        bytes.extend_from_slice(b"\" updateID=\"")?;
        bytes.extend_from_slice(id.as_bytes())?;
        bytes.extend_from_slice(b"\" stUpdate=\"0\" objParentID=\"7\" objClass=\"object.item.audioItem.musicTrack\"/>")?;
    }
    bytes.extend_from_slice(b"</StateEvent>")?;
    Ok(bytes)
}

/// The number of events in pieces of so many bytes, and the nanoseconds that it took.
fn main(rt: HostRuntime) -> Result<(), anyhow::Error> {
    let alloc = rt.alloc();
    let bytes = events(alloc, 100_000)?;
    for step in [1_073_741_824, 8_192, 1] {
        let start = Instant::now(&rt)?;
        let count = read(alloc, bytes.as_slice(), step)?;
        let taken = start.elapsed(&rt)?.as_nanos();
        println!(rt; "{step} {count} {taken}")?;
    }
    Ok(())
}
RT
(cd "$work/crates/markup_bench" && rt run >"$work/ours" 2>"$work/log") || { cat "$work/log" >&2; exit 1; }
python3 - "$work/ours" <<'PY'
import sys
rows = [tuple(map(int, line.split())) for line in open(sys.argv[1])]
whole = rows[0][2]
for step, count, taken in rows:
    print(f"{count} events in pieces of {step} bytes: {taken / 1e6:.0f} ms, {taken / whole:.2f} times as long as whole")
PY
