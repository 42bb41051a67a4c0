#!/usr/bin/env bash
# Ratios measured in one run, by hand and not by the gate:
# - a page of 256 rows written as DIDL-Lite, in MB per second, against a C program of a few lines that writes the same
#   bytes from the same texts, which it escapes (goal: at least half of its pace);
# - the page read back, in MB per second;
# - user time of reading one document of 25,600 such rows against `xmllint --noout` on the same file (goal: at most 2
#   times).
# The program is proved and built in a folder of its own, which takes some minutes.
# Needs bash, python3, rt, cc, GNU time (/usr/bin/time) and xmllint.
set -eu
top=$(cd "$(dirname "$0")/.." && pwd)
work=$(mktemp -d)
trap 'rm -rf "$work"' EXIT

# A program over the crate, in a repository of its own. It reads a document on its standard input; with a number as its
# word it reads and writes the document's rows as often and prints the nanoseconds, and else it writes it once.
mkdir -p "$work/crates/didl_pace/src"
libraries='cds_base cds_object cds_catalog cds_markup cds_didl'
for name in $libraries; do
    tar -C "$top/crates" --exclude=out --exclude=must-fail -cf - "$name" | tar -C "$work/crates" -xf -
    grep "^$name:" "$top/crates.txt" >>"$work/crates.txt"
done
cp "$top/HANDLES" "$work"
printf '%s\n' 'didl_pace: cds_didl cds_object cds_base anyhow' >>"$work/crates.txt"
cat >"$work/crates/didl_pace/src/main.rt" <<'RT'
//! Times of reading and writing DIDL-Lite.
#![tactic(auto)]

use cds_didl::{DidlError, Filter, read_didl, write_didl};
use cds_object::Row;
use std::alloc::Global;
use std::env;
use std::io::{Read, Write, writer};
use std::time::Instant;

/// The lengths in all of so many writings of the rows.
fn write_all(alloc: Global, rows: &[Row], times: u32) -> Result<u64, DidlError> {
    let mut all: u64 = 0;
    for _ in 0..times {
        let mut out = Vec::new(alloc);
        write_didl(rows, &Filter::all(), "", &mut out)?;
        all = all.wrapping_add(out.len() as u64);
    }
    Ok(all)
}

/// The rows in all of so many readings of the bytes.
fn read_all(alloc: Global, bytes: &[u8], times: u32) -> Result<u64, DidlError> {
    let mut all: u64 = 0;
    for _ in 0..times {
        let rows = read_didl(alloc, bytes)?;
        all = all.wrapping_add(rows.len() as u64);
    }
    Ok(all)
}

/// How often the words of the command say.
fn times_said(rt: &HostRuntime) -> u32 {
    match env::args(rt) {
        Ok(args) => match args.skip(1).next() {
            Some(word) => word.as_str().parse::<u32>().unwrap_or(0),
            None => 0,
        },
        Err(_) => 0,
    }
}

fn main(rt: HostRuntime) -> Result<(), anyhow::Error> {
    let alloc = rt.alloc();
    let mut bytes = Vec::new(alloc);
    rt.reader().read_to_end(&mut bytes)?;
    let times = times_said(&rt);
    let rows = read_didl(alloc, bytes.as_slice())?;
    if times == 0 {
        println!(rt; "{}", rows.len())?;
        return Ok(());
    }
    let mut out = Vec::new(alloc);
    write_didl(rows.as_slice(), &Filter::all(), "", &mut out)?;
    let same = out.as_slice() == bytes.as_slice();
    let start = Instant::now(&rt)?;
    let written = write_all(alloc, rows.as_slice(), times)?;
    let to_write = start.elapsed(&rt)?.as_nanos();
    let start = Instant::now(&rt)?;
    let read = read_all(alloc, bytes.as_slice(), times)?;
    let to_read = start.elapsed(&rt)?.as_nanos();
    println!(rt; "{same} {written} {to_write} {read} {to_read}")?;
    Ok(())
}
RT
cat >"$work/page.c" <<'C'
#include <stdio.h>
#include <stdlib.h>
#include <string.h>
#include <time.h>
static char *put(char *o, const char *t) { size_t n = strlen(t); memcpy(o, t, n); return o + n; }
static char *escaped(char *o, const char *t) {
    for (; *t; t++) switch (*t) {
        case '&': o = put(o, "&amp;"); break;
        case '<': o = put(o, "&lt;"); break;
        case '>': o = put(o, "&gt;"); break;
        case '"': o = put(o, "&quot;"); break;
        case '\'': o = put(o, "&apos;"); break;
        default: *o++ = *t;
    }
    return o;
}
static char texts[256][4][64];
static char *row(char *o, int i) {
    o += sprintf(o, "<item id=\"%d\" parentID=\"0\" restricted=\"1\"><dc:title>", i + 1);
    o = escaped(o, texts[i][0]);
    o = put(o, "</dc:title><upnp:class>object.item.audioItem.musicTrack</upnp:class><upnp:artist>");
    o = escaped(o, texts[i][1]);
    o = put(o, "</upnp:artist><upnp:album>");
    o = escaped(o, texts[i][2]);
    o = put(o, "</upnp:album><upnp:genre>");
    o = escaped(o, texts[i][3]);
    o += sprintf(o, "</upnp:genre><upnp:originalTrackNumber>%d</upnp:originalTrackNumber><upnp:objectUpdateID>%d</upnp:objectUpdateID><res protocolInfo=\"http-get:*:audio/flac:*\" size=\"%d\" duration=\"0:0%d:%02d.%03d\" sampleFrequency=\"44100\" bitsPerSample=\"16\" nrAudioChannels=\"2\">/media/%d</res></item>", i % 20 + 1, i + 7, 20000000 + i * 1237, i % 9, i % 60, i % 1000, i + 1);
    return o;
}
static char out[1 << 20];
int main(int argc, char **argv) {
    for (int i = 0; i < 256; i++) for (int k = 0; k < 4; k++) if (scanf(" %63[^\n]", texts[i][k]) != 1) return 1;
    int times = argc > 1 ? atoi(argv[1]) : 1;
    struct timespec a, b;
    size_t all = 0;
    clock_gettime(CLOCK_MONOTONIC, &a);
    for (int n = 0; n < times; n++) {
        char *o = put(out, "<DIDL-Lite xmlns=\"urn:schemas-upnp-org:metadata-1-0/DIDL-Lite/\" xmlns:dc=\"http://purl.org/dc/elements/1.1/\" xmlns:upnp=\"urn:schemas-upnp-org:metadata-1-0/upnp/\">");
        for (int i = 0; i < 256; i++) o = row(o, i);
        o = put(o, "</DIDL-Lite>");
        all += o - out;
    }
    clock_gettime(CLOCK_MONOTONIC, &b);
    if (times == 1) fwrite(out, 1, all, stdout);
    else printf("%zu %lld\n", all, (b.tv_sec - a.tv_sec) * 1000000000LL + b.tv_nsec - a.tv_nsec);
    return 0;
}
C
cc -O2 -o "$work/page" "$work/page.c"
python3 - >"$work/texts" <<'PY'
for i in range(256):
    print(f"Rock & Roll, part {i} of \"many\"\nThe Artists' Band\nGreatest hits <{i // 20}>\nClassic Rock")
PY
"$work/page" <"$work/texts" >"$work/document"
(cd "$work/crates/didl_pace" && rt run -- 0 <"$work/document" >"$work/rows" 2>"$work/log") || { cat "$work/log" >&2; exit 1; }

PYTHONPATH=$top/bench python3 -B - "$work" "$work/crates/didl_pace/out/didl_pace" <<'PY'
import os, subprocess, sys
from measure import once
work, program = sys.argv[1:]
page = open(f"{work}/document", "rb").read()
start, end = page.index(b"<item"), page.index(b"</DIDL-Lite>")
with open(f"{work}/large", "wb") as file:
    file.write(page[:start] + page[start:end] * 100 + page[end:])

def run(command, path):
    with open(path, "rb") as source:
        return subprocess.run(command, stdin=source, stdout=subprocess.PIPE, check=True).stdout.split()

# In turn, so that a machine whose pace changes is the same for both; the least of the runs.
times = 200
ours, theirs = [], []
for _ in range(10):
    same, written, to_write, read, to_read = run([program, str(times)], f"{work}/document")
    assert same == b"true" and int(read) == times * 256 and int(written) == times * len(page)
    ours.append((int(to_write), int(to_read)))
    theirs.append(int(run([f"{work}/page", str(times)], f"{work}/texts")[1]))
write, read, c = min(t[0] for t in ours), min(t[1] for t in ours), min(theirs)
rate = lambda taken: times * len(page) * 1000 / taken
print(f"a page of 256 rows, {len(page)} bytes: written at {rate(write):.0f} MB/s, by the C program at {rate(c):.0f}: {c / write:.2f} of its pace (goal: at least 0.5); read at {rate(read):.0f} MB/s")
large = f"{work}/large"
pairs = [(once([program], large)[1], once(["xmllint", "--noout", "-"], large)[1]) for _ in range(10)]
one, other = (sum(p[k] for p in pairs) / len(pairs) for k in (0, 1))
print(f"a document of 25,600 rows, {os.path.getsize(large) / 1e6:.1f} MB: read in {one * 1000:.0f} ms user, xmllint --noout takes {other * 1000:.0f}: {one / other:.2f} times its user time (goal: at most 2)")
PY
