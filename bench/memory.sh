#!/usr/bin/env bash
# Want of memory in turn, by hand and not by the gate: a server grants a subscription, takes five scans and sends what is due,
# and a book of 64 subscriptions gives its next notes. Each allocation fails in its turn, once; a call that answers want of memory
# is made again, and then all that is printed must be what it is where none fails. So no call that fails leaves a trace.
# An allocation outside these calls ends the program with status 1.
# The program is proved and built in a folder of its own, with all crates below it. That takes a minute or two where earlier
# checks on this machine left their work, and else as long as a first check of these crates.
# Needs bash, python3, gcc and rt.
set -eu
top=$(cd "$(dirname "$0")/.." && pwd)
work=$(mktemp -d)
trap 'rm -rf "$work"' EXIT

# A program over the crates, in a repository of its own.
. "$top/bench/gather.sh"
mkdir -p "$work/crates/memory_in_turn/src"
gather "$top" "$work" cds_server
cp "$top/HANDLES" "$work"
printf '%s\n' 'memory_in_turn: cds_server cds_gena cds_http cds_store cds_object cds_base url anyhow' >>"$work/crates.txt"
cat >"$work/crates/memory_in_turn/src/main.rt" <<'RT'
//! A server and a book of subscriptions whose calls are made again where they answer want of memory.
#![tactic(auto)]

use cds_base::{Mem, Text};
use cds_gena::{Address, Addresses, Book, GenaError, is_deliverable};
use cds_http::{Message, MessageReader, Side};
use cds_object::{Content, Path, Record, Records, TrackContent};
use cds_server::{FirstNote, Notes, Server};
use cds_store::ApplyError;
use std::alloc::Global;
use std::io::{Write, writer};
use url::Url;

const SUBSCRIBE: &str =
    "SUBSCRIBE /event HTTP/1.1\r\nHOST: h\r\nCALLBACK: <http://10.0.0.9:80/n?x>\r\nNT: upnp:event\r\nTIMEOUT: Second-60\r\n\r\n";

/// The message of a request.
fn message(alloc: Global, bytes: &[u8]) -> Result<Message, anyhow::Error> {
    let mut reader = MessageReader::new(alloc, Side::Request)?;
    reader.feed(alloc, bytes)?;
    Ok(reader.finish()?)
}

/// A track at the root.
fn track(alloc: Global, name: &str) -> Result<Record, anyhow::Error> {
    let content = TrackContent {
        title: Text::read(alloc, name)?,
        artist: None,
        album: None,
        genre: None,
        number: None,
        size: 1000,
        duration: Some(10000),
        rate: 44100,
        channels: 2,
        bits: 16,
    };
    Ok(Record {
        path: Path::read(alloc, name)?,
        content: Content::Track(content),
    })
}

/// The tracks that words name.
fn records(alloc: Global, words: &str) -> Result<Records, anyhow::Error> {
    let mut records = Records::new(alloc);
    for word in words.split_whitespace() {
        records.push(track(alloc, word)?)?;
    }
    Ok(records)
}

/// The answer to a request, asked again where there was no memory.
fn handled(
    alloc: Global,
    server: &mut Server,
    now: u64,
    message: &Message,
    out: &mut Vec<u8>,
) -> Result<Option<FirstNote>, Mem> {
    match server.handle(alloc, now, message, out) {
        Ok(note) => Ok(note),
        Err(_) => server.handle(alloc, now, message, out),
    }
}

/// What a tick gives, asked again where there was no memory.
fn ticked(alloc: Global, server: &mut Server, now: u64) -> Result<Option<Notes>, Mem> {
    match server.tick(alloc, now) {
        Ok(notes) => Ok(notes),
        Err(_) => server.tick(alloc, now),
    }
}

/// A scan of these tracks, taken again where there was no memory.
fn scanned(alloc: Global, server: &mut Server, records: &Records) -> Result<u32, ApplyError> {
    if records.len() < 10_000 {
        match server.accept_records(alloc, 0, records) {
            Ok(span) => Ok(span.to),
            Err(_) => Ok(server.accept_records(alloc, 0, records)?.to),
        }
    } else {
        Ok(0)
    }
}

/// Writes bytes.
fn tell(rt: &HostRuntime, bytes: &[u8]) -> Result<(), anyhow::Error> {
    writer(rt).write_all(bytes)?;
    Ok(())
}

/// Writes where a note goes, and its SEQ.
fn tell_to(rt: &HostRuntime, to: &Address) -> Result<(), anyhow::Error> {
    println!(rt; "to {} at {} with {}", to.sid.0, to.callback.as_str(), to.seq)?;
    Ok(())
}

/// Writes the notes of a release.
fn tell_release(rt: &HostRuntime, notes: &Notes) -> Result<(), anyhow::Error> {
    println!(rt; "changes {} to {}", notes.span.from, notes.span.to)?;
    for to in notes.to.as_slice() {
        tell_to(rt, to)?;
    }
    tell(rt, notes.body.as_slice())
}

/// Writes what a tick gave.
fn tell_notes(rt: &HostRuntime, notes: &Option<Notes>) -> Result<(), anyhow::Error> {
    match notes {
        None => tell(rt, b"nothing is due\n"),
        Some(notes) => tell_release(rt, notes),
    }
}

/// What scans find, and the moment in milliseconds of the tick behind each.
const SCANS: [(&str, u64); 5] = [
    ("a.flac", 1_000),
    ("a.flac b.flac", 1_100),
    ("a.flac b.flac c.flac", 1_199),
    ("a.flac b.flac c.flac", 1_200),
    ("a.flac b.flac c.flac", 1_400),
];

/// Writes the first note of a subscription.
fn tell_first(rt: &HostRuntime, first: &Option<FirstNote>) -> Result<(), anyhow::Error> {
    match first {
        None => tell(rt, b"no first note\n"),
        Some(note) => {
            println!(rt; "first note to {} with {}", note.to.sid.0, note.to.seq)?;
            tell(rt, note.body.as_slice())
        }
    }
}

/// A subscription, and what is written of it.
fn subscribe(rt: &HostRuntime, server: &mut Server) -> Result<(), anyhow::Error> {
    let alloc = rt.alloc();
    let request = message(alloc, SUBSCRIBE.as_bytes())?;
    let mut out = Vec::new(alloc);
    let first = handled(alloc, server, 0, &request, &mut out)?;
    tell(rt, out.as_slice())?;
    tell_first(rt, &first)
}

/// A scan and a tick, and what is written of them.
fn scan_and_tick(
    rt: &HostRuntime,
    server: &mut Server,
    words: &str,
    now: u64,
) -> Result<(), anyhow::Error> {
    let alloc = rt.alloc();
    let found = records(alloc, words)?;
    let number = scanned(alloc, server, &found)?;
    println!(rt; "number {number}")?;
    let notes = ticked(alloc, server, now)?;
    tell_notes(rt, &notes)
}

/// A subscription, and releases of which none cuts a scan in two or comes sooner than 200 ms after the last.
fn serve(rt: &HostRuntime) -> Result<(), anyhow::Error> {
    let mut server = Server::new(rt.alloc(), [0, 0], 0)?;
    subscribe(rt, &mut server)?;
    for (words, now) in SCANS {
        scan_and_tick(rt, &mut server, words, now)?;
    }
    let number = server.system_update_id();
    println!(rt; "number {number}")?;
    Ok(())
}

/// The next notes of a book, asked again where there was no memory.
fn next_notes(alloc: Global, book: &mut Book, now: u64, out: &mut Addresses) -> Result<(), Mem> {
    match book.next_notes(alloc, now, out) {
        Ok(()) => Ok(()),
        Err(_) => book.next_notes(alloc, now, out),
    }
}

/// Adds a subscription.
fn join(alloc: Global, book: &mut Book, now: u64, callback: &Url) -> Result<(), GenaError> {
    if is_deliverable(callback) {
        let _sid = book.subscribe(alloc, now, callback, 1_800)?;
    }
    Ok(())
}

/// A book with 64 subscriptions, of which half run out a millisecond before the others.
fn full_book(alloc: Global) -> Result<Book, anyhow::Error> {
    let callback = Url::parse(alloc, "http://192.168.0.9:49152/notes")?;
    let mut book = Book::new(alloc, [0, 0]);
    for at in 0..64u64 {
        join(alloc, &mut book, at % 2, &callback)?;
    }
    Ok(book)
}

/// Writes the next notes of a book.
fn give(rt: &HostRuntime, book: &mut Book, now: u64) -> Result<(), anyhow::Error> {
    let alloc = rt.alloc();
    let mut out = Addresses::new(alloc);
    next_notes(alloc, book, now, &mut out)?;
    for to in out.as_slice() {
        tell_to(rt, to)?;
    }
    Ok(())
}

/// The next notes at two moments; half of the subscriptions have run out at the second.
fn notify(rt: &HostRuntime) -> Result<(), anyhow::Error> {
    let mut book = full_book(rt.alloc())?;
    give(rt, &mut book, 2)?;
    give(rt, &mut book, 1_800_000)
}

fn main(rt: HostRuntime) -> Result<(), anyhow::Error> {
    serve(&rt)?;
    notify(&rt)
}
RT
(cd "$work/crates/memory_in_turn" && rt run >"$work/wanted" 2>"$work/log") || { cat "$work/log" >&2; exit 1; }

# An allocator whose call of a number, counted from 1, fails. It writes how many there were.
cat >"$work/turn.c" <<'C'
#include <errno.h>
#include <stdio.h>
#include <stdlib.h>

void *__libc_malloc(size_t);
void *__libc_calloc(size_t, size_t);
void *__libc_realloc(void *, size_t);
void *__libc_memalign(size_t, size_t);
static long at = -2, count;

static int fails(void) {
    if (at == -2) {
        const char *text = getenv("FAILS_AT");
        at = text ? atol(text) : 0;
    }
    count++;
    if (count == at) errno = ENOMEM;
    return count == at;
}

void *malloc(size_t size) { return fails() ? 0 : __libc_malloc(size); }
void *calloc(size_t count, size_t size) { return fails() ? 0 : __libc_calloc(count, size); }
void *realloc(void *from, size_t size) { return fails() ? 0 : __libc_realloc(from, size); }
void *aligned_alloc(size_t align, size_t size) { return fails() ? 0 : __libc_memalign(align, size); }

int posix_memalign(void **to, size_t align, size_t size) {
    if (fails()) return ENOMEM;
    *to = __libc_memalign(align, size);
    return *to ? 0 : ENOMEM;
}

__attribute__((destructor)) static void told(void) {
    if (getenv("FAILS_AT")) fprintf(stderr, "%ld allocations\n", count);
}
C
gcc -O1 -fno-builtin -shared -fPIC -o "$work/turn.so" "$work/turn.c"

python3 -B - "$work" "$work/crates/memory_in_turn/out/memory_in_turn" <<'PY'
import os, re, subprocess, sys
work, program = sys.argv[1:]
wanted = open(f"{work}/wanted", "rb").read()

def run(at):
    had = subprocess.run([program], capture_output=True, env={"LD_PRELOAD": f"{work}/turn.so", "FAILS_AT": str(at)}, timeout=60)
    found = re.search(rb"(\d+) allocations\n$", had.stderr)
    return had.returncode, had.stdout, int(found[1]) if found else None

status, out, count = run(0)
assert status == 0 and out == wanted and count, (status, count)
same = ended = 0
for at in range(1, count + 1):
    status, out, _ = run(at)
    if status == 0 and out == wanted:
        same += 1
    elif status == 1 and wanted.startswith(out):
        ended += 1
    else:
        print(f"the allocation {at} of {count}: status {status}")
        print(out.decode(errors="replace"))
        sys.exit(1)
print(f"{count} allocations failed in turn: with {same} the program went on, with the same answers; {ended} outside the calls ended it")
PY
