#!/usr/bin/env bash
# Ratios measured in one run, by hand and not by the gate:
# - the body of a note with 200,000 events written, and the note read back from its message, in MB of body per second,
#   against user time of `xmllint --noout` on the text of its LastChange alone (goal: writing at most its time, reading at
#   most 2.5 times);
# - the next notes of a book with 64 subscriptions, in microseconds.
# The program is proved and built in a folder of its own, with all crates below it. That takes a minute or two where earlier
# checks on this machine left their work, and else as long as a first check of these crates.
# Needs bash, python3, rt and xmllint.
set -eu
top=$(cd "$(dirname "$0")/.." && pwd)
work=$(mktemp -d)
trap 'rm -rf "$work"' EXIT

# A program over the crates, in a repository of its own.
. "$top/bench/gather.sh"
mkdir -p "$work/crates/gena_pace/src"
gather "$top" "$work" cds_notify
cp "$top/HANDLES" "$work"
printf '%s\n' 'gena_pace: cds_notify cds_gena cds_http cds_object cds_base url anyhow' >>"$work/crates.txt"
cat >"$work/crates/gena_pace/src/main.rt" <<'RT'
//! Times of notes and of the book of subscriptions.
#![tactic(auto)]

use cds_base::{Mem, Text};
use cds_gena::{Address, Addresses, Book, GenaError, Sid, is_deliverable};
use cds_http::{HttpError, Message, MessageReader, Side};
use cds_notify::{NoteError, read_notify, write_notify, write_propertyset};
use cds_object::{Class, Event, Events};
use std::alloc::Global;
use std::env;
use std::io::{Write, writer};
use std::time::Instant;
use url::Url;

/// The event at a place, counted from 0: all four kinds in turn.
fn event(at: u32) -> Event {
    let id = at % 60_000 + 1;
    let update = at.saturating_add(1);
    match at % 4 {
        0 => Event::ObjAdd {
            id,
            update,
            st: false,
            parent: id / 10,
            class: Class::Track,
        },
        1 => Event::ObjMod {
            id,
            update,
            st: true,
        },
        2 => Event::ObjDel {
            id,
            update,
            st: false,
        },
        _ => Event::StDone { id, update },
    }
}

/// So many events.
fn events(alloc: Global, count: u32) -> Result<Events, Mem> {
    let mut events = Events::new(alloc);
    for at in 0..count {
        events.push(event(at))?;
    }
    Ok(events)
}

/// The body of a note with these events.
fn body(alloc: Global, events: &Events) -> Result<Vec<u8>, Mem> {
    let mut out = Vec::new(alloc);
    write_propertyset(alloc, 200_000, &[(0, 200_000)], events.as_slice(), &mut out)?;
    Ok(out)
}

/// The lengths in all of so many writings of the body.
fn bodies(alloc: Global, events: &Events, times: u32) -> Result<u64, Mem> {
    let mut all: u64 = 0;
    for _ in 0..times {
        let out = body(alloc, events)?;
        all = all.wrapping_add(out.len() as u64);
    }
    Ok(all)
}

/// The bytes of a note with a body.
fn note(alloc: Global, body: &[u8]) -> Result<Vec<u8>, Mem> {
    let mut out = Vec::new(alloc);
    let to = Address {
        sid: Sid(1),
        callback: Text::read(alloc, "http://192.168.0.9:49152/notes")?,
        seq: 1,
    };
    if to.is_delivered(alloc)? {
        write_notify(alloc, &to, body, &mut out)?;
    }
    Ok(out)
}

/// The message that a note is.
fn message(alloc: Global, note: &[u8]) -> Result<Message, HttpError> {
    let mut reader = MessageReader::new(alloc, Side::Request)?;
    reader.feed(alloc, note)?;
    reader.finish()
}

/// The events in all of so many readings of a note.
fn notes(alloc: Global, message: &Message, times: u32) -> Result<u64, NoteError> {
    let mut all: u64 = 0;
    for _ in 0..times {
        let note = read_notify(alloc, message)?;
        all = all.wrapping_add(note.events.len() as u64);
    }
    Ok(all)
}

/// Adds a subscription.
fn subscribe(alloc: Global, book: &mut Book, callback: &Url) -> Result<(), GenaError> {
    if is_deliverable(callback) {
        let _sid = book.subscribe(alloc, 0, callback, 1_800)?;
    }
    Ok(())
}

/// A book with 64 subscriptions.
fn full_book(alloc: Global, callback: &Url) -> Result<Book, GenaError> {
    let mut book = Book::new(alloc, [0, 0]);
    for _ in 0..64 {
        subscribe(alloc, &mut book, callback)?;
    }
    Ok(book)
}

/// The addresses in all of the next notes, so many times.
fn addresses(alloc: Global, book: &mut Book, times: u32) -> Result<u64, Mem> {
    let mut all: u64 = 0;
    for _ in 0..times {
        let mut out = Addresses::new(alloc);
        book.next_notes(alloc, 1, &mut out)?;
        all = all.wrapping_add(out.len() as u64);
    }
    Ok(all)
}

/// The number that a word of the command is.
fn word(rt: &HostRuntime, at: usize) -> u32 {
    match env::args(rt) {
        Ok(args) => match args.skip(at).next() {
            Some(word) => word.as_str().parse::<u32>().unwrap_or(0),
            None => 0,
        },
        Err(_) => 0,
    }
}

/// What is printed of a measured run: what was counted, and the nanoseconds it took.
fn told(rt: &HostRuntime, start: Instant, counted: u64) -> Result<(), anyhow::Error> {
    let taken = start.elapsed(rt)?.as_nanos();
    println!(rt; "{counted} {taken}")?;
    Ok(())
}

/// Prints the lengths of so many writings of a body, and the events of as many readings of the note with it.
fn wire(rt: &HostRuntime, events: &Events, times: u32) -> Result<(), anyhow::Error> {
    let alloc = rt.alloc();
    let start = Instant::now(rt)?;
    let all = bodies(alloc, events, times)?;
    told(rt, start, all)?;
    let body = body(alloc, events)?;
    let note = note(alloc, body.as_slice())?;
    let message = message(alloc, note.as_slice())?;
    let start = Instant::now(rt)?;
    let all = notes(alloc, &message, times)?;
    told(rt, start, all)
}

/// Prints the addresses of the next notes of 64 subscriptions, so many times.
fn book(rt: &HostRuntime, times: u32) -> Result<(), anyhow::Error> {
    let alloc = rt.alloc();
    let callback = Url::parse(alloc, "http://192.168.0.9:49152/notes")?;
    let mut book = full_book(alloc, &callback)?;
    let start = Instant::now(rt)?;
    let all = addresses(alloc, &mut book, times)?;
    told(rt, start, all)
}

/// With 0 as its second word it writes a body with as many events as its first says; with another number it prints what so
/// many writings and readings took, and then a thousand times as many next notes.
fn main(rt: HostRuntime) -> Result<(), anyhow::Error> {
    let times = word(&rt, 2);
    let events = events(rt.alloc(), word(&rt, 1))?;
    if times == 0 {
        let body = body(rt.alloc(), &events)?;
        writer(&rt).write_all(body.as_slice())?;
        return Ok(());
    }
    wire(&rt, &events, times)?;
    book(&rt, times.saturating_mul(1_000))
}
RT
(cd "$work/crates/gena_pace" && rt run -- 200000 0 >"$work/body" 2>"$work/log") || { cat "$work/log" >&2; exit 1; }

PYTHONPATH=$top/bench python3 -B - "$work" "$work/crates/gena_pace/out/gena_pace" <<'PY'
import os, subprocess, sys
import xml.etree.ElementTree as tree
from measure import once
work, program = sys.argv[1:]
size, count = os.path.getsize(f"{work}/body"), 200_000
changes = tree.parse(f"{work}/body").getroot().find(".//LastChange").text
assert changes.count("updateID=") == count
with open(f"{work}/changes", "w") as file:
    file.write(changes)

# In turn, so that a machine whose pace changes is the same for both; the least of the runs, and user time on average.
times = 5
ours, theirs = [], []
for _ in range(10):
    lines = subprocess.run([program, str(count), str(times)], stdout=subprocess.PIPE, check=True).stdout.splitlines()
    lines = [tuple(map(int, line.split())) for line in lines]
    assert [line[0] for line in lines] == [times * size, times * count, times * 1000 * 64]
    ours.append((lines[0][1] / times, lines[1][1] / times, lines[2][1] / times / 1000))
    theirs.append(once(["xmllint", "--noout", f"{work}/changes"], f"{work}/changes")[1])
write, read, notes = (min(taken) for taken in zip(*ours))
other = sum(theirs) / len(theirs) * 1e9
print(f"a body with {count} events, {size / 1e6:.1f} MB: written in {write / 1e6:.0f} ms, {size / write * 1000:.0f} MB/s, read in {read / 1e6:.0f} ms, {size / read * 1000:.0f} MB/s")
print(f"xmllint --noout on the {len(changes) / 1e6:.1f} MB of its LastChange: {other / 1e6:.0f} ms user; writing takes {write / other:.2f} times this (goal: at most 1), reading {read / other:.2f} times (goal: at most 2.5)")
print(f"the next notes of 64 subscriptions: {notes / 1000:.1f} us")
PY
