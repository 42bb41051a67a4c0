#!/usr/bin/env bash
# What Search and a sorted Browse take over a store, in process, by hand and not by the gate. bench/browse.sh calls it. The
# library has 64,000 tracks at the root, of 1,000 artists. Ratios measured in one run:
# - a search for a part of an artist's name against a C program that folds and compares the same texts (goal: at most
#   2 times its time);
# - the first page of 256 of all tracks in the order of artists against qsort of the same keys in C (goal: at most 3 times);
# - the first page of the children of the root without sort criteria, against the same of 6,400 tracks (goal: at most 1.3);
# - the memory that a search and a sorted page take beside the library (goal: at most 1 MiB).
# The program is proved and built in a folder of its own, with all crates below it. That takes a minute or two where earlier
# checks on this machine left their work, and else as long as a first check of these crates.
# Needs bash, python3, rt and cc.
set -eu
top=$(cd "$(dirname "$0")/.." && pwd)
work=$(mktemp -d)
trap 'rm -rf "$work"' EXIT

# A program over the crates, in a repository of its own. Its words are how many tracks there are, what is asked and how often.
# It prints the number of matches and the nanoseconds of all times.
. "$top/bench/gather.sh"
mkdir -p "$work/crates/search_pace/src"
gather "$top" "$work" cds_browse
cp "$top/HANDLES" "$work"
printf '%s\n' 'search_pace: cds_browse cds_store cds_soap cds_object cds_base anyhow' >>"$work/crates.txt"
cat >"$work/crates/search_pace/src/main.rt" <<'RT'
//! Times of Search and of a sorted Browse over a store.
#![tactic(auto)]

use cds_base::{Mem, Text};
use cds_browse::{BrowseError, Page, browse, search};
use cds_object::{Content, Path, PathError, Record, Records, TrackContent};
use cds_soap::{BrowseRequest, SearchRequest};
use cds_store::{Keeping, Store};
use std::alloc::Global;
use std::env;
use std::time::Instant;

/// A text that may be missing.
fn some(alloc: Global, text: &str) -> Result<Option<Text>, Mem> {
    Ok(Some(Text::read(alloc, text)?))
}

/// What a track says of itself.
fn content(alloc: Global, number: u32) -> Result<TrackContent, Mem> {
    let artist = number.wrapping_mul(7919) % 1000;
    let title = format!(in alloc; "Rock & Roll, part {number} of \"many\"")?;
    let artist = format!(in alloc; "The Artists' Band, Number {artist}")?;
    Ok(TrackContent {
        title: Text::read(alloc, title.as_str())?,
        artist: some(alloc, artist.as_str())?,
        album: some(alloc, "Greatest hits")?,
        genre: some(alloc, "Classic Rock")?,
        number: Some(number % 20 + 1),
        size: 20_000_000 + u64::from(number) * 1237,
        duration: Some(1000),
        rate: 44100,
        channels: 2,
        bits: 16,
    })
}

/// The name of a track. Names go up as the numbers do.
fn name(alloc: Global, number: u32) -> Result<String, Mem> {
    let long = u64::from(number) + 10_000_000;
    let text = format!(in alloc; "{long}.flac")?;
    Ok(text)
}

/// A track at the root.
fn track(alloc: Global, number: u32) -> Result<Record, PathError> {
    let path = name(alloc, number)?;
    Ok(Record {
        path: Path::read(alloc, path.as_str())?,
        content: Content::Track(content(alloc, number)?),
    })
}

/// What a scan of the library finds.
fn library(alloc: Global, tracks: u32) -> Result<Records, PathError> {
    let mut records = Records::new(alloc);
    for number in 0..tracks {
        records.push(track(alloc, number)?)?;
    }
    Ok(records)
}

/// A store that took one scan of the library.
fn scanned(alloc: Global, tracks: u32) -> Result<Store, anyhow::Error> {
    let records = library(alloc, tracks)?;
    let mut store = Store::new(alloc, 0)?;
    if records.len() < 1_000_000_000 {
        let _span = store.apply(alloc, &records)?;
    }
    Ok(store)
}

/// The first page of a search.
fn searched(alloc: Global, store: &Store, criteria: &str) -> Result<Page, BrowseError> {
    let asked = SearchRequest {
        container: Text::read(alloc, "0")?,
        criteria: Text::read(alloc, criteria)?,
        filter: Text::read(alloc, "*")?,
        start: 0,
        count: 256,
        sort: Text::read(alloc, "")?,
    };
    search(alloc, store, &asked)
}

/// The first page of the children of the root.
fn browsed(alloc: Global, store: &Store, sort: &str) -> Result<Page, BrowseError> {
    let asked = BrowseRequest {
        object: Text::read(alloc, "0")?,
        flag: Text::read(alloc, "BrowseDirectChildren")?,
        filter: Text::read(alloc, "*")?,
        start: 0,
        count: 256,
        sort: Text::read(alloc, sort)?,
    };
    browse(alloc, store, &asked)
}

/// The page that a number asks for.
fn asked(alloc: Global, store: &Store, what: u32) -> Result<Page, BrowseError> {
    match what {
        0 => searched(alloc, store, "upnp:artist contains \"NUMBER 77\""),
        1 => searched(alloc, store, "*"),
        2 => browsed(alloc, store, "+upnp:artist"),
        _ => browsed(alloc, store, ""),
    }
}

/// The number that a word of the command is.
fn word(rt: &HostRuntime, at: usize) -> u32 {
    match env::args(rt) {
        Ok(args) => match args.skip(at).next() {
            Some(word) => word.as_str().parse::<u32>().unwrap_or(0),
            None => 0,
        },
        Err(_) => 0,
    }
}

fn main(rt: HostRuntime) -> Result<(), anyhow::Error> {
    let alloc = rt.alloc();
    let store = scanned(alloc, word(&rt, 1))?;
    let what = word(&rt, 2);
    let start = Instant::now(&rt)?;
    let mut total = 0u32;
    for _ in 0..word(&rt, 3) {
        total = asked(alloc, &store, what)?.total;
    }
    let taken = start.elapsed(&rt)?.as_nanos();
    println!(rt; "{total} {taken}")?;
    Ok(())
}
RT

# The same texts in C. Its words are the number of tracks, what is asked and how often: 0 looks for a part of the artist, as a
# loop that puts both into lower case byte by byte, and 2 sorts pointers to all tracks by artist and then by id.
cat >"$work/search.c" <<'C'
#include <stdio.h>
#include <stdlib.h>
#include <string.h>
#include <time.h>

struct row {
    unsigned id;
    char *artist;
    size_t length;
};

static int lower(int byte) { return byte >= 'A' && byte <= 'Z' ? byte + 32 : byte; }

static int has(const char *part, size_t size, const char *text, size_t length) {
    for (size_t at = 0; at + size <= length; at++) {
        size_t same = 0;
        while (same < size && lower((unsigned char)text[at + same]) == part[same]) same++;
        if (same == size) return 1;
    }
    return 0;
}

static int order(const void *a, const void *b) {
    const struct row *x = *(struct row *const *)a, *y = *(struct row *const *)b;
    size_t both = x->length < y->length ? x->length : y->length;
    int first = memcmp(x->artist, y->artist, both);
    if (first) return first;
    if (x->length != y->length) return x->length < y->length ? -1 : 1;
    return x->id < y->id ? -1 : x->id > y->id;
}

int main(int count, char **words) {
    if (count != 4) return 1;
    unsigned tracks = atoi(words[1]), what = atoi(words[2]), times = atoi(words[3]), found = 0;
    struct row *rows = malloc(tracks * sizeof *rows), **places = malloc(tracks * sizeof *places);
    for (unsigned number = 0; number < tracks; number++) {
        char artist[64];
        rows[number].id = number + 1;
        rows[number].length = sprintf(artist, "The Artists' Band, Number %u", number * 7919u % 1000);
        rows[number].artist = strdup(artist);
    }
    struct timespec start, end;
    clock_gettime(CLOCK_MONOTONIC, &start);
    for (unsigned time = 0; time < times; time++) {
        found = 0;
        for (unsigned number = 0; number < tracks; number++) {
            if (what == 0) found += has("number 77", 9, rows[number].artist, rows[number].length);
            else places[found++] = rows + number;
        }
        if (what == 2) qsort(places, found, sizeof *places, order);
    }
    clock_gettime(CLOCK_MONOTONIC, &end);
    printf("%u %ld\n", found, (end.tv_sec - start.tv_sec) * 1000000000L + end.tv_nsec - start.tv_nsec);
}
C
cc -O2 -o "$work/search" "$work/search.c"
(cd "$work/crates/search_pace" && rt run -- 1 0 1 >"$work/first" 2>"$work/log") || { cat "$work/log" >&2; exit 1; }

python3 -B - "$work/crates/search_pace/out/search_pace" "$work/search" <<'PY'
import os, subprocess, sys
ours, theirs = sys.argv[1:]
tracks = 64000

def run(command):
    """The matches, the nanoseconds and the peak memory in bytes of a run."""
    read, write = os.pipe()
    pid = os.fork()
    if pid == 0:
        os.dup2(write, 1)
        os.execv(command[0], command)
    os.close(write)
    with os.fdopen(read) as out:
        found, taken = map(int, out.read().split())
    _, status, usage = os.wait4(pid, 0)
    assert status == 0, command
    return found, taken, usage.ru_maxrss * 1024

def once(program, rows, what, times):
    """Microseconds for each of so many times, and the matches."""
    found, taken, _ = run([program, str(rows), str(what), str(times)])
    return taken / times / 1000, found

asks = {
    "part": (ours, tracks, 0, 30),
    "part in C": (theirs, tracks, 0, 30),
    "all": (ours, tracks, 1, 30),
    "sorted": (ours, tracks, 2, 5),
    "qsort": (theirs, tracks, 2, 5),
    "page": (ours, tracks, 3, 3000),
    "page of few": (ours, tracks // 10, 3, 3000),
}
# In turn, so that a machine whose pace changes is the same for all; the least of the runs.
taken = {name: [] for name in asks}
found = {}
for _ in range(7):
    for name, ask in asks.items():
        time, found[name] = once(*ask)
        taken[name].append(time)
least = {name: min(each) for name, each in taken.items()}
assert found["part"] == found["part in C"] > 0 and found["sorted"] == found["qsort"] == found["all"] == tracks, found

def memory(what):
    """What asking takes beside the library, in KiB."""
    peaks = [[run([ours, str(tracks), str(what), str(times)])[2] for _ in range(5)] for times in (0, 3)]
    return (min(peaks[1]) - min(peaks[0])) // 1024

print(f"a search for a part of the artist, {found['part']} of {tracks} tracks: {least['part']:.0f} us; in C {least['part in C']:.0f}, {least['part'] / least['part in C']:.2f} times (goal: at most 2)")
print(f"a search for all: {least['all']:.0f} us")
print(f"the first page in the order of artists: {least['sorted']:.0f} us; qsort {least['qsort']:.0f}, {least['sorted'] / least['qsort']:.2f} times (goal: at most 3)")
print(f"the first page without sort criteria: {least['page']:.2f} us; of {tracks // 10} tracks {least['page of few']:.2f}, {least['page'] / least['page of few']:.2f} times (goal: at most 1.3)")
print(f"beside the library a search for a part takes {memory(0)} KiB, for all {memory(1)} KiB, a sorted page {memory(2)} KiB (goal: at most 1024)")
PY
