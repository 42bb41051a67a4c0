#!/usr/bin/env bash
# What a server takes to answer Browse, in process and from the message to the bytes of the reply, by hand and not by the
# gate. The tracks say of themselves what those of bench/didl.sh do. Ratios measured in one run:
# - children of an album of 12 tracks, the first of a library of 50,000 in folders of 12, against the first of a library
#   of 5,000 (goal: at most 1.3 times), and the last of 50,000 against the first (goal: at most 1.2 times);
# - a page of 256 of 50,000 tracks that are all at the root, against one of 5,000 (goal: at most 1.3 times), and the last
#   page against the first (goal: at most 1.2 times); the same of the folders of the other library;
# - the part of the time of such a page in which `cds serve` has the turn of the server (goal: at most a quarter);
# - the first page of tracks against the C program of bench/didl.sh, which writes a page of 256 tracks as DIDL-Lite and
#   neither finds its rows nor escapes the page into an envelope (goal: at most 3 times its time).
# With the word `count`, valgrind counts instructions in place of the times, which takes some minutes more: so the ratios
# hold on a machine that has other work.
# The program is proved and built in a folder of its own, with all crates below it. That takes a minute or two where earlier
# checks on this machine left their work, and else as long as a first check of these crates.
# Then bench/search.sh runs, but not with `count`.
# Needs bash, python3, rt and cc; valgrind for `count`.
set -eu
top=$(cd "$(dirname "$0")/.." && pwd)
work=$(mktemp -d)
trap 'rm -rf "$work"' EXIT

# A program over the crates, in a repository of its own. Its words are how many tracks there are, how many in a folder or 0
# where all are at the root, the id of the container whose children are asked, from which place on, how many, and how
# often: with 0 it writes the reply, and with another number it prints the bytes of all replies and the nanoseconds.
. "$top/bench/gather.sh"
mkdir -p "$work/crates/browse_pace/src"
gather "$top" "$work" cds_server
cp "$top/HANDLES" "$work"
printf '%s\n' 'browse_pace: cds_server cds_http cds_object cds_base anyhow' >>"$work/crates.txt"
cat >"$work/crates/browse_pace/src/main.rt" <<'RT'
//! Times of Browse.
#![tactic(auto)]

use cds_base::{Mem, Text, put};
use cds_http::{HttpError, Message, MessageReader, Side};
use cds_object::{Content, Path, PathError, Record, Records, TrackContent};
use cds_server::{Server, read_asked, write_made};
use std::alloc::{AllocError, Global};
use std::env;
use std::io::{Write, writer};
use std::time::Instant;

/// What the words of the command say: a library of so many tracks, in folders of so many or, at 0, all at the root; the
/// object whose children are asked, from which place on and how many; and how often.
#[derive(Drop)]
struct Words {
    tracks: u32,
    each: u32,
    object: u32,
    start: u32,
    count: u32,
    times: u32,
}

/// A text that may be missing.
fn some(alloc: Global, text: &str) -> Result<Option<Text>, Mem> {
    Ok(Some(Text::read(alloc, text)?))
}

/// How long a track plays, in milliseconds.
fn duration(number: u32) -> u64 {
    let minutes = u64::from(number % 9);
    let seconds = u64::from(number % 60);
    minutes * 60_000 + seconds * 1000 + u64::from(number % 1000)
}

/// What a track says of itself, as in the page of `bench/didl.sh`.
fn content(alloc: Global, number: u32) -> Result<TrackContent, Mem> {
    let album = number / 20;
    let title = format!(in alloc; "Rock & Roll, part {number} of \"many\"")?;
    let album = format!(in alloc; "Greatest hits <{album}>")?;
    Ok(TrackContent {
        title: Text::read(alloc, title.as_str())?,
        artist: some(alloc, "The Artists' Band")?,
        album: some(alloc, album.as_str())?,
        genre: some(alloc, "Classic Rock")?,
        number: Some(number % 20 + 1),
        size: 20_000_000 + u64::from(number) * 1237,
        duration: Some(duration(number)),
        rate: 44100,
        channels: 2,
        bits: 16,
    })
}

/// A track at a place.
fn track(alloc: Global, path: &str, number: u32) -> Result<Record, PathError> {
    Ok(Record {
        path: Path::read(alloc, path)?,
        content: Content::Track(content(alloc, number)?),
    })
}

/// A folder at a place.
fn folder(alloc: Global, path: &str) -> Result<Record, PathError> {
    Ok(Record {
        path: Path::read(alloc, path)?,
        content: Content::Folder {
            title: Text::read(alloc, path)?,
        },
    })
}

/// The name of a number, so that names go up as the numbers do.
fn name(alloc: Global, number: u32) -> Result<String, Mem> {
    let long = u64::from(number) + 10_000_000;
    let text = format!(in alloc; "{long}")?;
    Ok(text)
}

/// The place of a folder and what parts it from a name in it.
fn holder(alloc: Global, folder: u32) -> Result<String, Mem> {
    let mut path = name(alloc, folder)?;
    put(&mut path, "/")?;
    Ok(path)
}

/// Where a track is.
fn place(alloc: Global, words: &Words, number: u32) -> Result<String, Mem> {
    let mut path = match number.checked_div(words.each) {
        None => String::new(alloc),
        Some(folder) => holder(alloc, folder)?,
    };
    put(&mut path, name(alloc, number)?.as_str())?;
    put(&mut path, ".flac")?;
    Ok(path)
}

/// How many folders there are: the last may have fewer tracks.
fn folders(words: &Words) -> u32 {
    match words.tracks.checked_div(words.each) {
        None => 0,
        Some(whole) => whole.saturating_add(1),
    }
}

/// Adds the folders.
fn add_folders(alloc: Global, words: &Words, records: &mut Records) -> Result<(), PathError> {
    for number in 0..folders(words) {
        let path = name(alloc, number)?;
        records.push(folder(alloc, path.as_str())?)?;
    }
    Ok(())
}

/// What a scan of the library finds.
fn library(alloc: Global, words: &Words) -> Result<Records, PathError> {
    let mut records = Records::new(alloc);
    add_folders(alloc, words, &mut records)?;
    for number in 0..words.tracks {
        let path = place(alloc, words, number)?;
        records.push(track(alloc, path.as_str(), number)?)?;
    }
    Ok(records)
}

/// A server that took one scan of the library.
fn scanned(alloc: Global, words: &Words) -> Result<Server, anyhow::Error> {
    let records = library(alloc, words)?;
    let mut server = Server::new(alloc, [0, 0], 0)?;
    if records.len() < 1_000_000_000 {
        let _span = server.accept_records(alloc, 0, &records)?;
    }
    Ok(server)
}

/// The text of the request.
fn request(alloc: Global, words: &Words) -> Result<String, AllocError> {
    let object = words.object;
    let start = words.start;
    let count = words.count;
    let arguments = format!(in alloc;
        "<ObjectID>{object}</ObjectID><BrowseFlag>BrowseDirectChildren</BrowseFlag><Filter>*</Filter><StartingIndex>{start}</StartingIndex><RequestedCount>{count}</RequestedCount><SortCriteria></SortCriteria>"
    )?;
    let body = format!(in alloc;
        "<?xml version=\"1.0\"?><s:Envelope xmlns:s=\"http://schemas.xmlsoap.org/soap/envelope/\" s:encodingStyle=\"http://schemas.xmlsoap.org/soap/encoding/\"><s:Body><u:Browse xmlns:u=\"urn:schemas-upnp-org:service:ContentDirectory:1\">{arguments}</u:Browse></s:Body></s:Envelope>"
    )?;
    let length = body.len();
    format!(in alloc;
        "POST /control HTTP/1.1\r\nHOST: 192.168.0.2:8200\r\nSOAPACTION: \"urn:schemas-upnp-org:service:ContentDirectory:1#Browse\"\r\nCONTENT-TYPE: text/xml; charset=\"utf-8\"\r\nCONTENT-LENGTH: {length}\r\n\r\n{body}"
    )
}

/// The message that a text is.
fn message(alloc: Global, text: &str) -> Result<Message, HttpError> {
    let mut reader = MessageReader::new(alloc, Side::Request)?;
    reader.feed(alloc, text.as_bytes())?;
    reader.finish()
}

/// The reply to a message.
fn replied(alloc: Global, server: &mut Server, message: &Message) -> Result<Vec<u8>, Mem> {
    let mut out = Vec::new(alloc);
    let _note = server.handle(alloc, 0, message, &mut out)?;
    Ok(out)
}

/// What replies took: their lengths in all, and the nanoseconds in which the server was needed.
#[derive(Clone, Copy)]
struct Taken {
    bytes: u64,
    turn: u128,
}

/// The reply to a message in the three parts that `cds serve` runs, of which only the second one has the turn.
fn parts(rt: &HostRuntime, server: &mut Server, message: &Message) -> Result<Taken, anyhow::Error> {
    let alloc = rt.alloc();
    let asking = read_asked(alloc, message)?;
    let start = Instant::now(rt)?;
    let answered = server.answer(alloc, 0, &asking)?;
    let turn = start.elapsed(rt)?.as_nanos();
    let text = write_made(alloc, asking, answered.made)?;
    Ok(Taken {
        bytes: text.len() as u64,
        turn,
    })
}

/// What the replies to a message that comes so many times take.
fn replies(
    rt: &HostRuntime,
    server: &mut Server,
    message: &Message,
    times: u32,
) -> Result<Taken, anyhow::Error> {
    let mut all = Taken { bytes: 0, turn: 0 };
    for _ in 0..times {
        let one = parts(rt, server, message)?;
        all.bytes = all.bytes.wrapping_add(one.bytes);
        all.turn = all.turn.wrapping_add(one.turn);
    }
    Ok(all)
}

/// The number that a word of the command is.
fn word(rt: &HostRuntime, at: usize) -> u32 {
    match env::args(rt) {
        Ok(args) => match args.skip(at).next() {
            Some(word) => word.as_str().parse::<u32>().unwrap_or(0),
            None => 0,
        },
        Err(_) => 0,
    }
}

/// What the words of the command say.
fn words_of(rt: &HostRuntime) -> Words {
    Words {
        tracks: word(rt, 1),
        each: word(rt, 2),
        object: word(rt, 3),
        start: word(rt, 4),
        count: word(rt, 5),
        times: word(rt, 6),
    }
}

/// Writes the reply, or prints of so many replies the lengths in all, the nanoseconds, and those in which the server was needed.
fn told(
    rt: &HostRuntime,
    server: &mut Server,
    message: &Message,
    times: u32,
) -> Result<(), anyhow::Error> {
    if times == 0 {
        let reply = replied(rt.alloc(), server, message)?;
        writer(rt).write_all(reply.as_slice())?;
        return Ok(());
    }
    let start = Instant::now(rt)?;
    let all = replies(rt, server, message, times)?;
    let taken = start.elapsed(rt)?.as_nanos();
    let bytes = all.bytes;
    let turn = all.turn;
    println!(rt; "{bytes} {taken} {turn}")?;
    Ok(())
}

fn main(rt: HostRuntime) -> Result<(), anyhow::Error> {
    let words = words_of(&rt);
    let mut server = scanned(rt.alloc(), &words)?;
    let text = request(rt.alloc(), &words)?;
    let message = message(rt.alloc(), text.as_str())?;
    told(&rt, &mut server, &message, words.times)
}
RT

# The C program of bench/didl.sh and the texts that it reads.
sed -n "/page.c\" <<'C'\$/,/^C\$/p" "$top/bench/didl.sh" | sed '1d;$d' >"$work/page.c"
cc -O2 -o "$work/page" "$work/page.c"
sed -n "/texts\" <<'PY'\$/,/^PY\$/p" "$top/bench/didl.sh" | sed '1d;$d' | python3 - >"$work/texts"
"$work/page" <"$work/texts" >"$work/document"
(cd "$work/crates/browse_pace" && rt run -- 1 0 0 0 1 0 >"$work/reply" 2>"$work/log") || { cat "$work/log" >&2; exit 1; }

python3 -B - "$work" "$work/crates/browse_pace/out/browse_pace" "${1:-time}" <<'PY'
import os, re, subprocess, sys
work, program, how = sys.argv[1:]
page = f"{work}/page"
texts = f"{work}/texts"

def run(command):
    with open(texts, "rb") as source:
        return subprocess.run(command, stdin=source, stdout=subprocess.PIPE, check=True).stdout

def counted(command, times):
    """Instructions of a run that does the work so many times."""
    file = f"{work}/counts"
    run(["valgrind", "-q", "--tool=callgrind", f"--callgrind-out-file={file}", *command, str(times)])
    with open(file) as lines:
        return int(re.search(r"^(?:summary|totals): (\d+)", lines.read(), re.M)[1])

def once(command, times):
    """What doing the work once takes: microseconds, or thousands of instructions."""
    if how == "count":
        return (counted(command, 2 + times) - counted(command, 2)) / times / 1000
    return int(run([*command, str(times)]).split()[1]) / times / 1000

def turn_share(command, times):
    """The part of the time in which the server was needed."""
    taken, turn = map(int, run([*command, str(times)]).split()[1:])
    return turn / taken

# A library, the container whose children are asked, from which place on, how many, and how many there are in all.
# Ids go up with places, so the folder at a place n from 0 has the id 1 + 13 n.
asks = {
    "album": (50000, 12, 1, 0, 256, 12),
    "last album": (50000, 12, 1 + 13 * 4165, 0, 256, 12),
    "album of few": (5000, 12, 1, 0, 256, 12),
    "page": (50000, 0, 0, 0, 256, 50000),
    "last page": (50000, 0, 0, 50000 - 256, 256, 50000),
    "page of few": (5000, 0, 0, 0, 256, 5000),
    "folders": (50000, 12, 0, 0, 256, 4167),
    "last folders": (50000, 12, 0, 4167 - 256, 256, 4167),
    "folders of few": (5000, 12, 0, 0, 256, 417),
}
command = {name: [program, *map(str, ask[:5])] for name, ask in asks.items()}
sizes = {}
for name, (tracks, each, container, start, count, total) in asks.items():
    reply = run([*command[name], "0"])
    sizes[name] = len(reply)
    rows = min(count, total - start)
    assert reply.startswith(b"HTTP/1.1 200 OK\r\n"), name
    for part in (f"<NumberReturned>{rows}</NumberReturned>", f"<TotalMatches>{total}</TotalMatches>"):
        assert part.encode() in reply, (name, part)
    assert reply.count(f"parentID=&quot;{container}&quot;".encode()) == rows, name

# In turn, so that a machine whose pace changes is the same for all; the least of the runs.
rounds = 1 if how == "count" else 5
times = {name: 10 if how == "count" else 1000 if "album" in name else 100 for name in asks}
taken = {name: [] for name in asks}
theirs = []
for _ in range(rounds):
    for name in asks:
        taken[name].append(once(command[name], times[name]))
    theirs.append(once([page], 10 if how == "count" else 1000))
least = {name: min(each) for name, each in taken.items()}
c, document = min(theirs), os.path.getsize(f"{work}/document")
unit = "thousand instructions" if how == "count" else "us"

def told(what, name):
    ours, last, few = least[name], least[f"last {name}"], least[f"{name} of few"]
    print(f"{what}, {sizes[name]} bytes: {ours:.1f} {unit}; the last {last:.1f}, {last / ours:.2f} times (goal: at most 1.2); of 5,000 tracks {few:.1f}, growth {ours / few:.2f} times (goal: at most 1.3)")

told("an album of 12 of 50,000 tracks", "album")
told("a page of 256 of 50,000 tracks at the root", "page")
told("a page of 256 of 4,167 folders", "folders")
if how != "count":
    share = min(turn_share(command["page"], times["page"]) for _ in range(rounds))
    print(f"of the page of tracks, {share:.0%} of the time needs the server's turn (goal: at most 25 %)")
ours = least["page"]
rates = "" if how == "count" else f" ({sizes['page'] / ours:.0f} MB/s of reply, and {document / c:.0f} of document)"
print(f"the page of tracks against the C program's, {document} bytes: {ours:.1f} and {c:.1f} {unit}, {ours / c:.2f} times its time{rates} (goal: at most 3)")
PY

# Searches and sorted pages have a program of their own.
if [ "${1:-time}" != count ]; then
    "$top/bench/search.sh"
fi
