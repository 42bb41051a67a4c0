#!/usr/bin/env bash
# Ratios measured in one run, by hand and not by the gate:
# - an answer to Browse with a page of 256 rows written, in MB per second, against a C program of a few lines that
#   escapes the same page into the same envelope (goal: at most 2 times its time);
# - a Browse request read, from its bytes and from the message that they are, in microseconds, and the second for each
#   byte of its body against user time of `xmllint --noout --stream` for each byte of an envelope that holds the same
#   call 100,000 times, each the least of its runs (goal: at most 2 times);
# - the answer read back, in MB per second.
# The program is proved and built in a folder of its own, which takes some minutes.
# Needs bash, python3, rt, cc and xmllint.
set -eu
top=$(cd "$(dirname "$0")/.." && pwd)
work=$(mktemp -d)
trap 'rm -rf "$work"' EXIT

# A program over the crate, in a repository of its own. It reads a page on its standard input. With 0 as its word it
# writes the answer with this page, and with another number it writes and reads as often and prints the nanoseconds.
mkdir -p "$work/crates/soap_pace/src"
libraries='cds_base cds_escape cds_object cds_markup cds_http cds_soap'
for name in $libraries; do
    tar -C "$top/crates" --exclude=out --exclude=must-fail -cf - "$name" | tar -C "$work/crates" -xf -
    grep "^$name:" "$top/crates.txt" >>"$work/crates.txt"
done
cp "$top/HANDLES" "$work"
printf '%s\n' 'soap_pace: cds_soap cds_http cds_base anyhow' >>"$work/crates.txt"
cat >"$work/crates/soap_pace/src/main.rt" <<'RT'
//! Times of writing and reading SOAP.
#![tactic(auto)]

use cds_base::{Bytes, Mem, Text};
use cds_http::{HttpError, Message, MessageReader, Side};
use cds_soap::{
    Action, Answer, BrowseRequest, SoapError, fits, read_action, read_answer, write_answer,
};
use std::alloc::Global;
use std::env;
use std::io::{Read, Write, writer};
use std::time::Instant;

/// A Browse request, as GUPnP sends it.
const REQUEST: &str = "POST /control HTTP/1.1\r\nHost: 192.168.0.2:8200\r\nSOAPAction: \"urn:schemas-upnp-org:service:ContentDirectory:1#Browse\"\r\nContent-Type: text/xml; charset=\"utf-8\"\r\nUser-Agent: gupnp-universal-cp GUPnP/1.6.3 DLNADOC/1.50\r\nAccept-Encoding: gzip\r\nConnection: Keep-Alive\r\nContent-Length: 468\r\n\r\n<?xml version=\"1.0\"?><s:Envelope xmlns:s=\"http://schemas.xmlsoap.org/soap/envelope/\" s:encodingStyle=\"http://schemas.xmlsoap.org/soap/encoding/\"><s:Body><u:Browse xmlns:u=\"urn:schemas-upnp-org:service:ContentDirectory:1\"><ObjectID>0</ObjectID><BrowseFlag>BrowseDirectChildren</BrowseFlag><Filter>dc:title,upnp:artist,res</Filter><StartingIndex>0</StartingIndex><RequestedCount>256</RequestedCount><SortCriteria>+dc:title</SortCriteria></u:Browse></s:Body></s:Envelope>";

/// What Browse asks for.
fn browse(alloc: Global) -> Result<Action, Mem> {
    let object = Text::read(alloc, "0")?;
    let flag = Text::read(alloc, "BrowseDirectChildren")?;
    let filter = Text::read(alloc, "*")?;
    let sort = Text::read(alloc, "")?;
    Ok(Action::Browse(BrowseRequest {
        object,
        flag,
        filter,
        start: 0,
        count: 256,
        sort,
    }))
}

/// An answer with this page.
fn page(alloc: Global, bytes: &[u8]) -> Result<Answer, Mem> {
    let mut result = Bytes::new(alloc);
    result.extend(bytes)?;
    Ok(Answer::Page {
        result,
        returned: 256,
        total: 256,
        update: 7,
    })
}

/// The reply with an answer.
fn written(alloc: Global, action: &Action, answer: &Answer) -> Result<Vec<u8>, Mem> {
    let mut out = Vec::new(alloc);
    if fits(action.name(), answer) {
        write_answer(action, 1, answer, None, &mut out)?;
    }
    Ok(out)
}

/// The lengths in all of so many writings of the reply.
fn write_all(alloc: Global, action: &Action, answer: &Answer, times: u32) -> Result<u64, Mem> {
    let mut all: u64 = 0;
    for _ in 0..times {
        let out = written(alloc, action, answer)?;
        all = all.wrapping_add(out.len() as u64);
    }
    Ok(all)
}

/// How many rows the answer has that a reply is read as.
fn rows_read(alloc: Global, action: &Action, reply: &[u8]) -> Result<u32, SoapError> {
    match read_answer(alloc, action, reply)? {
        Answer::Page { returned, .. } => Ok(returned),
        _ => Ok(0),
    }
}

/// The rows in all of so many readings of the reply.
fn read_all(alloc: Global, action: &Action, reply: &[u8], times: u32) -> Result<u64, SoapError> {
    let mut all: u64 = 0;
    for _ in 0..times {
        all = all.wrapping_add(u64::from(rows_read(alloc, action, reply)?));
    }
    Ok(all)
}

/// The message that the request is.
fn request(alloc: Global) -> Result<Message, HttpError> {
    let mut reader = MessageReader::new(alloc, Side::Request)?;
    reader.feed(alloc, REQUEST.as_bytes())?;
    reader.finish()
}

/// The lengths in all of the bodies of so many readings of the request's bytes.
fn messages(alloc: Global, times: u32) -> Result<u64, HttpError> {
    let mut all: u64 = 0;
    for _ in 0..times {
        let message = request(alloc)?;
        all = all.wrapping_add(message.body.len() as u64);
    }
    Ok(all)
}

/// The versions in all of so many readings of a message.
fn actions(alloc: Global, message: &Message, times: u32) -> Result<u64, SoapError> {
    let mut all: u64 = 0;
    for _ in 0..times {
        let asked = read_action(alloc, message)?;
        all = all.wrapping_add(u64::from(asked.version));
    }
    Ok(all)
}

/// How often the words of the command say.
fn times_said(rt: &HostRuntime) -> u32 {
    match env::args(rt) {
        Ok(args) => match args.skip(1).next() {
            Some(word) => word.as_str().parse::<u32>().unwrap_or(0),
            None => 0,
        },
        Err(_) => 0,
    }
}

/// What is printed of a measured run: what was counted, and the nanoseconds it took.
fn told(rt: &HostRuntime, start: Instant, counted: u64) -> Result<(), anyhow::Error> {
    let taken = start.elapsed(rt)?.as_nanos();
    println!(rt; "{counted} {taken}")?;
    Ok(())
}

/// The bytes on standard input.
fn input(rt: &HostRuntime) -> Result<Vec<u8>, anyhow::Error> {
    let mut bytes = Vec::new(rt.alloc());
    rt.reader().read_to_end(&mut bytes)?;
    Ok(bytes)
}

/// Prints the lengths and the times of so many writings, and the rows and the times of so many readings of a reply.
fn replies(
    rt: &HostRuntime,
    action: &Action,
    answer: &Answer,
    times: u32,
) -> Result<(), anyhow::Error> {
    let start = Instant::now(rt)?;
    let all = write_all(rt.alloc(), action, answer, times)?;
    told(rt, start, all)?;
    let reply = written(rt.alloc(), action, answer)?;
    let start = Instant::now(rt)?;
    let all = read_all(rt.alloc(), action, reply.as_slice(), times)?;
    told(rt, start, all)
}

/// Prints the lengths and the times of so many readings of a request's bytes, and the versions and the times of its message.
fn requests(rt: &HostRuntime, times: u32) -> Result<(), anyhow::Error> {
    let start = Instant::now(rt)?;
    let all = messages(rt.alloc(), times)?;
    told(rt, start, all)?;
    let message = request(rt.alloc())?;
    let start = Instant::now(rt)?;
    let all = actions(rt.alloc(), &message, times)?;
    told(rt, start, all)
}

/// Writes the answer to an action.
fn answered(rt: &HostRuntime, action: &Action, answer: &Answer) -> Result<(), anyhow::Error> {
    let reply = written(rt.alloc(), action, answer)?;
    writer(rt).write_all(reply.as_slice())?;
    Ok(())
}

/// Does what the words of the command say with an answer.
fn run(rt: &HostRuntime, action: &Action, answer: &Answer) -> Result<(), anyhow::Error> {
    let times = times_said(rt);
    if times == 0 {
        return answered(rt, action, answer);
    }
    replies(rt, action, answer, times)?;
    requests(rt, times)
}

fn main(rt: HostRuntime) -> Result<(), anyhow::Error> {
    let bytes = input(&rt)?;
    let answer = page(rt.alloc(), bytes.as_slice())?;
    let action = browse(rt.alloc())?;
    run(&rt, &action, &answer)
}
RT
cat >"$work/reply.c" <<'C'
#include <stdio.h>
#include <stdlib.h>
#include <string.h>
#include <time.h>
static char *put(char *o, const char *t) { size_t n = strlen(t); memcpy(o, t, n); return o + n; }
static char *escaped(char *o, const char *t, size_t n) {
    for (; n; n--, t++) switch (*t) {
        case '&': o = put(o, "&amp;"); break;
        case '<': o = put(o, "&lt;"); break;
        case '>': o = put(o, "&gt;"); break;
        case '"': o = put(o, "&quot;"); break;
        case '\'': o = put(o, "&apos;"); break;
        case '\t': o = put(o, "&#9;"); break;
        case '\n': o = put(o, "&#10;"); break;
        case '\r': o = put(o, "&#13;"); break;
        default: *o++ = *t;
    }
    return o;
}
static char page[1 << 20], body[4 << 20], head[256];
int main(int argc, char **argv) {
    size_t n = fread(page, 1, sizeof page, stdin), all = 0;
    int times = argc > 1 ? atoi(argv[1]) : 0;
    struct timespec a, b;
    clock_gettime(CLOCK_MONOTONIC, &a);
    for (int k = 0; k < times + !times; k++) {
        char *o = put(body, "<?xml version=\"1.0\"?><s:Envelope xmlns:s=\"http://schemas.xmlsoap.org/soap/envelope/\" s:encodingStyle=\"http://schemas.xmlsoap.org/soap/encoding/\"><s:Body><u:BrowseResponse xmlns:u=\"urn:schemas-upnp-org:service:ContentDirectory:1\"><Result>");
        o = escaped(o, page, n);
        o += sprintf(o, "</Result><NumberReturned>%d</NumberReturned><TotalMatches>%d</TotalMatches><UpdateID>%d</UpdateID></u:BrowseResponse></s:Body></s:Envelope>", 256, 256, 7);
        int h = sprintf(head, "HTTP/1.1 200 OK\r\nEXT:\r\nSERVER: unix/1.0 UPnP/2.0 cds/1.0\r\nCONTENT-TYPE: text/xml; charset=\"utf-8\"\r\nCONTENT-LENGTH: %zu\r\nCONNECTION: close\r\n\r\n", (size_t)(o - body));
        all += h + (o - body);
        if (!times) { fwrite(head, 1, h, stdout); fwrite(body, 1, o - body, stdout); }
    }
    clock_gettime(CLOCK_MONOTONIC, &b);
    if (times) printf("%zu %lld\n", all, (b.tv_sec - a.tv_sec) * 1000000000LL + b.tv_nsec - a.tv_nsec);
    return 0;
}
C
cc -O2 -o "$work/reply" "$work/reply.c"
python3 - "$work" <<'PY'
import sys
from xml.sax.saxutils import escape
work = sys.argv[1]
quotes = {'"': "&quot;", "'": "&apos;"}
def row(i):
    title, artist, album = (escape(t, quotes) for t in (f'Rock & Roll, part {i} of "many"', "The Artists' Band", f"Greatest hits <{i // 20}>"))
    return (f'<item id="{i + 1}" parentID="0" restricted="1"><dc:title>{title}</dc:title><upnp:class>object.item.audioItem.musicTrack</upnp:class>'
        f"<upnp:artist>{artist}</upnp:artist><upnp:album>{album}</upnp:album><upnp:genre>Classic Rock</upnp:genre>"
        f"<upnp:originalTrackNumber>{i % 20 + 1}</upnp:originalTrackNumber><upnp:objectUpdateID>{i + 7}</upnp:objectUpdateID>"
        f'<res protocolInfo="http-get:*:audio/flac:*" size="{20000000 + i * 1237}" duration="0:0{i % 9}:{i % 60:02}.{i % 1000:03}" '
        f'sampleFrequency="44100" bitsPerSample="16" nrAudioChannels="2">/media/{i + 1}</res></item>')
with open(f"{work}/page", "w") as file:
    file.write('<DIDL-Lite xmlns="urn:schemas-upnp-org:metadata-1-0/DIDL-Lite/" xmlns:dc="http://purl.org/dc/elements/1.1/" xmlns:upnp="urn:schemas-upnp-org:metadata-1-0/upnp/">')
    file.write("".join(map(row, range(256))) + "</DIDL-Lite>")
call = ('<u:Browse xmlns:u="urn:schemas-upnp-org:service:ContentDirectory:1"><ObjectID>0</ObjectID><BrowseFlag>BrowseDirectChildren</BrowseFlag>'
    "<Filter>dc:title,upnp:artist,res</Filter><StartingIndex>0</StartingIndex><RequestedCount>256</RequestedCount><SortCriteria>+dc:title</SortCriteria></u:Browse>")
with open(f"{work}/calls", "w") as file:
    file.write('<?xml version="1.0"?><s:Envelope xmlns:s="http://schemas.xmlsoap.org/soap/envelope/" s:encodingStyle="http://schemas.xmlsoap.org/soap/encoding/"><s:Body>')
    file.write(call * 100_000 + "</s:Body></s:Envelope>")
PY
(cd "$work/crates/soap_pace" && rt run -- 0 <"$work/page" >"$work/ours" 2>"$work/log") || { cat "$work/log" >&2; exit 1; }
"$work/reply" <"$work/page" >"$work/theirs"
cmp "$work/ours" "$work/theirs"

PYTHONPATH=$top/bench python3 -B - "$work" "$work/crates/soap_pace/out/soap_pace" <<'PY'
import os, subprocess, sys
from measure import once
work, program = sys.argv[1:]
reply, page = os.path.getsize(f"{work}/ours"), os.path.getsize(f"{work}/page")
body = 468

def run(command):
    with open(f"{work}/page", "rb") as source:
        lines = subprocess.run(command, stdin=source, stdout=subprocess.PIPE, check=True).stdout.splitlines()
    return [tuple(map(int, line.split())) for line in lines]

# In turn, so that a machine whose pace changes is the same for both; the least of the runs.
times = 500
ours, theirs, users = [], [], []
calls = f"{work}/calls"
for _ in range(10):
    lines = run([program, str(times)])
    assert [line[0] for line in lines] == [times * reply, times * 256, times * body, times]
    ours.append([line[1] / times for line in lines])
    theirs.append(run([f"{work}/reply", str(times)])[0][1] / times)
    users.append(once(["xmllint", "--noout", "--stream", calls], calls)[1])
write, read, message, action = (min(taken) for taken in zip(*ours))
c = min(theirs)
print(f"an answer with a page of {page} bytes, {reply} in all: written at {reply / write * 1000:.0f} MB/s, by the C program at {reply / c * 1000:.0f}: {write / c:.2f} times its time (goal: at most 2); read at {reply / read * 1000:.0f} MB/s")
each = min(users) / os.path.getsize(calls) * 1e9
print(f"a Browse request of {body} bytes in its body: its message in {message / 1000:.2f} us, what it asks for in {action / 1000:.2f} us, {action / body:.1f} ns a byte; xmllint --noout --stream takes {each:.1f}: {action / body / each:.2f} times its time (goal: at most 2)")
PY
