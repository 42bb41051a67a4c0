#!/usr/bin/env bash
# The reader of documents alone (`give_parts`, with a sink that counts), by hand and not by the gate:
# - time for each element `<a/>`, each attribute of a tag that has 20,000, without and with a prefix, each of 10,000 `xmlns:` in
#   a tag, a tag of 20 attributes, and a byte of plain text (goal: a byte of any body at most 5 times one of text);
# - a byte of rows and of requests against user time of `xmllint --stream --noout` (goal: at most 1.5 times);
# - a byte of white space before, after and inside the root;
# - peak memory of a tag of 300,000 attributes, without and with a prefix, and of one of 100,000 `xmlns:`, against its bytes (goal:
#   at most 4 times and 256 KiB).
# Times are the least of many runs, so that other work on the machine counts little.
# The program is proved and built in a folder of its own, which takes a quarter of an hour; PROGRAM names one that was built.
# Needs bash, python3, rt, GNU time (/usr/bin/time) and xmllint.
set -eu
top=$(cd "$(dirname "$0")/.." && pwd)
work=$(mktemp -d)
trap 'rm -rf "$work"' EXIT

if [ -z "${PROGRAM:-}" ]; then
    . "$top/bench/gather.sh"
    mkdir -p "$work/crates/reader_pace/src"
    gather "$top" "$work" cds_markup
    cp "$top/HANDLES" "$work"
    echo 'reader_pace: cds_markup cds_base anyhow' >>"$work/crates.txt"
    cat >"$work/crates/reader_pace/src/main.rt" <<'RT'
//! Times of reading a document.
#![tactic(auto)]

use cds_base::Mem;
use cds_markup::{Part, PartSink, give_parts};
use std::env;
use std::io::Read;
use std::time::Instant;

/// Counts the parts.
#[derive(Drop)]
struct Count {
    parts: u64,
}

impl PartSink for Count {
    ghost use Rattle.std.specs.Prelude.{◌≡◌};

    ghost took = { λ before part now. now ≡ now };

    fn take(&mut self, part: Part) -> Result<(), Mem> {
        drop(part);
        self.parts = self.parts.wrapping_add(1);
        Ok(())
    }

    fn has_enough(&self) -> bool {
        false
    }
}

/// How often the words of the command say.
fn times_said(rt: &HostRuntime) -> u32 {
    match env::args(rt) {
        Ok(args) => match args.skip(1).next() {
            Some(word) => word.as_str().parse::<u32>().unwrap_or(1),
            None => 1,
        },
        Err(_) => 1,
    }
}

/// Reads its input so often. Prints for each time the number of parts, whether it is a document, and the nanoseconds.
fn main(rt: HostRuntime) -> Result<(), anyhow::Error> {
    let mut bytes = Vec::new(rt.alloc());
    rt.reader().read_to_end(&mut bytes)?;
    let times = times_said(&rt);
    for _ in 0..times {
        let mut count = Count { parts: 0 };
        let start = Instant::now(&rt)?;
        let good = give_parts(rt.alloc(), bytes.as_slice(), &mut count).is_ok();
        let taken = start.elapsed(&rt)?.as_nanos();
        let parts = count.parts;
        println!(rt; "{parts} {good} {taken}")?;
    }
    Ok(())
}
RT
    (cd "$work/crates/reader_pace" && rt run -- 1 <"$top/crates.txt" >/dev/null 2>"$work/log") || { cat "$work/log" >&2; exit 1; }
    PROGRAM=$work/crates/reader_pace/out/reader_pace
fi

PYTHONPATH=$top/bench python3 -B - "$work" "$PROGRAM" <<'PY'
import itertools, os, string, subprocess, sys
from measure import memory, once
work, program = sys.argv[1:]
names = ["".join(letters) for letters in itertools.islice(itertools.product(string.ascii_lowercase, repeat=4), 300_000)]

def tag(form, count, more=""):
    return f"<r{more} " + " ".join(form.format(name) for name in names[:count]) + "/>"

def row(i):
    return (
        f'<item id="{i + 1}" parentID="0" restricted="1"><dc:title>Rock &amp; Roll, part {i} of many</dc:title>'
        "<upnp:class>object.item.audioItem.musicTrack</upnp:class><upnp:artist>The Artists Band</upnp:artist>"
        "<upnp:album>Greatest hits</upnp:album><upnp:genre>Classic Rock</upnp:genre>"
        f"<upnp:originalTrackNumber>{i % 20 + 1}</upnp:originalTrackNumber><upnp:objectUpdateID>{i + 7}</upnp:objectUpdateID>"
        f'<res protocolInfo="http-get:*:audio/flac:*" size="{20000000 + i * 1237}" duration="0:0{i % 9}:{i % 60:02}.{i % 1000:03}" '
        f'sampleFrequency="44100" bitsPerSample="16" nrAudioChannels="2">/media/{i + 1}</res></item>'
    )

def rows(count):
    spaces = 'xmlns="urn:schemas-upnp-org:metadata-1-0/DIDL-Lite/" xmlns:dc="http://purl.org/dc/elements/1.1/" xmlns:upnp="urn:schemas-upnp-org:metadata-1-0/upnp/"'
    return f"<DIDL-Lite {spaces}>" + "".join(map(row, range(count))) + "</DIDL-Lite>"

def calls(count):
    call = (
        '<u:Browse xmlns:u="urn:schemas-upnp-org:service:ContentDirectory:1"><ObjectID>0</ObjectID><BrowseFlag>BrowseDirectChildren</BrowseFlag>'
        "<Filter>dc:title,upnp:artist,res</Filter><StartingIndex>0</StartingIndex><RequestedCount>256</RequestedCount><SortCriteria>+dc:title</SortCriteria></u:Browse>"
    )
    return f'<s:Envelope xmlns:s="http://schemas.xmlsoap.org/soap/envelope/"><s:Body>{call * count}</s:Body></s:Envelope>'

def write(text):
    with open(f"{work}/document", "w") as file:
        file.write(text)
    return f"{work}/document"

def least(text):
    path, taken = write(text), []
    for _ in range(3):
        with open(path, "rb") as source:
            lines = subprocess.run([program, "40"], stdin=source, stdout=subprocess.PIPE, check=True).stdout.split(b"\n")[:-1]
        assert all(line.split()[1] == b"true" for line in lines)
        taken += [int(line.split()[2]) for line in lines]
    return min(taken)

plain = "plain text " * 20_000
text = least(f"<r>{plain}</r>") / len(plain)
print(f"a byte of plain text: {text:.2f} ns")
for what, document, count in (
    ("an element <a/>", "<r>" + "<a/>" * 20_000 + "</r>", 20_000),
    ("one of 20,000 attributes", tag('{}=""', 20_000), 20_000),
    ("one of 20,000 with a prefix", tag('p:{}=""', 20_000, ' xmlns:p="u"'), 20_000),
    ("one of 10,000 declarations of prefixes", tag('xmlns:{}="u"', 10_000), 10_000),
    ("a tag of 20 attributes", "<r>" + tag('{}="1"', 20) * 1_000 + "</r>", 1_000),
    ("a byte of white space before the root", " " * 100_000 + "<r/>", 100_000),
    ("a byte of white space after the root", "<r/>" + " " * 100_000, 100_000),
    ("a byte of white space inside the root", "<r>" + " " * 100_000 + "</r>", 100_000),
):
    taken = least(document)
    print(f"{what}: {taken / count:.4g} ns, {taken / len(document):.2f} a byte, {taken / len(document) / text:.0f} times plain text's (goal: at most 5)")
for what, form in (("rows", rows), ("requests", calls)):
    ours = least(form(500)) / len(form(500))
    path = write(form(20_000))
    theirs = min(once(["xmllint", "--noout", "--stream", "-"], path)[1] for _ in range(8)) / os.path.getsize(path) * 1e9
    print(f"a byte of {what}: {ours:.1f} ns, by xmllint --stream {theirs:.1f}: {ours / theirs:.2f} times (goal: at most 1.5)")
for what, document in (
    ("300,000 attributes", tag('{}=""', 300_000)),
    ("300,000 attributes with a prefix", tag('p:{}=""', 300_000, ' xmlns:p="u"')),
    ("100,000 declarations of prefixes", tag('xmlns:{}="u"', 100_000)),
):
    peak = memory([program, "1"], write(document))
    print(f"a tag of {what}, {len(document)} bytes: {peak / 1e6:.1f} MB at most, {peak / len(document):.1f} times its bytes (goal: at most 4)")
PY
