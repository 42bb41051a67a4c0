#!/usr/bin/env bash
# Ratios measured in one run, by hand and not by the gate: reading a POST with no body, with one of 1 KiB and with one of
# 1 MiB, whole, in pieces of 1,448 bytes and one byte at a time (goal: at most 30 times as long as whole), in bytes per
# second, against the crate httparse in a Rust program on the same heads (goal for heads: at least half of it).
# Needs bash, python3, rt, and for httparse cargo and Debian's librust-httparse-dev (or its files under $HTTPARSE).
set -eu
top=$(cd "$(dirname "$0")/.." && pwd)
work=$(mktemp -d)
trap 'rm -rf "$work"' EXIT

# A program over the crate, in a repository of its own.
mkdir -p "$work/crates/http_bench/src"
tar -C "$top/crates" --exclude=out --exclude=must-fail -cf - cds_base cds_http | tar -C "$work/crates" -xf -
cp "$top/HANDLES" "$work"
printf '%s\n' 'cds_base:' 'cds_http: cds_base bytes httparse http_header memchr thiserror' 'http_bench: cds_http cds_base anyhow' >"$work/crates.txt"
cat >"$work/crates/http_bench/src/main.rt" <<'RT'
//! Times of reading HTTP messages.
#![tactic(auto)]

use cds_http::{HttpError, MessageReader, Side};
use std::alloc::{AllocError, Global};
use std::time::Instant;

/// Reads a message in pieces of so many bytes, and gives the length of its body.
fn read(alloc: Global, bytes: &[u8], step: usize) -> Result<usize, HttpError> {
    let mut reader = MessageReader::new(alloc, Side::Request)?;
    for piece in bytes.chunks(step.max(1)) {
        let _fed = reader.feed(alloc, piece)?;
    }
    let message = reader.finish()?;
    Ok(message.body.len())
}

/// A control request with a body of so many bytes.
fn request(alloc: Global, size: usize) -> Result<Vec<u8>, AllocError> {
    let mut bytes = Vec::new(alloc);
    bytes.extend_from_slice(b"POST /control HTTP/1.1\r\nHOST: 192.168.0.2:8200\r\nUSER-AGENT: Linux/6.1 UPnP/1.0 GUPnP/1.6.3\r\nACCEPT-ENCODING: gzip\r\nCONTENT-TYPE: text/xml; charset=\"utf-8\"\r\nSOAPACTION: \"urn:schemas-upnp-org:service:ContentDirectory:4#Browse\"\r\nCONNECTION: close\r\nCONTENT-LENGTH: ")?;
    bytes.extend_from_slice(size.to_string(alloc)?.as_bytes())?;
    bytes.extend_from_slice(b"\r\n\r\n")?;
    for _ in 0..size {
        bytes.push(b'a')?;
    }
    Ok(bytes)
}

/// The lengths of the bodies in all, of so many readings.
fn read_all(alloc: Global, bytes: &[u8], step: usize, times: u32) -> Result<u64, HttpError> {
    let mut all: u64 = 0;
    for _ in 0..times {
        let length = read(alloc, bytes, step)?;
        all = all.wrapping_add(length as u64);
    }
    Ok(all)
}

/// The size of the body, of the pieces and of the message, how often it is read, and the nanoseconds that took.
fn main(rt: HostRuntime) -> Result<(), anyhow::Error> {
    let alloc = rt.alloc();
    let rows: [(usize, usize, u32); 9] = [
        (0, 16_777_216, 200_000),
        (0, 1_448, 200_000),
        (0, 1, 50_000),
        (1_024, 16_777_216, 200_000),
        (1_024, 1_448, 200_000),
        (1_024, 1, 10_000),
        (1_048_576, 16_777_216, 1_000),
        (1_048_576, 1_448, 1_000),
        (1_048_576, 1, 20),
    ];
    for (size, step, times) in rows {
        let bytes = request(alloc, size)?;
        let start = Instant::now(&rt)?;
        let all = read_all(alloc, bytes.as_slice(), step, times)?;
        let taken = start.elapsed(&rt)?.as_nanos();
        println!(rt; "{size} {step} {} {times} {taken} {all}", bytes.len())?;
    }
    Ok(())
}
RT
(cd "$work/crates/http_bench" && rt run >"$work/ours" 2>"$work/log") || { cat "$work/log" >&2; exit 1; }

# The head alone by httparse.
source=${HTTPARSE:-$(ls -d /usr/share/cargo/registry/httparse-* 2>/dev/null | head -n 1)}
if [ -n "$source" ]; then
    mkdir -p "$work/rust/src"
    printf '%s\n' '[package]' 'name = "heads"' 'version = "0.1.0"' 'edition = "2021"' '[dependencies]' "httparse = { path = \"$source\" }" '[profile.release]' 'opt-level = 3' >"$work/rust/Cargo.toml"
    cat >"$work/rust/src/main.rs" <<'RS'
fn main() {
    let head = b"POST /control HTTP/1.1\r\nHOST: 192.168.0.2:8200\r\nUSER-AGENT: Linux/6.1 UPnP/1.0 GUPnP/1.6.3\r\nACCEPT-ENCODING: gzip\r\nCONTENT-TYPE: text/xml; charset=\"utf-8\"\r\nSOAPACTION: \"urn:schemas-upnp-org:service:ContentDirectory:4#Browse\"\r\nCONNECTION: close\r\nCONTENT-LENGTH: 0\r\n\r\n";
    let times = 1_000_000u32;
    let start = std::time::Instant::now();
    let mut all = 0;
    for _ in 0..times {
        let mut headers = [httparse::EMPTY_HEADER; 64];
        let mut request = httparse::Request::new(&mut headers);
        all += request.parse(std::hint::black_box(head)).unwrap().unwrap();
    }
    println!("{} {} {} {}", head.len(), times, start.elapsed().as_nanos(), all);
}
RS
    (cd "$work/rust" && cargo run --release --offline -q >"$work/heads" 2>>"$work/log") && mv "$work/heads" "$work/theirs" || cat "$work/log" >&2
fi

python3 - "$work" <<'PY'
import os, sys
work = sys.argv[1]
whole = {}
for line in open(f"{work}/ours"):
    size, step, length, times, taken, _ = map(int, line.split())
    each = taken / times
    if step > 1448:
        whole[size] = each
    how = "whole" if step > 1448 else f"in pieces of {step}"
    goal = " (goal: at most 30)" if step == 1 else ""
    print(f"body of {size} bytes, {how}: {each / 1000:.2f} us, {length / each * 1000:.0f} MB/s, {each / whole[size]:.2f} times as long as whole{goal}")
if os.path.exists(f"{work}/theirs"):
    length, times, taken, _ = map(int, open(f"{work}/theirs").read().split())
    each = taken / times
    print(f"httparse on the head: {each / 1000:.2f} us, {length / each * 1000:.0f} MB/s; the reader has {each / whole[0]:.2f} of its pace (goal: at least 0.5)")
else:
    print("httparse on the head: not measured, since its files are not here or cargo did not build them (goal: at least half its pace)")
PY
