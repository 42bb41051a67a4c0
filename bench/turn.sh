#!/usr/bin/env bash
# Ratios measured in one run, by hand and not by the gate:
# - the time of a turn of `cds_turn` with one seat against that of a lock of std's Mutex in a Rust program (goal: at most
#   3 times); left out where there is no rustc;
# - the same acts by four threads against one, for acts that store a number and for acts that compute for about a
#   microsecond (goal on four processors: no fewer than half as many turns in a second).
# The program is proved and built in a folder of its own, which takes some minutes. Where other programs run beside it,
# the times of four threads say little: a turn waits for a thread that has no processor.
# Needs bash, python3 and rt; rustc for the first ratio.
set -eu
top=$(cd "$(dirname "$0")/.." && pwd)
work=$(mktemp -d)
trap 'rm -rf "$work"' EXIT

mkdir -p "$work/crates/turn_pace/src" "$work/crates/turn_pace/proofs/take_turns"
for name in cds_base cds_turn; do
    mkdir "$work/crates/$name"
    cp -r "$top/crates/$name/src" "$top/crates/$name/specs" "$top/crates/$name/proofs" "$work/crates/$name/"
done
cp "$top/HANDLES" "$work/"
printf 'cds_base:\ncds_turn: cds_base atomic_table thiserror\nturn_pace: cds_turn\n' > "$work/crates.txt"

cat > "$work/crates/turn_pace/proofs/take_turns/Invariants.antt" <<'ANTT'
use Rattle.std.proofs.Common.{◌≡◌}
use Rattle.cds_turn.specs.Turn.{IsSeatOf, passes_of}
use Rattle.turn_pace.proofs.take_turns.Given as goal

abbrev pub invariant-loop-i : goal.invariant-loop-i
invariant-loop-i g l = IsSeatOf l.turn l.seat × (passes_of l.seat ≡ passes_of l.fn.seat)
ANTT
cat > "$work/crates/turn_pace/src/main.rt" <<'RATTLE'
//! Prints how long turns take, in nanoseconds: short ones by one thread and by four, then long ones.
#![tactic(auto)]

ghost use Rattle.std.specs.Prelude.{◌≡◌, ◌≤◌};
ghost use Rattle.cds_turn.specs.Turn.{IsSeatOf, passes_of};

use cds_turn::{Act, Seat, StandsFor, Turn};
use std::alloc::Global;
use std::io;
use std::sync::Wait;
use std::thread::{Threads, join};
use std::time::{Clock, Instant};

/// The newest of some numbers, and something to compute on.
#[derive(Drop)]
struct Newest {
    number: u64,
    mixed: u64,
}

impl StandsFor for Newest {
    ghost use Rattle.std.specs.Prelude.{◌≡◌, slice_index};

    type Command = u64;
    type Start = ();

    ghost start = { λ _. tt };

    ghost stands = { λ value _ list. value.number ≡ slice_index list 0 };
}

/// Sets the number, and computes for so many rounds.
#[derive(Clone, Copy)]
struct Set {
    number: u64,
    rounds: u64,
}

impl Act<Newest> for Set {
    ghost use Rattle.std.specs.Prelude.{[], ◌∷◌, ⊤};

    type Out = ();

    ghost adds = { λ act _ _ _. act.number ∷ [] };

    ghost answers = { λ _ _ _ _. ⊤ };

    ghost does = { λ _ _ _ _. ⊤ };

    fn act(self, value: &mut Newest) -> ((), u64) {
        value.mixed = mix(value.mixed, self.rounds);
        value.number = self.number;
        ((), 1)
    }
}

fn mix(seed: u64, rounds: u64) -> u64 {
    let mut mixed = seed;
    for _ in 0..rounds {
        mixed = mixed.wrapping_mul(6364136223846793005).wrapping_add(1);
    }
    mixed
}

fn take_turns<R: Wait>(
    rt: &R,
    turn: &Turn<Newest>,
    mut seat: Seat<Newest>,
    count: u64,
    rounds: u64,
) -> Seat<Newest>
    requires { IsSeatOf turn.now seat }
    ensures { IsSeatOf turn.entry.now result × (passes_of result ≡ passes_of seat) }
{
    for i in 0..count {
        turn.with(rt, &mut seat, Set { number: i, rounds });
    }
    seat
}

fn by_two<R: Threads + Wait + Sync>(
    rt: &R,
    turn: &Turn<Newest>,
    one: Seat<Newest>,
    other: Seat<Newest>,
    count: u64,
    rounds: u64,
) -> (Seat<Newest>, Seat<Newest>)
    requires { IsSeatOf turn.now one × IsSeatOf turn.now other }
    ensures { IsSeatOf turn.entry.now result.0 × IsSeatOf turn.entry.now result.1 }
{
    join(
        rt,
        move || -> Seat<Newest>
            requires { IsSeatOf turn.now one }
            ensures { IsSeatOf turn.entry.now result × (passes_of result ≡ passes_of one) }
        { take_turns(rt, turn, one, count, rounds) },
        move || -> Seat<Newest>
            requires { IsSeatOf turn.now other }
            ensures { IsSeatOf turn.entry.now result × (passes_of result ≡ passes_of other) }
        { take_turns(rt, turn, other, count, rounds) },
    )
}

fn by_four<R: Threads + Wait + Sync>(
    rt: &R,
    turn: &Turn<Newest>,
    mut seat: Seat<Newest>,
    count: u64,
    rounds: u64,
) -> Seat<Newest>
    requires { IsSeatOf turn.now seat × (4 ≤ passes_of seat) }
    ensures { IsSeatOf turn.entry.now result }
{
    let second = turn.split(&mut seat);
    let third = turn.split(&mut seat);
    let fourth = turn.split(&mut seat);
    let ((mut seat, second), (third, fourth)) = join(
        rt,
        move || -> (Seat<Newest>, Seat<Newest>)
            requires { IsSeatOf turn.now seat × IsSeatOf turn.now second }
            ensures { IsSeatOf turn.entry.now result.0 × IsSeatOf turn.entry.now result.1 }
        { by_two(rt, turn, seat, second, count, rounds) },
        move || -> (Seat<Newest>, Seat<Newest>)
            requires { IsSeatOf turn.now third × IsSeatOf turn.now fourth }
            ensures { IsSeatOf turn.entry.now result.0 × IsSeatOf turn.entry.now result.1 }
        { by_two(rt, turn, third, fourth, count, rounds) },
    );
    turn.join(&mut seat, second);
    turn.join(&mut seat, third);
    turn.join(&mut seat, fourth);
    seat
}

/// The nanoseconds of so many turns by one thread and by four.
fn measured<R: Threads + Wait + Clock + Sync>(
    rt: &R,
    alloc: Global,
    turns: u64,
    rounds: u64,
) -> io::Result<(u128, u128)> {
    let opened = Newest {
        number: 0,
        mixed: 1,
    };
    let Ok((turn, seat)) = Turn::new(alloc, opened, 4) else {
        return Err(io::ErrorKind::OutOfMemory.into());
    };
    let started = Instant::now(rt)?;
    let seat = take_turns(rt, &turn, seat, turns, rounds);
    let alone = started.elapsed(rt)?;
    let started = Instant::now(rt)?;
    let seat = by_four(rt, &turn, seat, turns / 4, rounds);
    let four = started.elapsed(rt)?;
    drop(turn.close(seat));
    Ok((alone.as_nanos(), four.as_nanos()))
}

fn main(rt: HostRuntime) -> io::Result<()> {
    let (alone, four) = measured(&rt, rt.alloc(), 2_000_000, 0)?;
    println!(rt; "{alone} {four}")?;
    let (alone, four) = measured(&rt, rt.alloc(), 100_000, 5_000)?;
    println!(rt; "{alone} {four}")?;
    Ok(())
}
RATTLE
(cd "$work/crates/turn_pace" && rt run > "$work/log" 2>&1) || { tail -20 "$work/log"; exit 1; }

if command -v rustc > "$work/which"; then
    cat > "$work/mutex.rs" <<'RUST'
use std::hint::black_box;
use std::sync::Mutex;
use std::time::Instant;

fn main() {
    let value = Mutex::new(0u64);
    let started = Instant::now();
    for i in 0..2_000_000u64 {
        *black_box(&value).lock().unwrap() = black_box(i);
    }
    println!("{}", started.elapsed().as_nanos());
}
RUST
    rustc -O -o "$work/mutex" "$work/mutex.rs"
fi

python3 - "$work" <<'PY'
import os, subprocess, sys
work = sys.argv[1]

def runs(command, times):
    outs = [subprocess.run(command, check=True, capture_output=True, text=True).stdout.split() for _ in range(times)]
    return [min(int(out[at]) for out in outs) for at in range(len(outs[0]))]

alone, four, long_alone, long_four = runs([f"{work}/crates/turn_pace/out/turn_pace"], 5)
print(f"a turn with one seat: {alone / 2_000_000:.1f} ns")
if os.path.exists(f"{work}/mutex"):
    mutex, = runs([f"{work}/mutex"], 5)
    print(f"a lock of std's Mutex: {mutex / 2_000_000:.1f} ns; a turn takes {alone / mutex:.2f} times as long")
else:
    print("no rustc: std's Mutex was not measured")
print(f"short acts by four threads: {four / 2_000_000:.1f} ns each, {alone / four:.2f} times as many turns in a second as by one")
print(f"long acts by one thread: {long_alone / 100_000:.0f} ns each; by four: {long_four / 100_000:.0f} ns, {long_alone / long_four:.2f} times as many turns in a second")
PY
