#!/usr/bin/env python3
"""Writes the script of a generated library on standard output.

Usage: bench/generate.py SEED TRACKS

It is an independent writing of what `cds_generate` defines, for comparison: the same library, scan by scan, with lost, late and
repeated notes and with new subscriptions. SEED is a number of 64 bits, TRACKS is 1 to 10000. `script_lines` also takes the number
of steps, which is 40 for a whole script.
"""

import signal
import sys

STEPS = 40


class Draws:
    """A linear congruential generator of 64 bits, from which the upper 31 are used."""

    def __init__(self, seed):
        self.x = seed

    def draw(self, n):
        self.x = (self.x * 6364136223846793005 + 1442695040888963407) % 2**64
        return (self.x >> 33) % n


def script_lines(seed, tracks, steps=STEPS):
    """Yields the lines of the script, without their line feeds."""
    draws = Draws(seed)
    folders = max(1, tracks * 3 // 40)
    version = [0] * tracks
    present = [True] * tracks
    late = None
    load_reads = 4 + 2 * (folders + 1 + (folders + tracks) // 256)

    yield "load"
    yield from ["read"] * 6
    yield from ["subscribe", "accept", "deliver 1"]
    sent = 1
    for step in range(1, steps + 1):
        if step > 1:
            version[0] += 1
            for _ in range(tracks // 50 + 1):
                track = draws.draw(tracks)
                kind = draws.draw(4)
                if kind == 0 and track != 0:
                    present[track] = not present[track]
                else:
                    version[track] += 1
        for folder in range(folders):
            yield f"folder f{folder}"
        for track in range(tracks):
            if present[track]:
                size = 1000000 + 1000 * track + version[track]
                yield f"track f{track % folders}/t{track}.flac {size} 44100 2 16 {441000 + track}"
                yield f"tag TITLE Title%20{track}"
        yield "scan"
        yield f"at {250 * step}"
        sent += 1
        old, late = late, None
        case = draws.draw(10)
        if case == 0:
            yield from ["unsubscribe", "subscribe", "accept"]
            sent += 1
            yield f"deliver {sent}"
            yield from ["read"] * load_reads
        elif case == 1:
            yield from [f"deliver {sent}"] * 2
        elif case == 2:
            late = sent
        else:
            yield f"deliver {sent}"
        if old is not None:
            yield f"deliver {old}"
        yield from ["read"] * (tracks + folders if step == 1 else 2 * (tracks // 50 + 2))
        if step % 10 == 0:
            yield "ask"
    if late is not None:
        yield f"deliver {late}"
    yield from ["read"] * (tracks + folders)
    yield "ask"


def main():
    signal.signal(signal.SIGPIPE, signal.SIG_DFL)
    seed, tracks = int(sys.argv[1]), int(sys.argv[2])
    if not 0 <= seed < 2**64 or not 1 <= tracks <= 10000:
        sys.exit("usage: bench/generate.py SEED TRACKS")
    for line in script_lines(seed, tracks):
        sys.stdout.write(line + "\n")


if __name__ == "__main__":
    main()
