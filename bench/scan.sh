#!/usr/bin/env bash
# Figures of `cds scan`, by hand and not by the gate, on FLAC files of 8 KiB with comments, ten in a folder:
# - user time for a file against a C program of a few lines over libFLAC's metadata interface, made and built here, where
#   libflac-dev is there (goal: at most 3 times);
# - user time for a track against `minidlnad -R` on 2,500 of the files, where it is there (goal: at most a tenth);
# - peak memory at 10,000 files (goal: at most 30 MiB), and growth per doubling in user time and memory (goal: at most 2.1);
# - user time on a file of 500 MiB against one of 8 KiB with the same metadata (goal: no more).
# Needs bash, python3 and GNU time (/usr/bin/time), which tells the program's own peak memory.
set -eu
top=$(cd "$(dirname "$0")/.." && pwd)
program=$top/crates/cds_cli/out/cds_cli
work=$(mktemp -d)
trap 'rm -rf "$work"' EXIT

cat >"$work/read.c" <<'C'
#include <FLAC/metadata.h>
#include <ftw.h>
#include <stdio.h>
#include <string.h>

static int look(const char *path, const struct stat *stat, int kind, struct FTW *at) {
  size_t length = strlen(path);
  FLAC__StreamMetadata info, *tags;
  (void)at;
  if (kind != FTW_F || length < 5 || strcmp(path + length - 5, ".flac") != 0) return 0;
  if (!FLAC__metadata_get_streaminfo(path, &info) || !FLAC__metadata_get_tags(path, &tags)) return 0;
  printf("%s %lld %llu %u\n", path, (long long)stat->st_size, (unsigned long long)info.data.stream_info.total_samples,
         tags->data.vorbis_comment.num_comments);
  FLAC__metadata_object_delete(tags);
  return 0;
}

int main(int count, char **words) { return count == 2 ? nftw(words[1], look, 16, 0) : 2; }
C
peer=
if cc -O2 -o "$work/read" "$work/read.c" -lFLAC 2>/dev/null; then
  peer=$work/read
else
  echo "libflac-dev is not there, so nothing is compared with it"
fi

PYTHONPATH=$top/bench python3 -B - "$work" "$program" "$peer" <<'PY'
import os, shutil, struct, subprocess, sys, time
from measure import memory, once
work, program, peer = sys.argv[1:]

def block(kind, last, body):
    return bytes([kind | (128 if last else 0)]) + len(body).to_bytes(3, "big") + body

# STREAMINFO of 10 seconds at 44,100 Hz in two channels of 16 bits, and five comments.
def metadata(n):
    packed = (44100 << 44) | (1 << 41) | (15 << 36) | 441000
    info = struct.pack(">HH", 4096, 4096) + bytes(6) + packed.to_bytes(8, "big") + bytes(16)
    tags = [f"TITLE=Track {n}", f"ARTIST=Artist {n % 97}", f"ALBUM=Album {n // 10}", "GENRE=Ambient", f"TRACKNUMBER={n % 10 + 1}"]
    text = lambda s: struct.pack("<I", len(s)) + s.encode()
    return b"fLaC" + block(0, False, info) + block(4, True, text("bench") + struct.pack("<I", len(tags)) + b"".join(map(text, tags)))

def fill(folder, count):
    for n in range(count):
        if n % 10 == 0:
            os.makedirs(f"{folder}/{n // 10:04}")
        with open(f"{folder}/{n // 10:04}/{n % 10}.flac", "wb") as file:
            file.write(metadata(n).ljust(8192, b"\0"))

sizes = (2500, 5000, 10000)
for count in sizes:
    fill(f"{work}/of{count}", count)
for name, size in (("small", 8192), ("large", 500 << 20)):
    os.makedirs(f"{work}/{name}")
    with open(f"{work}/{name}/a.flac", "wb") as file:
        file.write(metadata(0))
        file.truncate(size)

# In turn, so that a machine whose pace changes is the same for all of them.
commands = [[program, "scan", f"{work}/of{count}"] for count in sizes] + [[program, "scan", f"{work}/{name}"] for name in ("small", "large")]
if peer:
    commands.append([peer, f"{work}/of{sizes[-1]}"])
times = [[] for _ in commands]
for _ in range(20):
    for command, taken in zip(commands, times):
        taken.append(once(command, "/dev/null")[1])
users = [sum(taken) / len(taken) for taken in times]

before = None
for count, command, user in zip(sizes, commands, users):
    most = min(memory(command, "/dev/null") for _ in range(3))
    grown = "" if before is None else f", {user / before[0]:.2f} times in user time, {most / before[1]:.2f} in memory"
    print(f"{count} files: {user * 1000:.0f} ms user, {user / count * 1e6:.1f} us a file, {most / 2**20:.1f} MiB at most{grown}")
    before = user, most
print(f"one file of 8 KiB: {users[3] * 1000:.1f} ms user; of 500 MiB: {users[4] * 1000:.1f} ms")
if peer:
    print(f"libFLAC on {sizes[-1]} files: {users[5] * 1000:.0f} ms user; cds scan takes {users[2] / users[5]:.2f} times that")

# User time until minidlnad says that it has looked at every file of a folder, with that of the process that does it.
def indexed(folder):
    for kept in ("db", "log"):
        os.makedirs(f"{work}/{kept}", exist_ok=True)
    with open(f"{work}/minidlna.conf", "w") as file:
        file.write(f"media_dir=A,{folder}\ndb_dir={work}/db\nlog_dir={work}/log\ninotify=no\nport=18200\nnetwork_interface=lo\n")
    command = ["minidlnad", "-d", "-R", "-f", f"{work}/minidlna.conf", "-P", f"{work}/minidlna.pid"]
    with subprocess.Popen(command, stdout=subprocess.PIPE, stderr=subprocess.STDOUT) as server:
        while (line := server.stdout.readline()) and b"finished" not in line:
            pass
        # Its process for the files ends by itself, and is waited for by the other.
        time.sleep(2)
        server.terminate()
        _, _, usage = os.wait4(server.pid, 0)
        server.returncode = 0
    return usage.ru_utime

if shutil.which("minidlnad"):
    each = indexed(f"{work}/of{sizes[0]}") / sizes[0]
    print(f"minidlnad -R on {sizes[0]} files: {each * 1e6:.0f} us user a track; cds scan takes {users[0] / sizes[0] / each:.3f} times that")
else:
    print("minidlnad is not there, so nothing is compared with it")
PY
