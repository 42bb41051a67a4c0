#!/usr/bin/env bash
# One table of `cds serve` beside other media servers, `minidlnad`, `gerbera` and `rygel`, where they are there, by hand and not by
# the gate. Each has the same library of 50,000 FLAC files, or as many as are asked for: at most 8,000 of them in one folder, the
# others in albums of 12. A server that has not looked at all of them after 20 minutes has no figures. Goals of `cds serve`:
# - processor time for a Browse of an album of 12 and of a page of 256: at most 0.4 of minidlna's, for GetSystemUpdateID at most it;
# - requests in a second of 4 clients: at least 3 times those of one on four processors; of 4 and of 16 with all processors taken by
#   others: at least as many as those of one;
# - memory at 50,000 tracks: at most 60 MiB at the peak, 40 afterwards.
# bench/peers.sh [TRACKS]. Needs bash, python3, `ab` for the clients, `flac` for files with sound, without which not every server takes
# them, and the program where it is built. CDS may name another program.
set -eu
top=$(cd "$(dirname "$0")/.." && pwd)
program=${CDS:-$top/crates/cds_cli/out/cds_cli}
work=$(mktemp -d)
trap 'rm -rf "$work"' EXIT

PYTHONPATH=$top/bench python3 -B - "$work" "$program" "${1:-50000}" <<'PY'
import http.client, multiprocessing, os, re, shutil, subprocess, sys, time
import servers
work, program, tracks = sys.argv[1], sys.argv[2], int(sys.argv[3])
flat = min(8000, tracks // 2)
TAKEN = "all processors taken"


# Waits until a server has the whole library and rests: the seconds from its start until it had it, and the id of its large folder.
def settled(server):
    folder, found = None, 0
    while time.perf_counter() - server.begun < 1200:
        folder = folder or server.find("flat")
        if folder and server.find(f"{last // 100:05}", f"{last:05}") and server.total(folder) == flat:
            found = found or time.perf_counter() - server.begun
            before = server.used()
            time.sleep(2)
            if server.used() - before < 0.1:
                return found, folder
        time.sleep(0.2)
    return None


# Requests for an album in a second, by so many clients.
def rate(server, album, clients):
    with open(f"{work}/body", "w") as file:
        file.write(servers.browse_body(server.version, album, 0, 0))
    words = ["ab", "-q", "-r", "-t", "4", "-n", "1000000", "-c", str(clients), "-p", f"{work}/body", "-T", 'text/xml; charset="utf-8"']
    words += ["-H", f'SOAPACTION: "{servers.SPACE}{server.version}#Browse"', f"http://{server.host}:{server.port}{server.path}"]
    said = subprocess.run(words, capture_output=True, text=True).stdout
    found = re.search(r"Requests per second:\s+([\d.]+)", said)
    return float(found.group(1)) if found else None


def spin():
    while True:
        pass


def rates(server, album):
    found = {f"requests a second, {clients} clients": rate(server, album, clients) for clients in (1, 4, 16)}
    others = [multiprocessing.Process(target=spin, daemon=True) for _ in range(os.cpu_count())]
    for other in others:
        other.start()
    found |= {f"the same, {TAKEN}, {clients} clients": rate(server, album, clients) for clients in (1, 4, 16)}
    for other in others:
        other.kill()
        other.join()
    return found


# The figures of a server by what they tell.
def figures(server):
    found = {"first answer, ms": server.first_answer() * 1000}
    there = settled(server)
    if there is None:
        return found
    seconds, folder = there
    found |= {"all tracks there, s": seconds, "scan of a track, us": server.used() / tracks * 1e6}
    found |= {"memory, MiB": server.memory("VmRSS"), "its peak, MiB": server.memory("VmHWM")}
    album = server.find("00000", "00001")
    first = server.cost(lambda: server.browse(folder, 0, 256), 200) * 1e6
    final = server.cost(lambda: server.browse(folder, max(0, flat - 256), 256), 200) * 1e6
    found |= {"album of 12, us": server.cost(lambda: server.browse(album), 1000) * 1e6, "page of 256, us": first, "last page against the first": final / first}
    found["GetSystemUpdateID, us"] = server.cost(server.number, 2000) * 1e6
    return found | (rates(server, album) if shutil.which("ab") else {})


root = f"{work}/music"
servers.fill(root, tracks, flat)
last = (tracks - flat - 1) // 12 + 1
makers = {"cds": ("true", lambda: servers.cds(program, root))}
makers |= {name: (needs, lambda make=make: make(work, root)) for name, needs, make in (("minidlna", "minidlnad", servers.minidlna), ("gerbera", "gerbera", servers.gerbera), ("rygel", "rygel", servers.rygel))}
table = {}
for name, (needs, make) in makers.items():
    if shutil.which(needs):
        server = make()
        try:
            table[name] = figures(server)
        except (OSError, ValueError, http.client.HTTPException) as fault:
            print(f"{name}: {fault!r}")
        server.finish()
print("| |", " | ".join(table), "|")
print("|---|" + "---|" * len(table))
for row in table["cds"]:
    told = (table[name].get(row) for name in table)
    print(f"| {row} |", " | ".join("-" if figure is None else f"{figure:.2f}" if figure < 10 else f"{figure:,.0f}" for figure in told), "|")
PY
