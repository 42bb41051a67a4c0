#!/usr/bin/env bash
# Figures of the files that `cds serve` sends, by hand and not by the gate, on one file of 500 MiB, or as many as are asked for.
# - throughput of a whole file to one client, and the processor time of the server for it, against `nginx` without sendfile and
#   against `minidlnad`, where they are there (goal: at least 0.8 of nginx's throughput, at most 1.5 times its processor time);
# - how much memory the server takes for each of two players (goal: below 256 KiB);
# - the time of a small Browse beside two players of 2 MiB a second (goal: at most 1.2 times its time alone). Each player is a process
#   of its own: as threads of the client they would take its processor from it, and not the server's. Rounds without players and with
#   them take turns, since the speed of a machine changes meanwhile.
# bench/media.sh [MEBIBYTES]. Needs bash, python3, and the program where it is built. CDS may name another program.
set -eu
top=$(cd "$(dirname "$0")/.." && pwd)
program=${CDS:-$top/crates/cds_cli/out/cds_cli}
work=$(mktemp -d)
trap 'rm -rf "$work"' EXIT

python3 -B - "$work" "$program" "${1:-500}" <<'PY'
import html, http.client, multiprocessing, os, re, shutil, socket, statistics, struct, subprocess, sys, time
work, program, size = sys.argv[1], sys.argv[2], int(sys.argv[3]) << 20
TICK = os.sysconf("SC_CLK_TCK")
RUNS = 7
SPACE = "urn:schemas-upnp-org:service:ContentDirectory:"


def block(kind, last, body):
    return bytes([kind | (128 if last else 0)]) + len(body).to_bytes(3, "big") + body


# A file whose tags are read; what follows them is no sound.
def fill(path):
    packed = (44100 << 44) | (1 << 41) | (15 << 36) | 441000
    info = struct.pack(">HH", 4096, 4096) + bytes(6) + packed.to_bytes(8, "big") + bytes(16)
    text = lambda s: struct.pack("<I", len(s)) + s.encode()
    piece = os.urandom(1 << 20)
    with open(path, "wb") as file:
        file.write(b"fLaC" + block(0, False, info) + block(4, True, text("bench") + struct.pack("<I", 1) + text("TITLE=Long")))
        while file.tell() < size:
            file.write(piece[: size - file.tell()])


def free_port():
    with socket.create_server(("127.0.0.1", 0)) as listener:
        return listener.getsockname()[1]


class Server:
    def __init__(self, command, port):
        self.process = subprocess.Popen(command, stdout=subprocess.DEVNULL, stderr=subprocess.DEVNULL)
        self.port = port

    # A Browse of a container by version 1 of the service, which every server here answers.
    def browse(self, path, ident):
        text = (
            '<?xml version="1.0"?><s:Envelope xmlns:s="http://schemas.xmlsoap.org/soap/envelope/" s:encodingStyle="http://schemas.xmlsoap.org/soap/encoding/">'
            f'<s:Body><u:Browse xmlns:u="{SPACE}1"><ObjectID>{ident}</ObjectID><BrowseFlag>BrowseDirectChildren</BrowseFlag><Filter>*</Filter>'
            "<StartingIndex>0</StartingIndex><RequestedCount>0</RequestedCount><SortCriteria></SortCriteria></u:Browse></s:Body></s:Envelope>"
        )
        peer = http.client.HTTPConnection("127.0.0.1", self.port, timeout=60)
        peer.request("POST", path, text, {"SOAPACTION": f'"{SPACE}1#Browse"', "CONTENT-TYPE": 'text/xml; charset="utf-8"'})
        reply = html.unescape(peer.getresponse().read().decode())
        peer.close()
        return reply

    # The target of the track, once it is there.
    def target(self, path, ident):
        while True:
            try:
                found = re.search(r"<res [^>]*>([^<]*)</res>", self.browse(path, ident))
                if found:
                    return re.sub(r"^http://[^/]*", "", found.group(1))
            except (OSError, http.client.HTTPException):
                pass
            time.sleep(0.1)

    # Processor seconds of the server and of its children. One of these may have ended.
    def used(self):
        seconds = 0
        for pid in [self.process.pid, *self.children()]:
            try:
                with open(f"/proc/{pid}/stat") as file:
                    fields = file.read().rsplit(")", 1)[1].split()
            except FileNotFoundError:
                continue
            seconds += (int(fields[11]) + int(fields[12])) / TICK
        return seconds

    def children(self):
        with open(f"/proc/{self.process.pid}/task/{self.process.pid}/children") as file:
            return file.read().split()

    def memory(self):
        with open(f"/proc/{self.process.pid}/status") as file:
            return int(re.search(r"VmRSS:\s+(\d+)", file.read()).group(1))

    # Takes a file, at this many bytes a second if it is not None. Returns how many came, with the head.
    def take(self, target, rate=None):
        came, buffer = 0, bytearray(1 << 18)
        with socket.create_connection(("127.0.0.1", self.port)) as peer:
            peer.sendall(f"GET {target} HTTP/1.1\r\nHOST: 127.0.0.1:{self.port}\r\nCONNECTION: close\r\n\r\n".encode())
            begun = time.perf_counter()
            while True:
                count = peer.recv_into(buffer)
                if count == 0:
                    return came
                came += count
                if rate:
                    time.sleep(max(0, begun + came / rate - time.perf_counter()))

    # MiB a second and processor seconds for the whole file.
    def pace(self, target):
        before, begun = self.used(), time.perf_counter()
        came = self.take(target)
        if came < size:
            raise ValueError(f"{came} bytes came of {target}")
        return size / (1 << 20) / (time.perf_counter() - begun), self.used() - before

    def finish(self):
        self.process.terminate()
        self.process.wait()


def nginx(root):
    port = free_port()
    with open(f"{work}/nginx.conf", "w") as file:
        file.write(
            f"daemon off; master_process off; pid {work}/nginx.pid; error_log /dev/null; events {{}}\n"
            f"http {{ access_log off; sendfile off; server {{ listen 127.0.0.1:{port}; root {root}; }} }}\n"
        )
    return Server(["nginx", "-p", work, "-c", f"{work}/nginx.conf"], port), "/long.flac"


def minidlna(root):
    port = free_port()
    for kept in ("db", "log"):
        os.makedirs(f"{work}/{kept}")
    with open(f"{work}/minidlna.conf", "w") as file:
        file.write(f"media_dir=A,{root}\ndb_dir={work}/db\nlog_dir={work}/log\ninotify=no\nport={port}\nnetwork_interface=lo\n")
    server = Server(["minidlnad", "-d", "-R", "-f", f"{work}/minidlna.conf", "-P", f"{work}/minidlna.pid"], port)
    return server, server.target("/ctl/ContentDir", "64")


def cds(root):
    port = free_port()
    server = Server([program, "serve", str(port), root, "4294967295"], port)
    return server, server.target("/control", "0")


# The milliseconds of each of some Browses.
def waits(server):
    taken = []
    for _ in range(200):
        begun = time.perf_counter()
        server.browse("/control", "0")
        taken.append((time.perf_counter() - begun) * 1000)
    return taken


# The same beside two players, and how much memory the server then has.
def waits_beside_players(server, target):
    players = [multiprocessing.Process(target=server.take, args=(target, 2 << 20)) for _ in range(2)]
    for player in players:
        player.start()
    time.sleep(1)
    memory = server.memory()
    taken = waits(server)
    for player in players:
        player.terminate()
        player.join()
    return taken, memory


root = f"{work}/music"
os.makedirs(root)
fill(f"{root}/long.flac")
with open(f"{root}/long.flac", "rb") as file:
    while file.read(1 << 20):
        pass
peers = {"cds": cds(root)}
if shutil.which("nginx"):
    peers["nginx"] = nginx(root)
if shutil.which("minidlnad"):
    peers["minidlna"] = minidlna(root)
time.sleep(1)

paces = {name: [] for name in peers}
for _ in range(RUNS):
    for name, (server, target) in peers.items():
        paces[name].append(server.pace(target))
middle = {name: [statistics.median(values) for values in zip(*runs)] for name, runs in paces.items()}
for name, (rate, used) in middle.items():
    print(f"{name}: {rate:.0f} MiB a second to one client, {used:.2f} s of its processors for {size >> 20} MiB")
for name in middle:
    if name != "cds":
        print(f"cds against {name}: {middle['cds'][0] / middle[name][0]:.2f} of its throughput, {middle['cds'][1] / max(middle[name][1], 1 / TICK):.2f} times its processor time")
for name, (server, _) in peers.items():
    if name != "cds":
        server.finish()

server, target = peers["cds"]
waits(server)
idle = server.memory()
rounds = [(waits(server), *waits_beside_players(server, target)) for _ in range(RUNS)]
alone = statistics.median(sum((taken for taken, _, _ in rounds), []))
beside = statistics.median(sum((taken for _, taken, _ in rounds), []))
each = (max(memory for _, _, memory in rounds) - idle) / 2
print(f"memory for each of two players: {each:.0f} KiB (goal: below 256)")
print(f"a Browse: {alone:.2f} ms alone, {beside:.2f} ms beside two players of 2 MiB a second, {beside / alone:.2f} times that (goal: at most 1.2)")
server.finish()
PY
