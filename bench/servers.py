"""Libraries and media servers of the benchmarks that compare `cds serve` with others: how a folder of tracks is made, and how
a server is started, asked and measured. What a server takes counts all processes below the one that was started."""
import html, http.client, os, re, shutil, socket, struct, subprocess, time

TICK = os.sysconf("SC_CLK_TCK")
SPACE = "urn:schemas-upnp-org:service:ContentDirectory:"


def block(kind, last, body):
    return bytes([kind | (128 if last else 0)]) + len(body).to_bytes(3, "big") + body


# What a FLAC file of a tenth of a second of silence has in STREAMINFO, and its frames. Without the encoder: no frames.
def silence():
    if not shutil.which("flac"):
        packed = (44100 << 44) | (1 << 41) | (15 << 36) | 441000
        return struct.pack(">HH", 4096, 4096) + bytes(6) + packed.to_bytes(8, "big") + bytes(16), b""
    words = "flac -s -c --force-raw-format --endian=little --sign=signed --channels=2 --bps=16 --sample-rate=44100 -"
    made = subprocess.run(words.split(), input=bytes(4 * 4410), capture_output=True, check=True).stdout
    at, last = 4, False
    while not last:
        last, at = made[at] >= 128, at + 4 + int.from_bytes(made[at + 1 : at + 4], "big")
    return made[8:42], made[at:]


INFO, FRAMES = silence()


def track(n, album):
    tags = [f"TITLE=Track {n}", f"ARTIST=Artist {album % 97}", f"ALBUM=Album {album}", "GENRE=Ambient", f"TRACKNUMBER={n % 12 + 1}"]
    text = lambda s: struct.pack("<I", len(s)) + s.encode()
    comments = text("bench") + struct.pack("<I", len(tags)) + b"".join(map(text, tags))
    return b"fLaC" + block(0, False, INFO) + block(4, True, comments) + FRAMES


# Some tracks in the folder `flat`, and the others in albums of 12: folders `00000/00001` and on.
def fill(root, tracks, flat):
    os.makedirs(f"{root}/flat")
    for n in range(tracks):
        album = max(0, n - flat) // 12 + 1
        folder = f"{root}/flat" if n < flat else f"{root}/{album // 100:05}/{album:05}"
        os.makedirs(folder, exist_ok=True)
        with open(f"{folder}/{n:05}.flac", "wb") as file:
            file.write(track(n, 0 if n < flat else album))


def free_port():
    with socket.create_server(("127.0.0.1", 0)) as listener:
        return listener.getsockname()[1]


def envelope(inside):
    return (
        '<?xml version="1.0"?><s:Envelope xmlns:s="http://schemas.xmlsoap.org/soap/envelope/" s:encodingStyle="http://schemas.xmlsoap.org/soap/encoding/">'
        f"<s:Body>{inside}</s:Body></s:Envelope>"
    )


# A Browse, perhaps with something in the tag of the action, and a text after the arguments, which is skipped.
def browse_body(version, ident, start, count, tag="", beside=""):
    return envelope(
        f'<u:Browse xmlns:u="{SPACE}{version}"{tag}><ObjectID>{ident}</ObjectID><BrowseFlag>BrowseDirectChildren</BrowseFlag><Filter>*</Filter>'
        f"<StartingIndex>{start}</StartingIndex><RequestedCount>{count}</RequestedCount><SortCriteria></SortCriteria>{beside}</u:Browse>"
    )


class Server:
    """A server that was just started, with where its ContentDirectory is asked, and the titles that lead to its library."""

    def __init__(self, command, port, path, version=1, root="0", titles=(), host="127.0.0.1", **kept):
        self.begun = time.perf_counter()
        self.process = subprocess.Popen(command, stdout=subprocess.DEVNULL, stderr=subprocess.DEVNULL, **kept)
        self.host, self.port, self.path, self.version, self.root, self.titles = host, port, path, version, root, titles

    def ask(self, action, text, wait=60):
        peer = http.client.HTTPConnection(self.host, self.port, timeout=wait)
        fields = {"SOAPACTION": f'"{SPACE}{self.version}#{action}"', "CONTENT-TYPE": 'text/xml; charset="utf-8"'}
        peer.request("POST", self.path, text, fields)
        reply = peer.getresponse()
        text = reply.read().decode()
        peer.close()
        if reply.status != 200:
            raise ValueError(f"{reply.status} {text}")
        return text

    def browse(self, ident, start=0, count=0):
        return self.ask("Browse", browse_body(self.version, ident, start, count))

    # The number of the last change.
    def number(self):
        text = self.ask("GetSystemUpdateID", envelope(f'<u:GetSystemUpdateID xmlns:u="{SPACE}{self.version}"/>'))
        return int(re.search(r"<Id>(\d+)<", text).group(1))

    # The first answer to a Browse, once there is one: the seconds since the start.
    def first_answer(self):
        while True:
            try:
                self.browse(self.root)
                return time.perf_counter() - self.begun
            except (OSError, ValueError, http.client.HTTPException):
                time.sleep(0.005)

    # The id of what these titles lead to, or nothing where it is not there yet.
    def find(self, *titles):
        ident = self.root
        for title in (*self.titles, *titles):
            found = re.findall(r"<container ([^>]*)>.*?<dc:title>([^<]*)<", html.unescape(self.browse(ident)), re.DOTALL)
            ident = next((re.search(r'\bid="([^"]*)"', fields).group(1) for fields, named in found if html.unescape(named) == title), None)
            if ident is None:
                return None
        return ident

    def total(self, ident):
        return int(re.search(r"<TotalMatches>(\d+)<", self.browse(ident, 0, 1)).group(1))

    # Itself and all processes below it.
    def processes(self):
        below = [str(self.process.pid)]
        for pid in below:
            try:
                for task in os.listdir(f"/proc/{pid}/task"):
                    with open(f"/proc/{pid}/task/{task}/children") as file:
                        below += file.read().split()
            except OSError:
                pass
        return below

    # Its processor seconds up to now, with those of its children that ended.
    def used(self):
        total = 0
        for pid in self.processes():
            try:
                with open(f"/proc/{pid}/stat") as file:
                    total += sum(map(int, file.read().rsplit(")", 1)[1].split()[11:15]))
            except OSError:
                pass
        return total / TICK

    # MiB of its memory: now (`VmRSS`), or at the most (`VmHWM`).
    def memory(self, kind):
        total = 0
        for pid in self.processes():
            try:
                with open(f"/proc/{pid}/status") as file:
                    total += int((re.search(rf"{kind}:\s+(\d+)", file.read()) or [0, 0])[1])
            except OSError:
                pass
        return total / 1024

    # Its processor seconds for one such call.
    def cost(self, call, times):
        before = self.used()
        for _ in range(times):
            call()
        return (self.used() - before) / times

    def finish(self):
        for pid in reversed(self.processes()):
            subprocess.run(["kill", "-9", pid], stderr=subprocess.DEVNULL)
        self.process.wait()


def cds(program, root):
    port = free_port()
    return Server([program, "serve", str(port), root, "4294967295"], port, "/control", 4)


def minidlna(work, root):
    port = free_port()
    for kept in ("db", "log"):
        os.makedirs(f"{work}/{kept}")
    with open(f"{work}/minidlna.conf", "w") as file:
        file.write(f"media_dir=A,{root}\ndb_dir={work}/db\nlog_dir={work}/log\ninotify=no\nport={port}\nnetwork_interface=lo\n")
    command = ["minidlnad", "-d", "-R", "-f", f"{work}/minidlna.conf", "-P", f"{work}/minidlna.pid"]
    return Server(command, port, "/ctl/ContentDir", root="64")


# It takes no address of loopback: the one by which this machine would go out, and a port of 49152 or more.
def gerbera(work, root):
    with socket.socket(socket.AF_INET, socket.SOCK_DGRAM) as out:
        out.connect(("192.0.2.1", 9))
        host = out.getsockname()[0]
    port = 49152 + free_port() % 16384
    os.makedirs(f"{work}/gerbera")
    command = ["gerbera", "-i", host, "-p", str(port), "-m", f"{work}/gerbera", "-f", "kept", "-a", root]
    return Server(command, port, "/upnp/control/cds", titles=("PC Directory", *root.strip("/").split("/")), host=host)


def rygel(work, root):
    port = free_port()
    command = ["dbus-run-session", "--", "rygel", "-n", "lo", "-p", str(port), "-t", "-o", f"MediaExport:uris:{root}"]
    kept = dict(os.environ, XDG_CACHE_HOME=f"{work}/cache", XDG_CONFIG_HOME=f"{work}/config", HOME=work)
    titles = ("Files & Folders", os.path.basename(root))
    return Server(command, port, "/Control/MediaExport/RygelContentDirectory", titles=titles, env=kept)
