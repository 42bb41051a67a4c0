"""Bad neighbours on loopback: .ci/neighbours.py PROGRAM [WORD..]. Runs `serve` beside clients and subscribers that are slow, silent
or broken, with bodies that are hard to read, and over folders that are missing or partly unreadable. Writes a line for each case:
what was wanted, and what came. Several run at a time; one that fails is tried again by itself, twice. Ends with 0 if all came as it
must. With WORDs, only the cases run whose names hold one of them."""

import html
import http.client
import multiprocessing
import os
import re
import select
import shutil
import signal
import socket
import struct
import subprocess
import sys
import tempfile
import threading
import time

ENVELOPE = (
    '<s:Envelope xmlns:s="http://schemas.xmlsoap.org/soap/envelope/"><s:Body>{}</s:Body></s:Envelope>'
)
SERVICE = "urn:schemas-upnp-org:service:ContentDirectory:4"
NUMBER = ENVELOPE.format(f'<u:GetSystemUpdateID xmlns:u="{SERVICE}"/>').encode()
MUSIC = os.path.join(os.path.dirname(os.path.abspath(__file__)), "../examples/music")
# (the tests of folders that may not be read need a user that is not root)
NOBODY = 65534 if os.geteuid() == 0 else None
# how many cases run at a time
SIDE_BY_SIDE = 8
program = ""


def browse(object_id="0", names="*", more="", tag=""):
    """The body of a Browse with this ObjectID and Filter, with more arguments, and with this in the tag of the action."""
    return ENVELOPE.format(
        f'<u:Browse xmlns:u="{SERVICE}"{tag}><ObjectID>{object_id}</ObjectID><BrowseFlag>BrowseDirectChildren</BrowseFlag>'
        f"<Filter>{names}</Filter><StartingIndex>0</StartingIndex><RequestedCount>0</RequestedCount><SortCriteria></SortCriteria>"
        f"{more}</u:Browse>"
    ).encode()


def message(action="GetSystemUpdateID", body=NUMBER, more=""):
    head = f'POST /control HTTP/1.1\r\nHOST: a\r\nSOAPACTION: "{SERVICE}#{action}"\r\n{more}'
    return f"{head}CONTENT-LENGTH: {len(body)}\r\n\r\n".encode() + body


def connect(port, source="127.0.0.1"):
    return socket.create_connection(("127.0.0.1", port), 5, (source, 0))


def answer(client, wait=10.0):
    """All that comes up to the end."""
    client.settimeout(wait)
    got = b""
    try:
        while piece := client.recv(65536):
            got += piece
    except (TimeoutError, ConnectionError):
        pass
    return got


def ask(port, bytes_=None, source="127.0.0.1", wait=10.0):
    """The status of the answer, or 0, and the seconds that it took."""
    begun = time.monotonic()
    try:
        with connect(port, source) as client:
            client.sendall(message() if bytes_ is None else bytes_)
            return status_of(answer(client, wait)), time.monotonic() - begun
    except OSError:
        return 0, time.monotonic() - begun


def status_of(reply):
    return int(reply[9:12]) if reply.startswith(b"HTTP/1.1 ") else 0


def inside(reply, name):
    """The number in the element of this name, or 0."""
    return int(reply.partition(b"<%s>" % name)[2].partition(b"<")[0] or 0)


def until(is_so, wait):
    """Waits until something is so, and says whether it is."""
    end = time.monotonic() + wait
    while not is_so():
        if time.monotonic() > end:
            return False
        time.sleep(0.05)
    return True


class Server:
    """A server of a folder of its own, which holds a copy of the example, and more tracks."""

    def __init__(self, user=None, tracks=0):
        self.folder = tempfile.mkdtemp()
        os.chmod(self.folder, 0o755)
        shutil.copytree(MUSIC, self.folder, dirs_exist_ok=True, symlinks=True)
        for at in range(tracks):
            os.link(f"{self.folder}/plain.FLAC", f"{self.folder}/{at}.flac")
        with socket.create_server(("127.0.0.1", 0)) as free:
            self.port = free.getsockname()[1]
        self.user = user
        self.process = None

    def start(self):
        self.process = subprocess.Popen(
            [program, "serve", str(self.port), self.folder, "4294967295"],
            stdout=subprocess.PIPE,
            stderr=subprocess.DEVNULL,
            user=self.user,
        )
        if not self.process.stdout.readline().startswith(b"serving"):
            raise RuntimeError(f"serve did not begin: status {self.process.wait()}")
        return self

    def __enter__(self):
        return self.start()

    def __exit__(self, *_):
        self.process.kill()
        self.process.wait()
        subprocess.run(["chmod", "-R", "u+rwx", self.folder], check=False)
        shutil.rmtree(self.folder, ignore_errors=True)

    def children(self, wait=5.0):
        """How many objects the root shows, once it shows any."""
        end = time.monotonic() + wait
        while True:
            count = inside(self.reply(message("Browse", browse())), b"TotalMatches")
            if count or time.monotonic() > end:
                return count
            time.sleep(0.2)

    def number(self):
        """The number of the last change."""
        return inside(self.reply(message()), b"Id")

    def reply(self, text):
        with connect(self.port) as client:
            client.sendall(text)
            return answer(client)

    def add(self, name):
        """Adds a track. It is there after the next scan, which comes within ten seconds."""
        shutil.copyfile(f"{MUSIC}/plain.FLAC", f"{self.folder}/{name}.flac")


def trickle(clients, stop, text, pause):
    """Sends a byte to each of some connections, again and again."""
    at = 0
    while not stop.wait(pause):
        for client in clients:
            try:
                client.send(text[at % len(text) : at % len(text) + 1])
            except OSError:
                pass
        at += 1


def beside_slow(count, others, seconds=8, lead=b""):
    """The longest wait of a request beside so many clients that send a byte a second."""
    with Server() as server:
        server.children()
        clients = [connect(server.port) for _ in range(count)]
        for client in clients:
            client.settimeout(1)
            client.sendall(lead)
        stop = threading.Event()
        threading.Thread(target=trickle, args=(clients, stop, b"GET / HTTP/1.1", 1), daemon=True).start()
        time.sleep(1.5)
        worst, end = 0.0, time.monotonic() + seconds
        while time.monotonic() < end:
            status, took = ask(server.port, source=others, wait=30)
            worst = max(worst, took if status == 200 else 99)
            time.sleep(0.3)
        stop.set()
        for client in clients:
            client.close()
    return round(worst, 1)


def byte_by_byte(count):
    """How many are answered of so many clients that send a request at once, each a byte at a time, and the longest wait of a request
    beside them. The lobby has room for 256, and each request of another address takes the room of one."""
    with Server() as server:
        server.children()
        clients = [connect(server.port) for _ in range(count)]
        for client in clients:
            client.setsockopt(socket.IPPROTO_TCP, socket.TCP_NODELAY, 1)
        spelling = threading.Thread(target=spell, args=(clients, message()), daemon=True)
        spelling.start()
        worst = 0.0
        for _ in range(20):
            status, took = ask(server.port, source="127.0.0.2")
            worst = max(worst, took if status == 200 else 99)
            spelling.join(0.2)
        spelling.join()
        end = time.monotonic() + 10
        replies = [answer(client, max(0.05, end - time.monotonic())) for client in clients]
        return [sum(status_of(reply) == 200 for reply in replies), round(worst, 1)]


def spell(clients, text):
    """Sends a text to each of some connections, a byte at a time."""
    for at in range(len(text)):
        for client in clients:
            try:
                client.send(text[at : at + 1])
            except OSError:
                pass


def heavy(bodies, tracks=0, wait=6):
    """What requests with these bodies are answered, one after another: the status, or the code of the fault. Then of the slowest its
    seconds and the longest wait of a small request beside it, and by how many MiB the peak of memory grew."""
    with Server(tracks=tracks) as server:
        server.children()
        for _ in range(30):
            ask(server.port)
        before = peak(server.process.pid)
        came, slowest = [], (0.0, 0.0)
        for body in bodies:
            code, took, waited = with_small(server, message("Browse", body), wait)
            came.append(code)
            slowest = max(slowest, (round(took, 2), round(waited, 2)))
            if not code:
                break
        return [came, *slowest, round(peak(server.process.pid) - before)]


def with_small(server, text, wait):
    """What a request is answered, its seconds, and the longest wait of a small request meanwhile."""
    came = []
    begun = time.monotonic()
    asking = threading.Thread(target=lambda: came.append(code_of(server, text, wait)), daemon=True)
    asking.start()
    worst = 0.0
    while asking.is_alive():
        status, took = ask(server.port, source="127.0.0.2", wait=wait)
        worst = max(worst, took if status == 200 else 99)
        asking.join(0.01)
    return came[0], time.monotonic() - begun, worst


def code_of(server, text, wait):
    """The status of the answer, or the code of its fault, or 0."""
    try:
        with connect(server.port) as client:
            client.sendall(text)
            reply = answer(client, wait)
    except OSError:
        return 0
    return inside(reply, b"errorCode") or status_of(reply)


def tags(form, count):
    """Attributes of this form, with a number in each."""
    return "".join(form.replace("N", str(at)) for at in range(count))


def half_closed():
    """The statuses of a whole and of a cut request after which the client ends its side."""
    got = []
    with Server() as server:
        for text in (message(), message()[:40]):
            with connect(server.port) as client:
                client.sendall(text)
                client.shutdown(socket.SHUT_WR)
                got.append(status_of(answer(client)))
    return got


def closers():
    """The status of a request after 330 clients that closed without reading, half of them with a reset, 30 of them a long page."""
    with Server(tracks=3000) as server:
        server.children()
        for at in range(330):
            client = connect(server.port)
            client.sendall(message() if at % 11 else message("Browse", browse()))
            if at % 11 == 0:
                time.sleep(0.02)
            if at % 2:
                reset(client)
            client.close()
        return ask(server.port)[0]


def reset(client):
    """Has the connection end with a reset when it is closed."""
    client.setsockopt(socket.SOL_SOCKET, socket.SO_LINGER, struct.pack("ii", 1, 0))


def expecting():
    """The status for a client that waits a second for `100 Continue`."""
    with Server() as server, connect(server.port) as client:
        head, _, body = message(more="EXPECT: 100-continue\r\n").partition(b"\r\n\r\n")
        client.sendall(head + b"\r\n\r\n")
        time.sleep(1)
        client.sendall(body)
        return status_of(answer(client))


def pieces():
    """The statuses of messages that come in pieces, of chunks, of refused ones, and of one that is too long."""
    chunks = b"".join(b"%x\r\n%s\r\n" % (len(NUMBER[at : at + 50]), NUMBER[at : at + 50]) for at in range(0, len(NUMBER), 50))
    head = message().partition(b"CONTENT-LENGTH")[0]
    rows = [
        head + b"TRANSFER-ENCODING: chunked\r\n\r\n" + chunks + b"0\r\n\r\n",
        head + b"TRANSFER-ENCODING: chunked\r\n\r\nzz\r\n",
        head + b"CONTENT-LENGTH: 1\r\nCONTENT-LENGTH: 1\r\n\r\n",
        head + b"CONTENT-LENGTH: 99999999\r\n\r\n",
        b"\r\n\r\n" + message(),
        b"bad\r\n\r\n",
        b"GET /" + b"a" * 17000,
        message(body=NUMBER + b" " * 70_000),
        b"GET /nothing HTTP/1.1\n\n",
    ]
    got = []
    with Server() as server:
        server.children()
        for text in rows:
            with connect(server.port) as client:
                client.settimeout(3)
                for at in range(0, len(text), max(1, len(text) // 7)):
                    try:
                        client.sendall(text[at : at + max(1, len(text) // 7)])
                    except OSError:
                        break
                    time.sleep(0.01)
                got.append(status_of(answer(client)))
    return got


def stopped():
    """The status of a request in whose middle the server is stopped and goes on, before and after it is handed over."""
    got = []
    with Server() as server:
        server.children()
        for text in (message(), message(body=NUMBER + b" " * 200_000)):
            with connect(server.port) as client:
                client.sendall(text[:100_000] if len(text) > 100_000 else text[:50])
                time.sleep(0.5)
                server.process.send_signal(signal.SIGSTOP)
                time.sleep(0.3)
                server.process.send_signal(signal.SIGCONT)
                time.sleep(0.3)
                client.sendall(text[100_000:] if len(text) > 100_000 else text[50:])
                got.append(status_of(answer(client)))
        return got


class Callback:
    """A subscriber that treats its notes in some way."""

    def __init__(self, how):
        self.how = how
        self.listener = socket.create_server(("127.0.0.1", 0), backlog=0 if how == "gone" else 100)
        self.port = self.listener.getsockname()[1]
        self.notes = []
        self.kept = []
        if how == "gone":
            # (its one place is taken, so whoever connects has no answer, as from a device that is switched off)
            self.kept.append(connect(self.port))
        else:
            threading.Thread(target=self.serve, daemon=True).start()

    def serve(self):
        while True:
            try:
                peer, _ = self.listener.accept()
            except OSError:
                return
            threading.Thread(target=self.take, args=(peer,), daemon=True).start()

    def take(self, peer):
        if self.how == "closes":
            peer.close()
            return
        if self.how == "resets":
            reset(peer)
            peer.close()
            return
        got = whole_note(peer)
        if not got:
            return
        self.notes.append((time.monotonic(), got))
        if self.how == "lives" or (self.how == "dies" and len(self.notes) == 1):
            peer.sendall(b"HTTP/1.1 200 OK\r\nCONTENT-LENGTH: 0\r\n\r\n")
            peer.close()
        elif self.how == "stays open":
            peer.sendall(b"HTTP/1.1 200 OK\r\nCONTENT-LENGTH: 0\r\n\r\n")
            self.kept.append(peer)
        elif self.how == "bare":
            peer.sendall(b"HTTP/1.1 200 OK\r\n\r\n")
            self.kept.append(peer)
        elif self.how == "slow":
            for byte in b"HTTP/1.1 200 OK\r\nCONTENT-LENGTH: 0\r\n\r\n":
                try:
                    peer.send(bytes([byte]))
                except OSError:
                    return
                time.sleep(0.5)
        else:
            self.kept.append(peer)


def whole_note(peer):
    """The note that comes, or nothing if it is cut off."""
    got = b""
    while b"\r\n\r\n" not in got or len(got.partition(b"\r\n\r\n")[2]) < length_of(got):
        piece = peer.recv(65536)
        if not piece:
            return b""
        got += piece
    return got


def length_of(got):
    for line in got.partition(b"\r\n\r\n")[0].split(b"\r\n"):
        if line.upper().startswith(b"CONTENT-LENGTH:"):
            return int(line.split(b":")[1])
    return 0


def subscription(port):
    """A request for notes at a port."""
    head = f"SUBSCRIBE /event HTTP/1.1\r\nHOST: a\r\nCALLBACK: <http://127.0.0.1:{port}/>\r\nNT: upnp:event\r\n"
    return f"{head}CONTENT-LENGTH: 0\r\n\r\n".encode()


def subscribe(server, callback):
    """Subscribes, and waits for the reply. A server that keeps others waiting may not give one."""
    client = http.client.HTTPConnection("127.0.0.1", server.port, timeout=60)
    headers = {"CALLBACK": f"<http://127.0.0.1:{callback.port}/>", "NT": "upnp:event", "TIMEOUT": "Second-1800"}
    try:
        client.request("SUBSCRIBE", "/event", headers=headers)
        client.getresponse()
    except OSError:
        pass


def subscribe_all(server, callbacks):
    """Subscribes them side by side."""
    threads = [threading.Thread(target=subscribe, args=(server, one)) for one in callbacks]
    for thread in threads:
        thread.start()
    for thread in threads:
        thread.join()


def first_scan(server):
    """Waits until the first scan was taken and its notes are due no more."""
    server.children()
    time.sleep(0.5)


def note_beside(how, count):
    """By how many seconds the last of three living subscribers has the note of a new file after the first, of which the first came
    before `count` others that treat their notes so, and the last after them. A file is added after the subscriptions."""
    with Server() as server:
        first_scan(server)
        living = [Callback("lives") for _ in range(2)]
        others = [Callback(how) for _ in range(count)]
        subscribe(server, living[0])
        subscribe_all(server, others)
        subscribe(server, living[1])
        until(lambda: living[0].notes and living[1].notes, 60)
        server.add("added")
        if not until(lambda: len(living[0].notes) > 1 and len(living[1].notes) > 1, 60):
            return 99
        return round(living[1].notes[1][0] - living[0].notes[1][0], 1)


def note_after(hows, count):
    """By how many seconds a living subscriber has the note of a new file after the server counted it. `count` others came before,
    and treat their notes in these ways by turns. The file is added once all first notes are over."""
    with Server() as server:
        first_scan(server)
        subscribe_all(server, [Callback(hows[at % len(hows)]) for at in range(count)])
        living = Callback("lives")
        subscribe(server, living)
        until(lambda: living.notes, 60)
        time.sleep(2.5)
        number = server.number()
        server.add("added")
        asked, end = time.monotonic(), time.monotonic() + 30
        while server.number() == number and time.monotonic() < end:
            time.sleep(0.05)
            asked = time.monotonic()
        if not until(lambda: len(living.notes) > 1, 10):
            return 99
        return round(living.notes[1][0] - asked, 1)


def end_before_note():
    """How many of 5 subscribers see the end of the reply within a second, how many see it before their first note comes, and to how
    many that note comes within a second. They take it only after they read the reply to its end."""
    ended = before = soon = 0
    with Server() as server:
        first_scan(server)
        for _ in range(5):
            with socket.create_server(("127.0.0.1", 0)) as listener, connect(server.port) as client:
                begun = time.monotonic()
                client.sendall(subscription(listener.getsockname()[1]))
                status = status_of(answer(client, 5))
                ended += status == 200 and time.monotonic() < begun + 1
                before += not select.select([listener], [], [], 0)[0]
                soon += bool(select.select([listener], [], [], 1)[0])
                listener.settimeout(5)
                with listener.accept()[0] as peer:
                    whole_note(peer)
                    peer.sendall(b"HTTP/1.1 200 OK\r\nCONTENT-LENGTH: 0\r\n\r\n")
    return [ended, before, soon]


def behind_dead(count):
    """The seconds of a request whose bytes come a second after its connection, behind so many subscribers that never answer."""
    with Server() as server, connect(server.port, "127.0.0.2") as client:
        first_scan(server)
        others = [Callback("silent") for _ in range(count)]
        threading.Thread(target=subscribe_all, args=(server, others), daemon=True).start()
        time.sleep(1)
        begun = time.monotonic()
        client.sendall(message())
        return round(time.monotonic() - begun, 1) if status_of(answer(client, 40)) == 200 else 99


def twice(how):
    """How many notes a subscriber had that treats them so, after two changes."""
    with Server() as server:
        first_scan(server)
        one = Callback(how)
        subscribe(server, one)
        for name in ("b1", "b2"):
            time.sleep(1)
            server.add(name)
            time.sleep(11)
        return len(one.notes)


def ended(folder, user=None, port=None):
    """The status of `serve` of a folder, or -1 if it goes on."""
    if port is None:
        with socket.create_server(("127.0.0.1", 0)) as free:
            port = free.getsockname()[1]
    process = subprocess.Popen(
        [program, "serve", str(port), folder, "4294967295"], stdout=subprocess.DEVNULL, stderr=subprocess.DEVNULL, user=user
    )
    try:
        return process.wait(2)
    except subprocess.TimeoutExpired:
        process.kill()
        process.wait()
        return -1


def bad_folders():
    """The statuses of a folder that is missing, that is a file, and that may not be read, and of a port in use."""
    room = tempfile.mkdtemp()
    os.chmod(room, 0o755)
    locked = f"{room}/locked"
    os.mkdir(locked, 0o000)
    with open(f"{room}/file", "w", encoding="ascii"):
        pass
    with socket.create_server(("0.0.0.0", 0)) as used:
        got = [
            ended(f"{room}/missing"),
            ended(f"{room}/file"),
            ended(locked, NOBODY),
            ended(MUSIC, port=used.getsockname()[1]),
        ]
    shutil.rmtree(room)
    return got


def listed(spoil, user=None):
    """How many objects the root shows of the example after it was spoilt."""
    server = Server(user)
    spoil(server.folder)
    with server:
        return server.children(2)


def lost_found(folder):
    os.mkdir(f"{folder}/lost+found", 0o000)


def no_search(folder):
    os.mkdir(f"{folder}/half")
    shutil.copyfile(f"{MUSIC}/plain.FLAC", f"{folder}/half/a.flac")
    os.chmod(f"{folder}/half", 0o444)
    os.mkdir(f"{folder}/.locked", 0o000)
    os.symlink(".locked/a.flac", f"{folder}/secret.flac")


def latin(folder):
    with open(os.fsencode(folder) + b"/caf\xe9.jpg", "wb"):
        pass


def latin_folder(folder):
    os.mkdir(os.fsencode(folder) + b"/Bj\xf6rk")


def hidden(folder):
    for name in (".Trash-1000", "@eaDir", "._Slow"):
        os.mkdir(f"{folder}/{name}")
    for name in ("._plain.flac", ".hidden.flac", ".DS_Store"):
        shutil.copyfile(f"{MUSIC}/plain.FLAC", f"{folder}/{name}")


def put_back():
    """What the root shows before its folder is removed, while it is gone, and after it is back."""
    with Server() as server:
        got = [server.children()]
        shutil.move(server.folder, server.folder + ".away")
        time.sleep(11)
        got.append(server.children())
        shutil.move(server.folder + ".away", server.folder)
        time.sleep(11)
        got.append(server.children())
        return got


def beside_players(count):
    """The longest wait of a request beside so many players that take nothing of a large file, and four more: two send an empty line
    before their request, and two a body that never ends."""
    server = Server()
    os.truncate(f"{server.folder}/plain.FLAC", 64 << 20)
    with server:
        server.children()
        rows = html.unescape(server.reply(message("Browse", browse())).decode())
        target = re.search(r'<res [^>]*size="67108864"[^>]*>http://[^/]*(/media/[0-9]+)<', rows).group(1)
        head = f"GET {target} HTTP/1.1\r\nHOST: a\r\n".encode()
        clients = []
        plain, late = head + b"\r\n", b"\r\n" + head + b"\r\n"
        for text in [late, head + b"CONTENT-LENGTH: 70000\r\n\r\n" + b" " * 66_000] * 2 + [plain] * count:
            clients.append(connect(server.port))
            clients[-1].sendall(text)
        time.sleep(1)
        worst, end = 0.0, time.monotonic() + 4
        while time.monotonic() < end:
            status, took = ask(server.port, wait=30)
            worst = max(worst, took if status == 200 else 99)
            time.sleep(0.2)
        for client in clients:
            client.close()
    return round(worst, 1)


def ends_on_term():
    """What a server ends with on SIGTERM."""
    with Server() as server:
        server.children()
        server.process.terminate()
        return server.process.wait(5)


def room_after():
    """By how much descriptors and MiB of memory grew over a thousand connections of all kinds."""
    chunks = message().partition(b"CONTENT-LENGTH")[0] + b"TRANSFER-ENCODING: chunked\r\n\r\n%x\r\n%s\r\n0\r\n\r\n"
    kinds = [
        message(),
        message()[:30],
        b"",
        b"bad\r\n\r\n",
        chunks % (len(NUMBER), NUMBER),
        message("Browse", browse()),
        message(body=NUMBER + b" " * 200_000)[:100_000],
        subscription(9),
        b"GET /nothing HTTP/1.1\r\n\r\n",
    ]
    with Server() as server:
        server.children()
        for text in kinds:
            ask(server.port, text, wait=0.1)
        before = descriptors(server.process.pid), peak(server.process.pid)
        for at in range(1000):
            connect_and_end(server, kinds[at % len(kinds)], at % 4)
        ask(server.port)
        until(lambda: descriptors(server.process.pid) <= before[0], 5)
        return [descriptors(server.process.pid) - before[0], round(peak(server.process.pid) - before[1])]


def connect_and_end(server, text, end):
    """Sends a text, and ends the connection in one of four ways."""
    with connect(server.port) as client:
        client.settimeout(0.02)
        try:
            client.sendall(text)
            if end == 0:
                client.shutdown(socket.SHUT_WR)
            if end < 2:
                client.recv(1000)
            if end == 3:
                reset(client)
        except OSError:
            pass


def descriptors(process):
    """How many descriptors a process has, apart from a file that a scan reads just now."""
    least = []
    for _ in range(5):
        least.append(len(os.listdir(f"/proc/{process}/fd")))
        time.sleep(0.02)
    return min(least)


def peak(process):
    """The peak memory of a process in MiB."""
    with open(f"/proc/{process}/status", encoding="ascii") as lines:
        return next(int(line.split()[1]) for line in lines if line.startswith("VmHWM")) / 1024


def at_most(limit):
    return f"at most {limit}", lambda got: got <= limit


def exactly(wanted):
    return str(wanted), lambda got: got == wanted


def at_least(wanted):
    return f"at least {wanted}", lambda got: all(one >= least for one, least in zip(got, wanted))


def no_more(limits):
    return f"at most {limits}", lambda got: all(one <= most for one, most in zip(got, limits))


def answered(count, limit):
    return f"at least {count}; at most {limit} s beside", lambda got: got[0] >= count and got[1] <= limit


def codes(wanted, mebibytes, seconds=5):
    """These statuses or codes, each in time, with so much memory: four times the body and 64 MiB. A small request beside does not wait
    until one that takes long is read."""
    return (
        f"{wanted}; at most {seconds} s, half of that beside, {mebibytes} MiB more",
        lambda got: got[0] == wanted and got[1] <= seconds and got[2] <= max(0.2, got[1] / 2) and got[3] <= mebibytes,
    )


# (the last cases take longest, and begin first)
CASES = [
    (
        "a million elements in an argument: code, seconds, and beside, MiB",
        codes([200], 79),
        lambda: heavy([browse("0" + "<a/>" * 1_000_000)]),
    ),
    (
        "a thousand nested, a thousand repeated arguments",
        codes([400, 402], 64),
        lambda: heavy([browse("<ObjectID>" * 1000 + "0" + "</ObjectID>" * 1000), browse(more="<ObjectID>0</ObjectID>" * 1000)]),
    ),
    (
        "64 arguments of 1 MiB",
        codes([402], 320, 10),
        lambda: heavy([browse(more=f"<Filter>{'a' * 1_048_500}</Filter>" * 64)], wait=12),
    ),
    (
        "100,000 attributes in a tag, without and with a prefix",
        codes([200, 200], 69),
        lambda: heavy([browse(tag=tags(' aN="x"', 100_000)), browse(tag=tags(' u:aN="x"', 100_000))]),
    ),
    (
        "100,000 `xmlns:` in a tag, and 50,000 that are used",
        codes([200, 200], 73),
        lambda: heavy([browse(tag=tags(' xmlns:n-N="x"', 100_000)), browse(tag=tags(' xmlns:n-N="N" n-N:a="x"', 50_000))]),
    ),
    (
        "500,000 elements in a tag of 50,000 `xmlns:`",
        codes([200], 76),
        lambda: heavy([browse("0" + "<a/>" * 500_000, tag=tags(' xmlns:n-N="x"', 50_000))]),
    ),
    (
        "200,000 elements of a long namespace, and 50,000 with two that are alike but for their ends",
        codes([200, 200], 73),
        lambda: heavy(
            [
                browse("0" + "<n:a/>" * 200_000, tag=f' xmlns:n="{"u" * 1_000_000}"'),
                browse("0" + '<a p:x="" q:x=""/>' * 50_000, tag=f' xmlns:p="{"u" * 500_000}p" xmlns:q="{"u" * 500_000}q"'),
            ]
        ),
    ),
    (
        "a Filter of 200,000 names on 3,000 tracks",
        codes([200], 74),
        lambda: heavy([browse(names=tags("upnp:xN,", 200_000))], tracks=3000),
    ),
    ("a whole and a cut request, then the client's end", exactly([200, 400]), half_closed),
    ("a request after 330 that closed without reading", exactly(200), closers),
    ("a client that expects `100 Continue`", exactly(200), expecting),
    ("messages in pieces, chunks, and refused ones", exactly([200, 400, 400, 413, 200, 400, 400, 200, 404]), pieces),
    ("SIGSTOP and SIGCONT in a request", exactly([200, 200]), stopped),
    ("SIGTERM", exactly(-15), ends_on_term),
    ("a folder that is missing, a file, unreadable; a port in use", exactly([7, 7, 7, 7]), bad_folders),
    ("`lost+found` that may not be read: objects", exactly(3), lambda: listed(lost_found, NOBODY)),
    ("a folder and a link that may not be searched", exactly(3), lambda: listed(no_search, NOBODY)),
    ("a picture whose name is Latin-1", exactly(2), lambda: listed(latin)),
    ("a folder whose name is Latin-1", exactly(0), lambda: listed(latin_folder)),
    ("hidden folders, `._` files", exactly(4), lambda: listed(hidden)),
    ("subscribers of 5: the end of the reply comes at once, before the first note, and that soon", at_least([5, 3, 5]), end_before_note),
    ("300 clients that send a request byte by byte: answered, seconds beside", answered(200, 2), lambda: byte_by_byte(300)),
    ("descriptors, MiB more after 1,000 connections of all kinds", no_more([0, 16]), room_after),
    ("4 clients with a byte a second: seconds for a request", at_most(2), lambda: beside_slow(4, "127.0.0.1")),
    ("20 such clients, from the same address", at_most(2), lambda: beside_slow(20, "127.0.0.1")),
    ("300 such clients, from another address", at_most(2), lambda: beside_slow(300, "127.0.0.2")),
    ("300 such clients, from the same address", at_most(2), lambda: beside_slow(300, "127.0.0.1")),
    ("a note beside 3 that never answer: seconds", at_most(2), lambda: note_beside("silent", 3)),
    ("a note beside 3 that answer and stay open", at_most(2), lambda: note_beside("stays open", 3)),
    ("a note beside 3 that answer slowly", at_most(2), lambda: note_beside("slow", 3)),
    ("a note beside 3 that close", at_most(2), lambda: note_beside("closes", 3)),
    ("a note beside 3 that reset", at_most(2), lambda: note_beside("resets", 3)),
    ("a note beside 3 that die after their first note", at_most(3), lambda: note_after(["dies"], 3)),
    ("a note beside 63 that die after their first note", at_most(5), lambda: note_after(["dies"], 63)),
    (
        "100 clients that sent 64 KiB, then a byte a second",
        at_most(5),
        lambda: beside_slow(100, "127.0.0.2", 20, message(body=NUMBER + b" " * 200_000)[:70_000]),
    ),
    ("6 players that take nothing of a large file: seconds for a request", at_most(1), lambda: beside_players(2)),
    ("304 such players", at_most(1), lambda: beside_players(300)),
    ("a folder removed and put back", exactly([2, 2, 2]), put_back),
    ("notes to one that answers without a length and stays open", exactly(3), lambda: twice("bare")),
    ("a late request behind 64 subscribers that never answer: seconds", at_most(5), lambda: behind_dead(64)),
    ("a note beside 63 dead, silent and gone by turns", at_most(2), lambda: note_after(["silent", "gone"], 63)),
]


def tried(at):
    """What came of a case, whether it came as it must, and the seconds that it took."""
    _, (_, is_right), case = CASES[at]
    begun = time.monotonic()
    try:
        got = case()
        right = is_right(got)
    except Exception as error:  # (a case that breaks is one that fails)
        got, right = repr(error), False
    return got, right, time.monotonic() - begun


def main():
    global program
    program = os.path.abspath(sys.argv[1])
    words = sys.argv[2:]
    chosen = [at for at, case in enumerate(CASES) if not words or any(word in case[0] for word in words)]
    # (forks, so that no case waits for the threads of another; the last ones take longest)
    with multiprocessing.get_context("fork").Pool(SIDE_BY_SIDE) as pool:
        came = dict(zip(reversed(chosen), pool.map(tried, reversed(chosen), chunksize=1)))
    failed = 0
    for at in chosen:
        got, right, took = came[at]
        for _ in range(2):
            if not right:
                # (by itself: a machine with other work may have been too slow for so many)
                got, right, took = tried(at)
        failed |= not right
        name, (wanted, _), _ = CASES[at]
        print(f"{'ok  ' if right else 'FAIL'} {name} | {wanted} | {got} | {took:.0f} s", flush=True)
    sys.exit(failed)


main()
