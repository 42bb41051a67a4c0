#!/usr/bin/env bash
# Figures of `cds serve` beside bad neighbours, by hand and not by the gate. bench/peers.sh has those beside other servers.
# - the longest wait of a small request beside requests of 1 MiB of `<a/>` (goal: at most 20 ms more than alone);
# - processor time for each byte of `<a/>`, and of attributes and `xmlns:` of one tag (goal: at most 5 times that of plain text);
# - peak memory of a server of three tracks with four bodies of 16 MiB of `<a/>` at once (goal: at most 300 MiB);
# - how long after a change a living subscriber has its note, beside 3 and beside 63 dead ones (goal: within 2 s). Some never
#   answered, others die after their first note.
# bench/serve.sh. Needs bash, python3, and the program where it is built. CDS may name another program.
set -eu
top=$(cd "$(dirname "$0")/.." && pwd)
program=${CDS:-$top/crates/cds_cli/out/cds_cli}
work=$(mktemp -d)
trap 'rm -rf "$work"' EXIT

PYTHONPATH=$top/bench python3 -B - "$work" "$program" <<'PY'
import http.client, multiprocessing, os, shutil, socket, sys, threading, time
import servers
work, program = sys.argv[1:]


# A Browse of the root, with so many bytes of `<a/>` in its ObjectID.
def long_body(size):
    return servers.browse_body(4, "0" + "<a/>" * (size // 4), 0, 0)


# The milliseconds of each of some small requests, one after another.
def waits(server, times):
    taken = []
    for _ in range(times):
        begun = time.perf_counter()
        server.number()
        taken.append((time.perf_counter() - begun) * 1000)
    return taken


# A server of three tracks, once it has them.
def small_server():
    root = f"{work}/small"
    shutil.rmtree(root, ignore_errors=True)
    os.makedirs(root)
    for n in range(3):
        with open(f"{root}/{n}.flac", "wb") as file:
            file.write(servers.track(n, 0))
    server = servers.cds(program, root)
    server.first_answer()
    while server.total("0") < 3:
        time.sleep(0.01)
    time.sleep(0.3)
    return server


# Sends such a request again and again.
def repeat(server, action, text):
    while True:
        server.ask(action, text)


# A subscriber that takes notes, and answers the first `answers` of them.
class Subscriber:
    def __init__(self, server, answers):
        self.answers, self.moments, self.kept = answers, [], []
        self.listener = socket.create_server(("127.0.0.1", 0))
        threading.Thread(target=self.take, daemon=True).start()
        peer = http.client.HTTPConnection("127.0.0.1", server.port, timeout=60)
        callback = f"<http://127.0.0.1:{self.listener.getsockname()[1]}/>"
        peer.request("SUBSCRIBE", "/event", headers={"CALLBACK": callback, "NT": "upnp:event", "TIMEOUT": "Second-1800"})
        if peer.getresponse().status != 200:
            raise ValueError("no subscription")

    # Takes notes, one after another. One that is not answered stays open.
    def take(self):
        while True:
            peer, _ = self.listener.accept()
            got = b""
            while not got.endswith(b"</e:propertyset>"):
                got += peer.recv(65536)
            self.moments.append(time.perf_counter())
            if len(self.moments) <= self.answers:
                peer.sendall(b"HTTP/1.1 200 OK\r\nCONTENT-LENGTH: 0\r\n\r\n")
                peer.close()
            else:
                self.kept.append(peer)


# Makes all these calls at once, and waits for them.
def side_by_side(calls):
    threads = [threading.Thread(target=call) for call in calls]
    for thread in threads:
        thread.start()
    for thread in threads:
        thread.join()


# Nanoseconds of the server's processors for each byte of a body.
def cost_of_byte(server, text, times):
    before = server.used()
    for _ in range(times):
        server.ask("Browse", text, 600)
    return (server.used() - before) / times / len(text) * 1e9


# How many seconds after a change a living subscriber has its note, behind `dead` others that answer so many notes.
def note_behind(dead, answers):
    server = small_server()
    side_by_side([lambda: Subscriber(server, answers)] * dead)
    living = Subscriber(server, 100)
    while not living.moments:
        time.sleep(0.01)
    # (the first notes to the last of the others may still wait for their replies)
    time.sleep(2.5)
    number = server.number()
    shutil.copyfile(f"{work}/small/0.flac", f"{work}/small/added.flac")
    asked = time.perf_counter()
    while server.number() == number:
        time.sleep(0.01)
        asked = time.perf_counter()
    while len(living.moments) < 2:
        time.sleep(0.01)
    server.finish()
    return living.moments[1] - asked


server = small_server()
alone = waits(server, 300)
loader = multiprocessing.get_context("fork").Process(target=repeat, args=(server, "Browse", long_body(1 << 20)), daemon=True)
loader.start()
time.sleep(0.5)
beside = waits(server, 300)
loader.kill()
loader.join()
print(f"a small request: at most {max(alone):.1f} ms alone, {max(beside):.1f} ms beside requests of 1 MiB (goal: at most 20 ms more); half of them {sorted(alone)[150]:.1f} and {sorted(beside)[150]:.1f} ms")
server.finish()

server = small_server()
text, idle, begun = long_body(16 << 20), server.memory("VmHWM"), time.perf_counter()
side_by_side([lambda: server.ask("Browse", text, 600)] * 4)
print(f"four bodies of 16 MiB at once: {server.memory('VmHWM'):.0f} MiB of memory at the peak (goal: at most 300), {idle:.0f} before; {time.perf_counter() - begun:.1f} s")
plain = cost_of_byte(server, servers.browse_body(4, "0", 0, 0, beside="x" * (4 << 20)), 40)
print(f"4 MiB of plain text: {plain:.1f} ns of the server's processors for each byte")
for kind, text in (
    ("4 MiB of `<a/>`", long_body(4 << 20)),
    ("50,000 attributes in one tag", servers.browse_body(4, "0", 0, 0, "".join(f' a{n}=""' for n in range(50000)))),
    ("50,000 `xmlns:` in one tag", servers.browse_body(4, "0", 0, 0, "".join(f' xmlns:a{n}="x"' for n in range(50000)))),
):
    print(f"{kind}: {cost_of_byte(server, text, 4) / plain:.1f} times that (goal: at most 5)")
server.finish()

for kind, answers in (("never answered", 0), ("die after their first note", 1)):
    few, many = note_behind(3, answers), note_behind(63, answers)
    print(f"a note beside subscribers that {kind}: {few:.2f} s after the change beside 3, {many:.2f} s beside 63 (goal: at most 2 s)")
PY
