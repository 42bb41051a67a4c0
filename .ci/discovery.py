"""Searches by SSDP: .ci/discovery.py PROGRAM. Runs `announce` on loopback. If a network of two namespaces can be made, also runs
`announce` and `./cds share` there: searches by multicast, and a search of a far sender. Writes a line for each case that does not
come as it must, and ends with 0 if all do."""

import contextlib
import os
import re
import shutil
import signal
import socket
import subprocess
import sys
import tempfile
import time
import urllib.error
import urllib.request

GROUP = "239.255.255.250"
LOCATION = "http://10.9.0.1:8200/device.xml"
UUID = "abcdef01-2345-6789-abcd-ef0123456789"
ALL = [
    "upnp:rootdevice",
    f"uuid:{UUID}",
    "urn:schemas-upnp-org:device:MediaServer:4",
    "urn:schemas-upnp-org:service:ContentDirectory:4",
]
failed = False


def check(name, wanted, came):
    """Says what came if it is not what was wanted."""
    global failed
    if wanted != came:
        print(f"discovery: {name}: wanted {wanted!r}, came {came!r}")
        failed = True


def search(target):
    """A search for a target."""
    return (
        f'M-SEARCH * HTTP/1.1\r\nHOST: {GROUP}:1900\r\nMAN: "ssdp:discover"\r\nMX: 1\r\nST: {target}\r\n\r\n'
    ).encode()


def reply(target, location=LOCATION, uuid=UUID):
    """The reply that tells of a target."""
    name = f"uuid:{uuid}"
    usn = name if target == name else f"{name}::{target}"
    return (
        f"HTTP/1.1 200 OK\r\nCACHE-CONTROL: max-age=1800\r\nEXT:\r\nLOCATION: {location}\r\nSERVER: unix/1.0 UPnP/2.0 cds/1.0\r\n"
        f"ST: {target}\r\nUSN: {usn}\r\nBOOTID.UPNP.ORG: 1\r\n\r\n"
    ).encode()


def free_port():
    """A port for datagrams that is free."""
    with socket.socket(socket.AF_INET, socket.SOCK_DGRAM) as one:
        one.bind(("127.0.0.1", 0))
        return one.getsockname()[1]


@contextlib.contextmanager
def running(words, **options):
    """A process, which is ended when the block is left, however that comes."""
    process = subprocess.Popen(words, **options)
    try:
        yield process
    finally:
        process.terminate()
        try:
            process.wait(10)
        except subprocess.TimeoutExpired:
            process.kill()
            process.wait()


@contextlib.contextmanager
def announcing(program, port, count):
    """The program, announcing, when it has the port."""
    words = [program, "announce", str(port), LOCATION, str(count), UUID]
    with running(words, stdout=subprocess.PIPE) as process:
        for _ in range(200):
            with open("/proc/net/udp", encoding="ascii") as table:
                if any(line.split()[1].endswith(f":{port:04X}") for line in list(table)[1:]):
                    break
            time.sleep(0.02)
        yield process


def answers(client, datagram, to, many):
    """Sends a datagram, and returns what comes: as many replies as are wanted, and any that come soon after them."""
    client.sendto(datagram, to)
    came = []
    client.settimeout(5)
    try:
        for _ in range(many):
            came.append(client.recv(65536))
        client.settimeout(0.1)
        while True:
            came.append(client.recv(65536))
    except socket.timeout:
        return came


def on_loopback(program):
    """Datagrams of each kind, and the end after the last one."""
    port = free_port()
    to = ("127.0.0.1", port)
    with announcing(program, port, 7) as process, socket.socket(socket.AF_INET, socket.SOCK_DGRAM) as client:
        check("the root device", [reply(ALL[0])], answers(client, search(ALL[0]), to, 1))
        check("version 5", [], answers(client, search(ALL[3][:-1] + "5"), to, 0))
        check("NOTIFY", [], answers(client, b"NOTIFY * HTTP/1.1\r\n\r\n", to, 0))
        check("no bytes", [], answers(client, b"", to, 0))
        check("65,507 bytes", [], answers(client, b"x" * 65507, to, 0))
        check("a search with bytes after it", [reply(ALL[1])], answers(client, search(ALL[1].upper().replace("UUID", "uuid")) + b"x" * 60000, to, 1))
        check("all", [reply(one) for one in ALL], answers(client, search("ssdp:all"), to, 4))
        check("what is written", b"", process.communicate(timeout=10)[0])
        check("the status", 0, process.returncode)


def flood(to):
    """Sends 10,000 searches."""
    with socket.socket(socket.AF_INET, socket.SOCK_DGRAM) as client:
        for _ in range(10_000):
            client.sendto(search("ssdp:all"), to)


def after_a_flood(program):
    """A search is answered after 10,000 others."""
    port = free_port()
    to = ("127.0.0.1", port)
    with announcing(program, port, 4294967295), socket.socket(socket.AF_INET, socket.SOCK_DGRAM) as client:
        flood(to)
        came = []
        for _ in range(20):
            came = answers(client, search(ALL[0]), to, 1)
            if came:
                break
        check("a search after a flood", reply(ALL[0]), came[0] if came else None)


def refused(program):
    """A port that another program does not share."""
    with socket.socket(socket.AF_INET, socket.SOCK_DGRAM) as one:
        one.bind(("0.0.0.0", 0))
        words = [program, "announce", str(one.getsockname()[1]), LOCATION, "1"]
        check("a port that is in use", 7, subprocess.run(words, stdout=subprocess.DEVNULL, check=False).returncode)


def run(*words):
    """Runs a tool that must succeed."""
    subprocess.run(words, check=True)


CLIENT = """
import socket, sys
own, to, port, many = sys.argv[1], sys.argv[2], int(sys.argv[3]), int(sys.argv[4])
s = socket.socket(socket.AF_INET, socket.SOCK_DGRAM)
s.bind((own, 0))
s.setsockopt(socket.IPPROTO_IP, socket.IP_MULTICAST_IF, socket.inet_aton(own))
s.sendto(sys.stdin.buffer.read(), (to, port))
s.settimeout(3 if many else 0.5)
try:
    for _ in range(max(many, 1)):
        print(s.recv(65536).hex())
except socket.timeout:
    pass
"""


def from_other_side(other, own, to, datagram, many):
    """What a client at this address in the other namespace gets."""
    words = ["nsenter", "-t", str(other.pid), "-n", sys.executable, "-c", CLIENT, own, to, "1900", str(many)]
    came = subprocess.run(words, input=datagram, stdout=subprocess.PIPE, check=True).stdout
    return [bytes.fromhex(line) for line in came.decode().split()]


def in_a_network(program):
    """In a namespace of its own, beside another one: searches by multicast, and a far sender."""
    with running(["unshare", "-n", "sleep", "60"]) as other:
        beside(program, other)


def beside(program, other):
    """Joins both namespaces, and searches from the other one."""
    time.sleep(0.3)
    run("ip", "link", "set", "lo", "up")
    run("ip", "link", "add", "near", "type", "veth", "peer", "name", "far")
    run("ip", "link", "set", "far", "netns", str(other.pid))
    run("ip", "addr", "add", "10.9.0.1/24", "dev", "near")
    run("ip", "link", "set", "near", "up")
    run("ip", "route", "add", "8.8.8.0/24", "dev", "near")
    inside = ["nsenter", "-t", str(other.pid), "-n", "ip"]
    run(*inside, "addr", "add", "10.9.0.2/24", "dev", "far")
    run(*inside, "addr", "add", "8.8.8.8/24", "dev", "far")
    run(*inside, "link", "set", "far", "up")
    time.sleep(0.3)
    with announcing(program, 1900, 4294967295), socket.socket(socket.AF_INET, socket.SOCK_DGRAM) as member:
        member.setsockopt(socket.IPPROTO_IP, socket.IP_ADD_MEMBERSHIP, socket.inet_aton(GROUP) + socket.inet_aton("10.9.0.1"))
        all_replies = [reply(one) for one in ALL]
        check("a search by multicast", all_replies, from_other_side(other, "10.9.0.2", GROUP, search("ssdp:all"), 4))
        check("a search of a far sender", [], from_other_side(other, "8.8.8.8", "10.9.0.1", search("ssdp:all"), 0))
        check("a search to the machine", all_replies, from_other_side(other, "10.9.0.2", "10.9.0.1", search("ssdp:all"), 4))
    launcher = os.path.join(os.path.dirname(os.path.abspath(__file__)), "..", "cds")
    if os.path.realpath(program) == os.path.realpath(os.path.join(os.path.dirname(launcher), "crates/cds_cli/out/cds_cli")):
        shared(launcher, other)
    else:
        print("discovery: the program is not that of the launcher; the case of a shared folder is skipped")


def described_name(port):
    """The UUID in the description of a server of this machine."""
    try:
        with urllib.request.urlopen(f"http://127.0.0.1:{port}/device.xml", timeout=5) as answer:
            found = re.search("<UDN>uuid:([0-9a-f-]*)</UDN>", answer.read().decode())
            return found and found.group(1)
    except urllib.error.HTTPError:
        return None


def shared(launcher, other):
    """A folder that is shared: what it says, what a search by multicast finds, and that all ends with it."""
    port = 8299
    with tempfile.TemporaryDirectory() as folder:
        words = [launcher, "share", folder, str(port)]
        with running(words, stdout=subprocess.PIPE, start_new_session=True) as process:
            says = process.stdout.readline().decode()
            check("where a folder is shared", f"{folder} is served at port {port} of 10.9.0.1 until Ctrl-C\n", says)
            check("what to open", True, process.stdout.readline().decode().endswith("open the server cds\n"))
            if says:
                location, uuid = f"http://10.9.0.1:{port}/device.xml", described_name(port)
                wanted = [reply(target.replace(UUID, uuid or ""), location, uuid) for target in ALL]
                check("a search for what is shared", wanted, from_other_side(other, "10.9.0.2", GROUP, search("ssdp:all"), 4))
                flood(("127.0.0.1", 1900))
                check("a description beside a flood", uuid, described_name(port))
            os.killpg(process.pid, signal.SIGINT)
            check("the status of an interrupt", 130, process.wait(10))
        left = subprocess.run(["pgrep", "-g", str(process.pid)], stdout=subprocess.PIPE, check=False).stdout
        check("what is left of it", b"", left)


def main():
    """Runs all cases, the last one in a namespace of its own if that can be made. Ends what it started if it is ended."""
    signal.signal(signal.SIGTERM, lambda *_: sys.exit(143))
    if sys.argv[2:] == ["--inside"]:
        in_a_network(sys.argv[1])
        return
    program = os.path.abspath(sys.argv[1])
    on_loopback(program)
    after_a_flood(program)
    refused(program)
    tools = all(shutil.which(tool) for tool in ("unshare", "nsenter", "ip", "pgrep"))
    if tools and subprocess.run(["unshare", "-n", "true"], stderr=subprocess.DEVNULL, check=False).returncode == 0:
        words = ["unshare", "-n", sys.executable, "-B", os.path.abspath(__file__), program, "--inside"]
        with running(words) as inside:
            check("the network of two namespaces", 0, inside.wait())
    else:
        print("discovery: no namespaces can be made; the cases of a network are skipped")


main()
sys.exit(failed)
