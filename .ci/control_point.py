"""A control point on loopback, for .ci/serve: it subscribes to a server's events, adds a file to its folder while thirty
connections stand open that send nothing, and waits for the note of it. Ends with 0 where all came as it must."""

import http.client
import shutil
import socket
import sys
import time

BROWSE = (
    '<?xml version="1.0"?><s:Envelope xmlns:s="http://schemas.xmlsoap.org/soap/envelope/"'
    ' s:encodingStyle="http://schemas.xmlsoap.org/soap/encoding/"><s:Body>'
    '<u:Browse xmlns:u="urn:schemas-upnp-org:service:ContentDirectory:4"><ObjectID>0</ObjectID>'
    "<BrowseFlag>BrowseMetadata</BrowseFlag><Filter>*</Filter><StartingIndex>0</StartingIndex>"
    "<RequestedCount>0</RequestedCount><SortCriteria></SortCriteria></u:Browse></s:Body></s:Envelope>"
)


def wrong(text):
    print(f"our checks: the control point: {text}")
    sys.exit(1)


def receive(listener, seconds):
    """The next request that comes within so many seconds, answered with 200: its head and its body."""
    listener.settimeout(seconds)
    try:
        peer, _ = listener.accept()
    except socket.timeout:
        wrong(f"no note came within {seconds} seconds")
    with peer:
        peer.settimeout(5)
        got = b""
        while b"\r\n\r\n" not in got:
            got += peer.recv(65536)
        head, _, body = got.partition(b"\r\n\r\n")
        fields = dict(line.split(b":", 1) for line in head.split(b"\r\n")[1:])
        fields = {name.strip().upper(): value.strip() for name, value in fields.items()}
        while len(body) < int(fields[b"CONTENT-LENGTH"]):
            body += peer.recv(65536)
        peer.sendall(b"HTTP/1.1 200 OK\r\nCONTENT-LENGTH: 0\r\nCONNECTION: close\r\n\r\n")
    return fields, body.decode()


def main():
    port, file, folder = int(sys.argv[1]), sys.argv[2], sys.argv[3]
    listener = socket.create_server(("127.0.0.1", 0))
    callback = f"<http://127.0.0.1:{listener.getsockname()[1]}/notes>"
    server = http.client.HTTPConnection("127.0.0.1", port, timeout=5)
    server.request(
        "SUBSCRIBE", "/event", headers={"CALLBACK": callback, "NT": "upnp:event", "TIMEOUT": "Second-1800"}
    )
    reply = server.getresponse()
    name = reply.getheader("SID")
    if reply.status != 200 or not name:
        wrong(f"the subscription was answered {reply.status}")
    # (names are made of the server's first moment, in milliseconds, and its port)
    digits = name.removeprefix("uuid:").replace("-", "")
    age = time.time() * 1000 - int(digits[:12], 16)
    if not 0 <= age < 600_000 or int(digits[20:24], 16) != port:
        wrong(f"the name {name} is not of the port {port} and of a moment just before")
    fields, _ = receive(listener, 5)
    if fields[b"SID"] != name.encode() or fields[b"SEQ"] != b"0":
        wrong(f"the first note has SID {fields[b'SID']} and SEQ {fields[b'SEQ']}")

    silent = [socket.create_connection(("127.0.0.1", port)) for _ in range(30)]
    begun = time.monotonic()
    server = http.client.HTTPConnection("127.0.0.1", port, timeout=5)
    server.request(
        "POST",
        "/control",
        BROWSE,
        {
            "SOAPACTION": '"urn:schemas-upnp-org:service:ContentDirectory:4#Browse"',
            "CONTENT-TYPE": 'text/xml; charset="utf-8"',
        },
    )
    status = server.getresponse().status
    taken = time.monotonic() - begun
    if status != 200 or taken > 1:
        wrong(f"beside thirty silent connections a request was answered {status} after {taken:.1f} seconds")

    shutil.copyfile(file, f"{folder}/added.flac")
    fields, body = receive(listener, 30)
    if fields[b"SID"] != name.encode() or fields[b"SEQ"] != b"1" or "objAdd" not in body:
        wrong(f"the note of an added file has SEQ {fields[b'SEQ']} and the body {body}")
    for connection in silent:
        connection.close()


main()
