"""Takes the files of a server's tracks: .ci/files.py PORT FOLDER. Each is compared with the file of the folder that has the same
bytes, whole and in a range. Ends with 0 if all came as they must."""

import html
import os
import re
import sys
import urllib.request

SERVICE = "urn:schemas-upnp-org:service:ContentDirectory:4"
port, folder = sys.argv[1:]


def children(container):
    """The DIDL-Lite document of a container's children."""
    body = (
        '<s:Envelope xmlns:s="http://schemas.xmlsoap.org/soap/envelope/"><s:Body>'
        f'<u:Browse xmlns:u="{SERVICE}"><ObjectID>{container}</ObjectID><BrowseFlag>BrowseDirectChildren</BrowseFlag><Filter>*</Filter>'
        "<StartingIndex>0</StartingIndex><RequestedCount>0</RequestedCount><SortCriteria></SortCriteria></u:Browse></s:Body></s:Envelope>"
    ).encode()
    asked = urllib.request.Request(f"http://127.0.0.1:{port}/control", body, {"SOAPACTION": f'"{SERVICE}#Browse"'})
    with urllib.request.urlopen(asked, timeout=10) as reply:
        return html.unescape(reply.read().decode())


def addresses(container):
    """The addresses of all tracks below a container."""
    document = children(container)
    for below in re.findall(r'<container id="(\d+)"', document):
        yield from addresses(below)
    yield from re.findall(r"<res [^>]*>([^<]*)</res>", document)


def taken(address, given=None):
    """The status and the bytes of a file, or of a range of it."""
    asked = urllib.request.Request(address, headers={"RANGE": given} if given else {})
    with urllib.request.urlopen(asked, timeout=10) as reply:
        return reply.status, reply.read()


there = set()
for at, _, names in os.walk(folder):
    for name in names:
        with open(os.path.join(at, name), "rb") as file:
            there.add(file.read())
tracks = list(addresses("0"))
failed = not tracks
for address in tracks:
    status, whole = taken(address)
    part = taken(address, "bytes=3-9")
    if status != 200 or whole not in there or part != (206, whole[3:10]):
        print(f"our checks: {address} is not a file of the folder, or its range {part} is not")
        failed = True
sys.exit(failed)
