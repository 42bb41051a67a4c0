"""Sends the requests of a file of rows to a server on loopback, for .ci/serve, and compares the replies. Ends with 0 where
each began with the status that is wanted and had the text in it. The file says what its rows are."""

import socket
import sys

ENVELOPE = (
    '<s:Envelope xmlns:s="http://schemas.xmlsoap.org/soap/envelope/">'
    '<s:Body xmlns:u="urn:schemas-upnp-org:service:ContentDirectory:{}">{}</s:Body></s:Envelope>'
)


def body_of(text):
    """`N INSIDE` is an envelope with the service in version N; `=TEXT` is the text itself."""
    if text.startswith("="):
        return text[1:]
    version, inside = text.split(" ", 1)
    return ENVELOPE.format(version, inside)


def said(text):
    return text.replace("\\r", "\r").replace("\\n", "\n")


def request_of(line, fields, body):
    if line.startswith("="):
        return said(line[1:]).encode()
    head = f"{line} HTTP/1.1\r\n" + "".join(f"{field}\r\n" for field in fields.split("\\n") if field)
    if not body:
        return f"{head}\r\n".encode()
    body = body_of(body)
    return f"{head}CONTENT-LENGTH: {len(body)}\r\n\r\n{body}".encode()


def reply_to(port, request):
    with socket.create_connection(("127.0.0.1", port), timeout=10) as server:
        server.sendall(request)
        server.shutdown(socket.SHUT_WR)
        reply = b""
        try:
            while piece := server.recv(65536):
                reply += piece
        except ConnectionResetError:
            pass
    return reply.decode()


def main():
    port, path = int(sys.argv[1]), sys.argv[2]
    failed = 0
    with open(path, encoding="utf-8") as rows:
        for number, row in enumerate(rows, 1):
            row = row.rstrip("\n")
            if not row or row.startswith("#"):
                continue
            line, fields, body, status, text = row.split("|")
            reply = reply_to(port, request_of(line, fields, body))
            if not reply.startswith(f"HTTP/1.1 {status} ") or said(text) not in reply:
                print(f"our checks: {path}, row {number}: {line} was answered {reply[:400]!r}")
                failed = 1
    sys.exit(failed)


main()
