#!/usr/bin/env python3
"""held.py PROGRAM LINKS: measures the memory that a server holds for clients that do not read, and that send slowly.

Each of LINKS clients asks twice for 4 MB in one write, and a third time. It reads until the server has taken that up, and
then no more. In a second run each sends a message of 4 MB, one of 2 MB, and one of 4 MB without its last byte, in pieces.
It prints the resident memory, and what a link adds to it, in KB. It takes some seconds, and ends what it starts.
"""

import pathlib
import socket
import subprocess
import sys
import tempfile
import time

from server import OK, PATIENCE, expect, field, frame, query, receive, varint

PORT = 15575
LIMIT = 4_194_304
PIECE = 60_000


def connect(room=None):
    """A connection, with that much room for what is received, as soon as somebody listens."""
    deadline = time.monotonic() + PATIENCE
    while True:
        client = socket.socket()
        if room is not None:
            client.setsockopt(socket.SOL_SOCKET, socket.SO_RCVBUF, room)
        try:
            client.connect(("127.0.0.1", PORT))
            return client
        except ConnectionRefusedError:
            client.close()
            if time.monotonic() > deadline:
                raise
            time.sleep(0.02)


def resident(server, kind="VmRSS"):
    text = pathlib.Path(f"/proc/{server.pid}/status").read_text()
    return int(text.split(kind + ":")[1].split()[0])


def message(size):
    """A message of one field that nobody knows, whose body has this many bytes."""
    head = varint(1000 * 8 + 2)
    content = size - len(head) - len(varint(size))
    return frame(head + varint(content) + bytes(content))


def send_slowly(client, text):
    for start in range(0, len(text), PIECE):
        client.sendall(text[start : start + PIECE])
        time.sleep(0.0005)


def post_almost_all(client):
    """Posts events until a reply with all of them nearly has the greatest length."""
    size, number = 6, 0
    while size < LIMIT - 8192:
        event = field(6, b"\x08\x64" + field(3, b"s%05d" % number) + field(4, b"host") + field(5, b"d" * 4000))
        client.sendall(frame(event))
        expect(client, OK)
        size, number = size + len(event), number + 1


def unread_replies(server, links):
    post_almost_all(connect())
    before = resident(server)
    clients = [connect(4096) for _ in range(links)]
    for client in clients:
        client.sendall(query(b"true") * 2)
        time.sleep(0.1)
    two = resident(server)
    for client in clients:
        client.sendall(query(b"true"))
        had, taken = resident(server), 0
        while resident(server) < had + 3000 and taken < 2 * LIMIT:
            taken += len(receive(client, 65_536))
            time.sleep(0.001)
    three = resident(server)
    print(f"unread replies, {links} links: {before}, two +{(two - before) // links}, three +{(three - before) // links}")
    print(f"at most {resident(server, 'VmHWM')}", end="")
    for client in clients:
        client.close()
    time.sleep(0.5)
    print(f", closed {resident(server)}")


def slow_messages(server, links):
    clients = [connect() for _ in range(links)]
    before, seen = resident(server), []
    long, cut = message(LIMIT), LIMIT // 2
    for text, replies in ((long, 1), (message(2_000_000) + long[:cut], 1), (long[cut:-1], 0), (long[-1:], 1)):
        for client in clients:
            send_slowly(client, text)
            expect(client, OK * replies)
        time.sleep(0.2)
        seen.append((resident(server) - before) // links)
    print(f"slow messages, {links} links: {before}, after 4 MB +{seen[0]}, after 2 MB and half of 4 MB +{seen[1]}, ", end="")
    print(f"before the last byte +{seen[2]}, after it +{seen[3]}")
    print(f"at most {resident(server, 'VmHWM')}")


def main():
    if len(sys.argv) != 3:
        print(__doc__.splitlines()[0], file=sys.stderr)
        return 1
    with tempfile.TemporaryDirectory() as folder:
        config = pathlib.Path(folder) / "config"
        config.write_text(f'(tcp-server {{:host "127.0.0.1" :port {PORT}}}) (streams index)')
        for measure in (unread_replies, slow_messages):
            server = subprocess.Popen([sys.argv[1], "serve", str(config)])
            try:
                measure(server, int(sys.argv[2]))
            finally:
                server.kill()
                server.wait()
    return 0


if __name__ == "__main__":
    sys.exit(main())
