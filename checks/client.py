#!/usr/bin/env python3
"""client.py PROGRAM: tries the commands `send` and `query` of the built program, over loopback.

It asks the program as a server on port 15558, and then a stand-in that answers as no server would: it closes in the middle,
answers too often, with garbage, or resets the connection, or stops reading. It prints a line for each check, and ends with
status 1 if one failed. It takes under a minute, and ends what it starts.
"""

import pathlib
import socket
import struct
import subprocess
import sys
import tempfile
import threading
import time

from server import OK, PATIENCE, Checks, Failed, Server, Skipped, event, frame, hold, receive, receive_frame, reply_of

PORT = 15558
DONE, USAGE, LINK_FAULT, TRUNCATED, UNANSWERED, BAD_REPLY = 0, 1, 5, 8, 13, 14
LINE = b'{host="a" service="b" state="ok" time=100 metric=5}\n'


class StandIn:
    """A listener that does to one connection what `act` does."""

    def __init__(self, act, host="127.0.0.1", family=socket.AF_INET):
        self.listener = socket.socket(family, socket.SOCK_STREAM)
        self.listener.setsockopt(socket.SOL_SOCKET, socket.SO_REUSEADDR, 1)
        self.listener.bind((host, 0))
        self.listener.listen()
        self.port = self.listener.getsockname()[1]
        self.act, self.fault = act, None
        self.thread = threading.Thread(target=self.serve, daemon=True)
        self.thread.start()

    def serve(self):
        self.listener.settimeout(PATIENCE)
        try:
            connection, _ = self.listener.accept()
            connection.settimeout(PATIENCE)
            with connection:
                self.act(connection)
        except OSError as fault:
            self.fault = fault

    def __enter__(self):
        return self

    def __exit__(self, *_):
        self.listener.close()
        self.thread.join(PATIENCE)


def call(checks, *arguments, patience=PATIENCE):
    """The status, the output and the error stream of a command."""
    done = subprocess.run(
        [checks.program, *arguments],
        stdin=subprocess.DEVNULL,
        stdout=subprocess.PIPE,
        stderr=subprocess.PIPE,
        timeout=patience,
    )
    return done.returncode, done.stdout, done.stderr


def expect_call(checks, wanted, *arguments):
    came = call(checks, *arguments)
    if came != wanted:
        raise Failed(f"{' '.join(arguments)[:60]}: {came} for {wanted}")


def write(checks, name, content):
    path = checks.folder / name
    path.write_bytes(content)
    return str(path)


def lost(replies, requests):
    return b"riemann: %d of %d replies\n" % (replies, requests)


# ---- the program as a server


def is_answered(checks):
    server = Server(checks, PORT)
    try:
        server.client().close()
        address = f"127.0.0.1:{PORT}"
        events = write(checks, "events", frame(event(b"a")) + frame(event(b"c", service=b"d")))
        expect_call(checks, (DONE, b"0 ok\n1 ok\n", b""), "send", address, events)
        expect_call(checks, (DONE, b"0 ok\n" + LINE, b""), "query", address, 'host = "a"')
        expect_call(checks, (DONE, b"0 ok\n", b""), "query", f"localhost:{PORT}", "false")
        refused = b'0 error "query refused at 6"\n'
        expect_call(checks, (DONE, refused, b""), "query", address, "host =", "--turns", "200")
        many = write(checks, "many", b"".join(frame(event(b"h%d" % n, description=b"x" * 4000)) for n in range(5000)))
        status, out, err = call(checks, "send", address, many, patience=6 * PATIENCE)
        if (status, out, err) != (DONE, b"".join(b"%d ok\n" % n for n in range(5000)), b""):
            raise Failed(f"5000 events: {status} {out[:40]} {err}")
    finally:
        server.stop()


def is_over_ipv6(checks):
    def act(connection):
        receive_frame(connection)
        connection.sendall(OK)

    try:
        server = StandIn(act, "::1", socket.AF_INET6)
    except OSError as fault:
        raise Skipped(f"no IPv6 on loopback: {fault}") from fault
    with server:
        expect_call(checks, (DONE, b"0 ok\n", b""), "query", f"[::1]:{server.port}", "true")


def is_refused(checks):
    with socket.socket() as free:
        free.bind(("127.0.0.1", 0))
        port = free.getsockname()[1]
    begun = time.monotonic()
    expect_call(checks, (LINK_FAULT, b"", b"riemann: links failed\n"), "query", f"127.0.0.1:{port}", "true")
    if time.monotonic() - begun > PATIENCE / 2:
        raise Failed("a refused connection is waited for")
    expect_call(checks, (LINK_FAULT, b"", b"riemann: links failed\n"), "query", "127.0.0.1", "true")


# ---- the stand-in


def stands_in(act, wanted, requests=b"", options=()):
    """A check: a command over a stand-in that acts so ends as wanted."""

    def check(checks):
        with StandIn(act) as server:
            address = f"127.0.0.1:{server.port}"
            if requests:
                expect_call(checks, wanted, "send", address, write(checks, "requests", requests), *options)
            else:
                expect_call(checks, wanted, "query", address, "true", *options)
        if server.fault:
            raise server.fault

    return check


def cut_reply(connection):
    receive_frame(connection)
    connection.sendall(reply_of(event(b"a"))[:-3])


def pieces(connection):
    receive_frame(connection)
    for byte in reply_of(event(b"a")):
        connection.sendall(bytes([byte]))
        time.sleep(0.002)


def too_many(connection):
    receive_frame(connection)
    connection.sendall(OK + OK)


def garbage(connection):
    receive_frame(connection)
    connection.sendall(frame(b"\x17garbage"))


def oversized(connection):
    receive_frame(connection)
    connection.sendall(struct.pack(">I", 4_194_305))
    receive(connection, 1)


def reset(connection):
    receive(connection, 2)
    connection.setsockopt(socket.SOL_SOCKET, socket.SO_LINGER, struct.pack("ii", 1, 0))


def closed_at_once(connection):
    pass


def silent(connection):
    receive_frame(connection)
    receive(connection, 1)


def stops_reading(connection):
    receive(connection, 1000)
    time.sleep(3)


def half(connection):
    receive_frame(connection)
    connection.sendall(OK)
    receive_frame(connection)


A = frame(event(b"a"))
STAND_INS = {
    "a reply byte by byte": stands_in(pieces, (DONE, b"0 ok\n" + LINE, b"")),
    "a reply that is cut off": stands_in(cut_reply, (UNANSWERED, b"", lost(0, 1))),
    "a connection that is closed at once": stands_in(closed_at_once, (UNANSWERED, b"", lost(0, 1))),
    "too many replies": stands_in(too_many, (BAD_REPLY, b"0 ok\n", b"riemann: reply 1 refused: unasked\n")),
    "garbage": stands_in(garbage, (BAD_REPLY, b"", b"riemann: reply 0 refused at 0: wire\n")),
    "a length over the limit": stands_in(oversized, (UNANSWERED, b"", lost(0, 1))),
    "a reset": stands_in(reset, (UNANSWERED, b"", lost(0, 1))),
    "a server that says nothing, for ten turns": stands_in(silent, (UNANSWERED, b"", lost(0, 1)), options=("--turns", "10")),
    "one of two replies": stands_in(half, (UNANSWERED, b"0 ok\n", lost(1, 2)), requests=A + A),
    "a server that stops reading, for ten turns": stands_in(
        stops_reading, (UNANSWERED, b"", lost(0, 8000)), requests=frame(event(b"a", description=b"x" * 4000)) * 8000, options=("--turns", "10")
    ),
}


def is_usage(checks):
    for arguments in (("send", "x"), ("query", "x"), ("query", "x", "a" * 4097), ("send", "x", "f", "--turns", "a")):
        status, out, err = call(checks, *arguments)
        if status != USAGE or out or not err.startswith(b"riemann: usage: "):
            raise Failed(f"{arguments[0]}: {status} {err}")


def is_truncated(checks):
    path = write(checks, "cut", A + b"\x00\x00")
    expect_call(checks, (TRUNCATED, b"", b"riemann: 2 bytes left of no whole frame\n"), "send", "127.0.0.1:1", path)
    expect_call(checks, (DONE, b"", b""), "send", "127.0.0.1:1", write(checks, "empty", b""))


def main():
    hold(PORT)
    program = str(pathlib.Path(sys.argv[1]).resolve())
    with tempfile.TemporaryDirectory() as folder:
        checks = Checks(program, pathlib.Path(folder))
        try:
            checks.run("events and queries to the program as a server", is_answered)
            checks.run("a server on [::1]", is_over_ipv6)
            checks.run("an address nobody listens on", is_refused)
            for name, check in STAND_INS.items():
                checks.run(name, check)
            checks.run("arguments that no command matches", is_usage)
            checks.run("a file that is cut, and one without a request", is_truncated)
        finally:
            checks.end_all()
    sys.exit(1 if checks.failed else 0)


if __name__ == "__main__":
    main()
