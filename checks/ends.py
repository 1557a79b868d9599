#!/usr/bin/env python3
"""ends.py PROGRAM: tries what the sockets and the clock of the built program do, over loopback.

The time of a turn and how long it waits, bytes in pieces of every size, a client that is held back and then reads,
replies that are taken in parts, urgent data, and which address is listened on and connected to. It prints a line for each
check, and ends with status 1 if one failed. It takes half a minute, and ends what it starts. Three checks need a C compiler,
for `clock.c` and `names.c`.
"""

import pathlib
import socket
import subprocess
import sys
import tempfile
import time

from client import StandIn, call, silent
from scarce import PORT, Scarce, Time, moment_of, processor_seconds, serving, urgent_data
from server import OK, PATIENCE, Failed, ask, compiled, event, expect, frame, hold, query, receive, receive_frame, reply_of

OTHER_PORT, NAME_PORTS = 15570, (15571, 15572)
PIECE = 65_536
UNANSWERED = 13


def connect_slowly(server):
    """A connection whose client takes few bytes at a time."""
    server.client().close()
    client = socket.socket()
    client.settimeout(PATIENCE)
    client.setsockopt(socket.SOL_SOCKET, socket.SO_RCVBUF, 8192)
    client.connect(("127.0.0.1", server.port))
    return client


def events_of(count, size):
    """The frame of so many events of different services, with a description of so many bytes, and their reply."""
    services = sorted(b"s%d" % number for number in range(count))
    events = [event(b"a", service, b"x" * size) for service in services]
    return frame(b"".join(events)), reply_of(*events)


# ---- the clock


def time_goes_on(checks):
    """The moment of an event without a time is the system's second."""
    with serving(checks) as server, server.client() as client:
        for _ in range(2):
            before = int(time.time())
            moment = moment_of(client)
            if not before <= moment <= time.time():
                raise Failed(f"the moment {moment} at second {before}")
            time.sleep(1.2)


def clock_that_is_set(checks):
    clock = Time(checks)
    with serving(checks, **clock.variables) as server, server.client() as client:
        first = moment_of(client)
        clock.set(1000)
        time.sleep(0.3)
        passed = moment_of(client) - first
        if not 1000 <= passed <= 1000 + PATIENCE:
            raise Failed(f"{passed} seconds passed for 1000")


def turns_of_a_server(checks):
    """Twenty turns in which nothing happens take two seconds, and no processor."""
    with serving(checks) as server:
        server.client().close()
        before = processor_seconds(server)
        time.sleep(2.0)
        taken = processor_seconds(server) - before
        if taken > 0.2:
            raise Failed(f"an idle server took {taken} seconds of a processor in two")
    checks.files, checks.journal, checks.variables = None, None, {}

    def turns():
        process = checks.start(f"(tcp-server {{:port {OTHER_PORT}}}) (streams index)", "--turns", "20")
        if process.wait(PATIENCE) != 0:
            raise Failed(f"status {process.returncode}")

    expect_seconds(turns)


def turns_of_a_client(checks):
    """The same of a client whose server says nothing."""

    def turns():
        with StandIn(silent) as server:
            status, out, err = call(checks, "query", f"127.0.0.1:{server.port}", "true", "--turns", "20")
        if (status, out) != (UNANSWERED, b""):
            raise Failed(f"status {status}, {err!r}")

    expect_seconds(turns)


def expect_seconds(turns):
    """Twenty turns wait two seconds, but for those in which something happens. A busy machine may take longer: the first
    of five tries that is no longer counts."""
    took = []
    while len(took) < 5 and (not took or took[-1] >= 4.0):
        begun = time.monotonic()
        turns()
        took.append(time.monotonic() - begun)
    if not 1.5 < took[-1] < 4.0:
        raise Failed(f"20 turns took {took} seconds")


# ---- bytes


def long_pieces(checks):
    """Frames that come at once: as one piece, and as one and some bytes of another."""
    with serving(checks) as server, server.client() as client:
        for size in (PIECE - 1, PIECE, PIECE + 1, 2 * PIECE, 200_001):
            more = len(frame(event(b"a", description=b"y" * size))) - size
            one = event(b"a", description=b"y" * (size - more))
            if len(frame(one)) != size:
                raise Failed(f"a frame of {len(frame(one))} bytes for {size}")
            ask(client, frame(one), OK)
            ask(client, query(b"true"), reply_of(one))
        ask(client, frame(event(b"a")) * 3000, OK * 3000)


def held_back(checks):
    """A client that does not take its replies is not read, and is read again once it has taken them."""
    message, whole = events_of(200, 1000)
    late = frame(event(b"late"))
    with serving(checks) as server, connect_slowly(server) as slow, server.client() as other:
        ask(slow, message, OK)
        for _ in range(2):
            slow.sendall(query(b'host = "a"') * 200)
            time.sleep(0.3)
        slow.sendall(late)
        time.sleep(0.3)
        ask(other, query(b'host = "late"'), OK)
        replies = [receive_frame(slow) for _ in range(400)]
        if replies[0] != whole[4:]:
            raise Failed("the first reply is another one")
        expect(slow, OK)
        ask(other, query(b'host = "late"'), reply_of(event(b"late")))


def replies_in_parts(checks):
    """8 MB of replies that the client takes in parts."""
    message, whole = events_of(1000, 4000)
    with serving(checks) as server, connect_slowly(server) as slow:
        ask(slow, message, OK)
        slow.sendall(query(b"true") * 2)
        time.sleep(0.2)
        if receive(slow, 2 * len(whole)) != whole * 2:
            raise Failed("other bytes came")


# ---- addresses


def answers(address, port):
    try:
        socket.create_connection((address, port), PATIENCE).close()
        return True
    except ConnectionRefusedError:
        return False


def listening(checks, host, address, port):
    """A program that listens on the host, of which it is the address, and whether others of loopback answer too."""
    process = checks.start(f'(tcp-server {{:host "{host}" :port {port}}}) (streams index)')
    deadline = time.monotonic() + PATIENCE
    while not answers(address, port):
        if process.poll() is not None or time.monotonic() > deadline:
            raise Failed(f"nobody listens on {address}")
        time.sleep(0.01)
    for other in ("127.0.0.1", "127.0.0.2", "127.0.0.3"):
        if other != address and answers(other, port):
            raise Failed(f"it listens on {other}")
    process.terminate()
    process.wait(PATIENCE)


def address_alone(checks):
    checks.files, checks.journal, checks.variables = None, None, {}
    listening(checks, "127.0.0.2", "127.0.0.2", NAME_PORTS[0])


def second_address_is_listened_on(checks):
    """The first one is of another machine."""
    checks.variables = {
        "LD_PRELOAD": checks.names,
        "FIRST_ADDRESS": "192.0.2.1",
        "SECOND_ADDRESS": "127.0.0.2",
    }
    listening(checks, "two.test", "127.0.0.2", NAME_PORTS[1])


def second_address_is_connected_to(checks):
    """Nobody listens on the first one."""

    def act(connection):
        receive_frame(connection)
        connection.sendall(OK)

    variables = {"LD_PRELOAD": checks.names, "FIRST_ADDRESS": "127.0.0.3", "SECOND_ADDRESS": "127.0.0.2"}
    with StandIn(act, "127.0.0.2") as server:
        done = subprocess.run(
            [checks.program, "query", f"two.test:{server.port}", "true"],
            stdin=subprocess.DEVNULL,
            capture_output=True,
            env=variables,
            timeout=PATIENCE,
        )
    if (done.returncode, done.stdout) != (0, b"0 ok\n"):
        raise Failed(f"status {done.returncode}, {done.stdout!r}, {done.stderr!r}")


def main():
    if len(sys.argv) != 2:
        print(__doc__.splitlines()[0], file=sys.stderr)
        return 1
    hold(PORT, OTHER_PORT, *NAME_PORTS)
    with tempfile.TemporaryDirectory() as folder:
        checks = Scarce(str(pathlib.Path(sys.argv[1]).resolve()), pathlib.Path(folder))
        checks.clock, checks.names = compiled("clock", folder), compiled("names", folder)
        try:
            checks.run("the time of an event without one", time_goes_on)
            checks.run("how long the turns of a server take", turns_of_a_server)
            checks.run("how long the turns of a client take", turns_of_a_client)
            checks.run("pieces of up to 200,001 bytes", long_pieces)
            checks.run("a client that is held back, and then reads", held_back)
            checks.run("8 MB of replies in parts", replies_in_parts)
            checks.run("urgent data", urgent_data)
            checks.run("an address of several", address_alone)
            if checks.clock and checks.names:
                checks.run("a clock that is set", clock_that_is_set)
                checks.run("a second address to listen on", second_address_is_listened_on)
                checks.run("a second address to connect to", second_address_is_connected_to)
            else:
                print("skip three checks: no C compiler", flush=True)
        finally:
            checks.end_all()
    return 1 if checks.failed else 0


if __name__ == "__main__":
    sys.exit(main())
