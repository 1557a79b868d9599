#!/usr/bin/env python3
"""scarce.py PROGRAM: tries the built program as a server where something is lacking, over loopback.

Few open files, clients that are gone before they are accepted, urgent data, a client whose socket cannot be watched,
256 clients that were silent for long, and a clock that was wrong. It prints a line for each check, and ends with status
1 if one failed. It takes some minutes, all but seconds of it for the clock, and ends what it starts. The last three
checks need a C compiler, for `refuse.c` and `clock.c`.
"""

import contextlib
import os
import pathlib
import resource
import signal
import socket
import struct
import subprocess
import sys
import tempfile
import time

from journal import OPENED, read_journal
from server import LINKS, OK, Checks, Failed, Server, ask, compiled, event, expect, frame, is_closed, query, receive
from server import receive_frame, reply_of

PORT = 15558
FILES = 20
CLIENTS = 40
# Seconds in which the server has to catch up 56 years, on a slow and busy machine too.
CATCHING_UP = 1800.0


class Scarce(Checks):
    """Checks whose programs have few open files or other variables of the environment, or keep a journal."""

    files, variables, journal = None, {}, None

    def start(self, config, *options, user=None):
        path = self.folder / f"{len(self.processes)}.config"
        path.write_text(config)
        words = ["serve", path] if self.journal is None else ["record", path, self.journal]
        files = self.files
        process = subprocess.Popen(
            [self.program, *words, *options],
            stdin=subprocess.DEVNULL,
            stdout=subprocess.DEVNULL,
            stderr=subprocess.PIPE,
            env={**os.environ, **self.variables},
            preexec_fn=files and (lambda: resource.setrlimit(resource.RLIMIT_NOFILE, (files, files))),
        )
        self.processes.append(process)
        return process


@contextlib.contextmanager
def serving(checks, files=None, journal=None, **variables):
    checks.files, checks.journal, checks.variables = files, journal, variables
    server = Server(checks, PORT)
    try:
        yield server
    finally:
        if server.process.poll() is None:
            server.stop()
        else:
            raise Failed(f"the program ended with {server.process.returncode}: {server.process.stderr.read()!r}")


@contextlib.contextmanager
def paused(server):
    """What clients do meanwhile comes to the program at once."""
    server.process.send_signal(signal.SIGSTOP)
    try:
        yield
    finally:
        server.process.send_signal(signal.SIGCONT)


def processor_seconds(server):
    words = pathlib.Path(f"/proc/{server.process.pid}/stat").read_text().rsplit(")", 1)[1].split()
    return (int(words[11]) + int(words[12])) / os.sysconf("SC_CLK_TCK")


def has_reply(client, patience):
    client.settimeout(patience)
    try:
        return receive(client, len(OK)) == OK
    except socket.timeout:
        return False


def few_files(checks):
    """Clients that there is no file for wait until others leave, and the program does not spin meanwhile."""
    with serving(checks, files=FILES) as server, contextlib.ExitStack() as stack:
        waiting = [stack.enter_context(server.client()) for _ in range(CLIENTS)]
        for client in waiting:
            client.sendall(frame(event(b"a")))
        time.sleep(0.5)
        served = [client for client in waiting if has_reply(client, 0.01)]
        if not 5 < len(served) < FILES:
            raise Failed(f"{len(served)} clients are served")
        waiting = [client for client in waiting if client not in served]
        before = processor_seconds(server)
        time.sleep(1.0)
        if processor_seconds(server) - before > 0.1:
            raise Failed("it spins")
        ask(served[0], frame(event(b"a")), OK)
        while waiting:
            served.pop().close()
            if not has_reply(waiting[0], 5.0):
                raise Failed(f"nobody is served in the place of one that left, and {len(waiting)} wait")
            served.append(waiting.pop(0))
        for client in served:
            ask(client, query(b"true"), reply_of(event(b"a")))


def reset_before_accept(checks):
    with serving(checks) as server, server.client() as other:
        ask(other, frame(event(b"a")), OK)
        with paused(server):
            for _ in range(100):
                client = server.client()
                client.setsockopt(socket.SOL_SOCKET, socket.SO_LINGER, struct.pack("ii", 1, 0))
                client.close()
            late = server.client()
        with late:
            ask(late, query(b"true"), reply_of(event(b"a")))
        ask(other, query(b"true"), reply_of(event(b"a")))


def urgent_data(checks):
    """Bytes after urgent data are read, though a read stops there."""
    with serving(checks) as server, server.client() as client:
        request = frame(event(b"a")) + query(b"true")
        for cut in (1, 6, len(request) - 1):
            with paused(server):
                client.sendall(request[:cut])
                client.send(b"!", socket.MSG_OOB)
                client.sendall(request[cut:])
                time.sleep(0.05)
            expect(client, OK + reply_of(event(b"a")))
        ask(client, request, OK + reply_of(event(b"a")))


def unwatched(checks):
    """A client whose socket the system does not watch is closed, and the journal of the run knows nothing of it."""
    journal = checks.folder / "journal"
    refused = {"LD_PRELOAD": checks.refuse, "REFUSE_KIND": "controls", "REFUSE_AT": "2"}
    with serving(checks, journal=journal, **refused) as server, server.client() as first:
        ask(first, frame(event(b"a")), OK)
        before = open_sockets(server)
        with server.client() as second:
            if not is_closed(second):
                raise Failed("it is not closed")
        if open_sockets(server) != before:
            raise Failed("the server keeps its socket")
        with server.client() as third:
            ask(third, query(b"true"), reply_of(event(b"a")))
        ask(first, query(b"true"), reply_of(event(b"a")))
    _, turns, _ = read_journal(journal.read_bytes())
    opened = [turn.link for turn in turns if turn.kind == OPENED]
    if opened != [0, 1]:
        raise Failed(f"the links {opened} opened")


def open_sockets(server):
    files = pathlib.Path(f"/proc/{server.process.pid}/fd").iterdir()
    return sum(os.readlink(file).startswith("socket:") for file in files)


def is_served(client):
    with contextlib.suppress(ConnectionError):
        client.sendall(frame(event(b"a")))
        return has_reply(client, 5.0)
    return False


class Time:
    """The clock of a program, which is this many seconds ahead of the system's."""

    def __init__(self, checks, ahead=0):
        self.path = checks.folder / "ahead"
        self.variables = {"LD_PRELOAD": checks.clock, "CLOCK_AHEAD": str(self.path)}
        self.set(ahead)

    def set(self, ahead):
        new = self.path.with_suffix(".new")
        new.write_text(f"{ahead}\n")
        new.rename(self.path)


def silent_clients(checks):
    """One more client takes the place of the one that was silent longest, once that was silent for ten minutes."""
    clock = Time(checks)
    with serving(checks, **clock.variables) as server, contextlib.ExitStack() as stack:
        clients = [stack.enter_context(server.client()) for _ in range(LINKS)]
        for client in clients:
            ask(client, frame(event(b"a")), OK)
        clock.set(590)
        for client in clients[:7] + clients[8:]:
            ask(client, frame(event(b"a")), OK)
        if not is_closed(stack.enter_context(server.client())):
            raise Failed("one more is served after ten seconds less")
        clock.set(620)
        late = stack.enter_context(server.client())
        if not is_served(late):
            raise Failed("one more is not served")
        if not is_closed(clients[7]):
            raise Failed("the silent one is not closed")
        if not is_closed(stack.enter_context(server.client())):
            raise Failed("a second one is served")
        for client in clients[:7] + clients[8:]:
            ask(client, frame(event(b"a")), OK)


def clock_that_was_wrong(checks):
    """A machine that boots in 1970: at ten turns a second, of an hour each, 56 years would take nearly 14 hours."""
    clock = Time(checks, -int(time.time()))
    with serving(checks, **clock.variables) as server, server.client() as client:
        if moment_of(client) > 60:
            raise Failed("it does not begin in 1970")
        clock.set(0)
        begun = time.monotonic()
        while (left := int(time.time()) - moment_of(client)) > 3600:
            if time.monotonic() - begun > CATCHING_UP:
                raise Failed(f"{left} seconds are left after {CATCHING_UP} seconds")
            time.sleep(0.1)


def field_of_host(host):
    """An event with a host alone. Its time is the moment that the server has come to."""
    return b"\x32" + bytes([2 + len(host)]) + b"\x22" + bytes([len(host)]) + host


def moment_of(client):
    """The moment that the server has come to: the time of an event without one."""
    client.sendall(frame(field_of_host(b"a")) + query(b"true"))
    expect(client, OK)
    body = receive_frame(client)
    at, moment, shift = body.index(b"\x32") + 3, 0, 0
    while True:
        moment |= (body[at] & 127) << shift
        at, shift = at + 1, shift + 7
        if body[at - 1] < 128:
            return moment


def main():
    if len(sys.argv) != 2:
        print(__doc__.splitlines()[0], file=sys.stderr)
        return 1
    with tempfile.TemporaryDirectory() as folder:
        checks = Scarce(pathlib.Path(sys.argv[1]).resolve(), pathlib.Path(folder))
        try:
            checks.run(f"{CLIENTS} clients with {FILES} open files", few_files)
            checks.run("clients that reset before they are accepted", reset_before_accept)
            checks.run("urgent data", urgent_data)
            checks.refuse, checks.clock = compiled("refuse", folder), compiled("clock", folder)
            if checks.refuse and checks.clock:
                checks.run("a client whose socket cannot be watched", unwatched)
                checks.run("256 clients that were silent, and one more", silent_clients)
                checks.run("a clock that was wrong by 56 years", clock_that_was_wrong)
            else:
                print("skip unwatched and silent clients and a wrong clock: there is no C compiler", flush=True)
        finally:
            checks.end_all()
    return 1 if checks.failed else 0


if __name__ == "__main__":
    sys.exit(main())
