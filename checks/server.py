#!/usr/bin/env python3
"""server.py PROGRAM: tries the built program as a server, over loopback, and with a generated load.

It writes configurations into a folder of its own, starts `PROGRAM serve CONFIG` on the ports 15555 to 15557, and talks to
it. It prints a line for each check, and ends with status 1 if one failed. It takes under a minute, and ends what it starts.
"""

import contextlib
import os
import pathlib
import shutil
import signal
import socket
import struct
import subprocess
import sys
import tempfile
import time

HERE = pathlib.Path(__file__).resolve().parent
FIRST_PORT, PORT, TAKEN_PORT = 15555, 15556, 15557
LINKS = 256
LIMIT = 4_194_304
PATIENCE = 30.0
LINKS_FAILED = b"riemann: links failed\n"
LINK_FAULT = 5


class Failed(Exception):
    """A check that did not hold, with what was seen."""


class Skipped(Exception):
    """A check that this machine does not let be made, and why."""


def need(*tools):
    for tool in tools:
        if not shutil.which(tool):
            raise Skipped(f"no {tool}")


# ---- ports

HELD = []


def hold(*ports):
    """Waits until no other check and no other program of this machine has these ports. No other check has them before this
    process ends."""
    deadline = time.monotonic() + 20 * PATIENCE
    for port in sorted(ports):
        HELD.append(socket.socket(socket.AF_UNIX))
        while True:
            try:
                # A name that is in no file, and goes with the process.
                HELD[-1].bind(f"\0riemann checks {port}")
                break
            except OSError:
                if time.monotonic() > deadline:
                    raise
                time.sleep(0.1)
        while True:
            with socket.socket() as tried:
                tried.setsockopt(socket.SOL_SOCKET, socket.SO_REUSEADDR, 1)
                try:
                    tried.bind(("0.0.0.0", port))
                    tried.listen()
                    break
                except OSError as fault:
                    if time.monotonic() > deadline:
                        raise OSError(f"another program has the port {port}") from fault
                    time.sleep(0.1)


# ---- messages, in the wire format of Protocol Buffers


def frame(body):
    return struct.pack(">I", len(body)) + body


def varint(number):
    digits = b""
    while number >= 128:
        digits += bytes([number % 128 + 128])
        number //= 128
    return digits + bytes([number])


def field(number, value):
    """A field of bytes."""
    return varint(number * 8 + 2) + varint(len(value)) + value


def event(host, service=b"b", description=None):
    """An event with the state "ok", the time 100 and the metric 5."""
    text = b"\x08\x64" + field(2, b"ok") + field(3, service) + field(4, host)
    if description is not None:
        text += field(5, description)
    return field(6, text + b"\x68\x0a")


def query(text):
    return frame(field(5, field(1, text)))


OK = frame(b"\x10\x01")


def reply_of(*events):
    return frame(b"\x10\x01" + b"".join(events))


# ---- the program


class Server:
    """The program, as it serves a configuration on a port."""

    def __init__(self, check, port, *options, host="127.0.0.1", user=None):
        self.port = port
        text = f'(tcp-server {{:host "{host}" :port {port}}}) (streams index)'
        self.process = check.start(text, *options, user=user)

    def client(self):
        """A connection, as soon as the program listens."""
        deadline = time.monotonic() + PATIENCE
        while True:
            try:
                client = socket.create_connection(("127.0.0.1", self.port), PATIENCE)
                client.setsockopt(socket.IPPROTO_TCP, socket.TCP_NODELAY, 1)
                return client
            except ConnectionRefusedError:
                if self.process.poll() is not None:
                    raise Failed(f"the program ended with {self.process.returncode}")
                if time.monotonic() > deadline:
                    raise Failed("the program does not listen")
                time.sleep(0.01)

    def stop(self):
        """Ends the program by SIGTERM."""
        self.process.send_signal(signal.SIGTERM)
        self.process.wait(PATIENCE)

    def end(self, patience=PATIENCE):
        """The status and the error stream of a program that ends by itself."""
        try:
            _, err = self.process.communicate(timeout=patience)
        except subprocess.TimeoutExpired:
            raise Failed(f"the program did not end within {patience} seconds")
        return self.process.returncode, err


class Checks:
    """The checks, and what they started."""

    def __init__(self, program, folder):
        self.program, self.folder = program, folder
        self.processes, self.failed, self.note = [], 0, ""

    def start(self, config, *options, user=None):
        path = self.folder / f"{len(self.processes)}.config"
        path.write_text(config)
        path.chmod(0o644)
        process = subprocess.Popen(
            [self.program, "serve", str(path), *options],
            stdin=subprocess.DEVNULL,
            stdout=subprocess.DEVNULL,
            stderr=subprocess.PIPE,
            user=user,
        )
        self.processes.append(process)
        return process

    def run(self, name, check):
        begun = time.monotonic()
        try:
            check(self)
            outcome = "ok  "
        except Skipped as why:
            outcome, name = "skip", f"{name}: {why}"
        except (Failed, OSError, subprocess.SubprocessError) as fault:
            self.failed += 1
            outcome, name = "FAIL", f"{name}: {fault}"
        print(f"{outcome} {name} ({time.monotonic() - begun:.1f} s)", flush=True)
        if self.note:
            print(f"     {self.note}", flush=True)
            self.note = ""

    def end_all(self):
        """Ends each program, and what it started where it has a session of its own."""
        for process in self.processes:
            if process.poll() is None:
                kill = os.killpg if os.getpgid(process.pid) == process.pid else os.kill
                kill(process.pid, signal.SIGKILL)
                process.wait()


def run_all(about, named, *ports, prepare=lambda checks: None):
    """Runs the checks of these names with the program that the arguments name, and gives the status. `prepare` comes first,
    and the ports are theirs alone."""
    if len(sys.argv) != 2:
        print(about.splitlines()[0], file=sys.stderr)
        return 1
    hold(*ports)
    # A signal that is ignored here, as by nohup, is ignored by all that is started.
    for one in (signal.SIGHUP, signal.SIGQUIT):
        signal.signal(one, signal.SIG_DFL)
    signal.signal(signal.SIGINT, signal.default_int_handler)
    # Another user looks into the folders too.
    os.umask(0o022)
    with tempfile.TemporaryDirectory(ignore_cleanup_errors=True) as folder:
        folder = pathlib.Path(folder)
        folder.chmod(0o755)
        checks = Checks(str(pathlib.Path(sys.argv[1]).resolve()), folder)
        try:
            prepare(checks)
            for name, check in named.items():
                checks.run(name, check)
                checks.end_all()
        except Skipped as why:
            print(f"skip all: {why}")
        finally:
            checks.end_all()
    return 1 if checks.failed else 0


def compiled(source, folder):
    """The library of a source in this folder that is loaded into a program, or None without a C compiler."""
    compiler = shutil.which("cc") or shutil.which("gcc")
    if compiler is None:
        return None
    library = pathlib.Path(folder) / f"{source}.so"
    words = [compiler, "-O1", "-shared", "-fPIC", "-o", library, HERE / f"{source}.c"]
    subprocess.run(words, check=True)
    return str(library)


# ---- clients


def receive(client, count):
    """So many bytes, or those up to the end."""
    text = b""
    while len(text) < count:
        piece = client.recv(min(65_536, count - len(text)))
        if not piece:
            break
        text += piece
    return text


def expect(client, wanted):
    text = receive(client, len(wanted))
    if text != wanted:
        raise Failed(f"got {text.hex() or 'nothing'} for {wanted.hex()}")


def ask(client, request, wanted):
    client.sendall(request)
    expect(client, wanted)


def receive_frame(client):
    head = receive(client, 4)
    if len(head) < 4:
        raise Failed("the connection ended where a reply was to come")
    count = struct.unpack(">I", head)[0]
    body = receive(client, count)
    if len(body) < count:
        raise Failed("the connection ended in the middle of a reply")
    return body


def is_closed(client):
    """Whether the other side ends the connection, with no byte before."""
    try:
        return client.recv(1) == b""
    except ConnectionResetError:
        return True


@contextlib.contextmanager
def serving(checks, port=PORT):
    server = Server(checks, port)
    try:
        yield server
    finally:
        if server.process.poll() is None:
            server.stop()


# ---- the checks


def first_exchange(checks):
    """An event and a query for all events, in two pieces."""
    checks.first = Server(checks, FIRST_PORT, "--turns", "200")
    with checks.first.client() as client:
        request = frame(event(b"a")) + query(b"true")
        client.sendall(request[:9])
        time.sleep(0.05)
        client.sendall(request[9:])
        expect(client, OK + reply_of(event(b"a")))


def turns_end(checks):
    status, err = checks.first.end(40.0)
    if (status, err) != (0, b""):
        raise Failed(f"status {status}, line {err!r}")


def cut_at_every_byte(checks):
    """Two clients at once, each of whose frames is cut at each byte once."""
    with serving(checks) as server, server.client() as one, server.client() as two:
        first = frame(event(b"a")) + query(b'host = "a"')
        second = frame(event(b"b")) + query(b'host = "b"')
        for cut in range(1, len(first)):
            one.sendall(first[:cut])
            two.sendall(second[:-cut])
            time.sleep(0.002)
            two.sendall(second[-cut:])
            one.sendall(first[cut:])
            expect(one, OK + reply_of(event(b"a")))
            expect(two, OK + reply_of(event(b"b")))
        for byte, other in zip(first, second):
            one.sendall(bytes([byte]))
            two.sendall(bytes([other]))
            time.sleep(0.001)
        expect(one, OK + reply_of(event(b"a")))
        expect(two, OK + reply_of(event(b"b")))


def reset_in_a_frame(checks):
    with serving(checks) as server, server.client() as other:
        ask(other, frame(event(b"a")), OK)
        for cut in (1, 3, 4, 7):
            client = server.client()
            client.sendall(frame(event(b"b"))[:cut])
            time.sleep(0.02)
            client.setsockopt(socket.SOL_SOCKET, socket.SO_LINGER, struct.pack("ii", 1, 0))
            client.close()
            ask(other, query(b"true"), reply_of(event(b"a")))


def full_house(checks):
    """One client more than are served at once, and one that comes when another has left."""
    with serving(checks) as server, contextlib.ExitStack() as stack:
        clients = [stack.enter_context(server.client()) for _ in range(LINKS)]
        last = stack.enter_context(server.client())
        if not is_closed(last):
            raise Failed("the last one is not closed")
        for client in clients:
            client.sendall(frame(event(b"a")))
        for client in clients:
            expect(client, OK)
        clients[0].close()
        deadline = time.monotonic() + PATIENCE
        while time.monotonic() < deadline:
            with server.client() as late, contextlib.suppress(ConnectionError):
                late.sendall(frame(event(b"a")))
                if receive(late, len(OK)) == OK:
                    return
        raise Failed("nobody is served in the place of one that left")


def client_that_never_reads(checks):
    """It asks for far more than is kept for it, and another one is answered meanwhile."""
    asked = 200
    services = sorted(b"s%d" % number for number in range(200))
    events = [event(b"a", service, b"x" * 1000) for service in services]
    whole = reply_of(*events)[4:]
    with serving(checks) as server, server.client() as silent, server.client() as other:
        ask(silent, frame(b"".join(events)), OK)
        silent.sendall(query(b"true") * asked)
        for _ in range(50):
            ask(other, query(b'host = "c"'), OK)
            time.sleep(0.01)
        replies = [receive_frame(silent) for _ in range(asked)]
    busy = [body for body in replies if body.startswith(b"\x10\x00") and b"busy: " in body[:16]]
    if replies.count(whole) + len(busy) != asked:
        raise Failed("a reply that is neither the events nor busy")
    if not busy:
        raise Failed(f"{asked} replies of {len(whole)} bytes were kept for it")


def length_over_the_limit(checks):
    """It is answered with an error, and then the connection ends."""
    error = f"frame of {LIMIT + 1} bytes over {LIMIT}".encode()
    with serving(checks) as server, server.client() as client:
        client.sendall(frame(event(b"a")) + struct.pack(">I", LIMIT + 1))
        expect(client, OK + frame(b"\x10\x00" + field(3, error)))
        if not is_closed(client):
            raise Failed("the connection stays")


def cannot_listen(checks, port, host="127.0.0.1", user=None, patience=PATIENCE):
    status, err = Server(checks, port, host=host, user=user).end(patience)
    if (status, err) != (LINK_FAULT, LINKS_FAILED):
        raise Failed(f"status {status}, line {err!r}")


def address_in_use(checks):
    with socket.socket() as taken:
        taken.bind(("127.0.0.1", TAKEN_PORT))
        taken.listen()
        cannot_listen(checks, TAKEN_PORT)


def unknown_host(checks):
    """The system may take its time to find that no host has the name."""
    cannot_listen(checks, PORT, host="no-such-host.invalid", patience=120.0)


def address_of_another(checks):
    cannot_listen(checks, PORT, host="192.0.2.1")


def privileged_port(checks):
    """Tried as nobody, where this is tried as root."""
    cannot_listen(checks, 1, user=65_534 if os.geteuid() == 0 else None)


def has_privileged_ports():
    try:
        least = pathlib.Path("/proc/sys/net/ipv4/ip_unprivileged_port_start").read_text()
    except OSError:
        return True
    return int(least) > 1


def free_again(checks):
    """The port of a program that was ended while it had clients."""
    for _ in range(3):
        with contextlib.ExitStack() as stack:
            server = Server(checks, PORT)
            clients = [stack.enter_context(server.client()) for _ in range(4)]
            for client in clients:
                ask(client, frame(event(b"a")), OK)
            server.stop()


def generated_load(checks):
    path = checks.folder / "load.config"
    path.write_text('(streams (notice "n"))')
    ended = subprocess.run(
        [checks.program, "load", str(path), "100000", "7"],
        stdin=subprocess.DEVNULL,
        capture_output=True,
        timeout=120.0,
    )
    wanted = (0, b"events 100000 notices 100000 replies 100001 live 0\n", b"")
    if (ended.returncode, ended.stdout, ended.stderr) != wanted:
        raise Failed(f"status {ended.returncode}, {ended.stdout!r}, {ended.stderr!r}")


def main():
    if len(sys.argv) != 2:
        print(__doc__.splitlines()[0], file=sys.stderr)
        return 1
    hold(FIRST_PORT, PORT, TAKEN_PORT)
    with tempfile.TemporaryDirectory() as folder:
        folder = pathlib.Path(folder)
        folder.chmod(0o755)
        # Another user runs it too, who may not look into the repository.
        program = folder / "riemann"
        shutil.copy(sys.argv[1], program)
        program.chmod(0o755)
        checks = Checks(program, folder)
        try:
            checks.run("an event and a query in two pieces", first_exchange)
            checks.run("frames of two clients, cut at every byte", cut_at_every_byte)
            checks.run("a reset in the middle of a frame", reset_in_a_frame)
            checks.run("257 clients at once", full_house)
            checks.run("a client that never reads", client_that_never_reads)
            checks.run("a length over the limit", length_over_the_limit)
            checks.run("an address in use", address_in_use)
            checks.run("a host that is not known", unknown_host)
            checks.run("an address of another machine", address_of_another)
            if has_privileged_ports():
                checks.run("a privileged port", privileged_port)
            else:
                print("skip a privileged port: this system has none", flush=True)
            checks.run("a port that is free again", free_again)
            checks.run("a generated load of 100,000 events", generated_load)
            checks.run("200 turns, and then the end", turns_end)
        finally:
            checks.end_all()
    return 1 if checks.failed else 0


if __name__ == "__main__":
    sys.exit(main())
