"""Frames and messages as docs/MESSAGES.md has them, a connection that asks queries, and what a process listens on.

The scripts `event.py`, `dump.py`, `riemann-doctor`, `riemann-probe` and `riemann-reload` share it.
"""

import ctypes
import os
import pathlib
import re
import socket
import struct
import subprocess
import sys
import time
from typing import NamedTuple

LIMIT = 4_194_304
FILE_LIMIT = 67_108_864
ANY_HOST = {"0.0.0.0": "127.0.0.1", "::": "::1", "": "127.0.0.1"}
LISTENS, CONNECTED = "0A", "01"


class Refused(Exception):
    """Why something cannot be done, as a text for people."""


class TooLong(Refused):
    """A query whose reply would be over the limit."""


# ---- the wire format


def varint(number):
    """A number modulo 2^64, in its shortest form."""
    number %= 1 << 64
    digits = bytearray()
    while number >= 128:
        digits.append(number % 128 + 128)
        number //= 128
    return bytes(digits) + bytes([number])


def text_field(number, value):
    return varint(number * 8 + 2) + varint(len(value)) + value


def number_field(number, value):
    return varint(number * 8) + varint(value)


def read_varint(body, at):
    value, shift = 0, 0
    while True:
        byte = body[at]
        value |= (byte & 127) << shift
        at, shift = at + 1, shift + 7
        if byte < 128:
            return value % (1 << 64), at


def fields(body):
    """The number and the value of each field: a number for type 0, and bytes for the others."""
    at = 0
    while at < len(body):
        tag, at = read_varint(body, at)
        if tag % 8 == 0:
            value, at = read_varint(body, at)
        else:
            length = {1: 8, 5: 4}.get(tag % 8)
            if length is None:
                length, at = read_varint(body, at)
            value, at = body[at : at + length], at + length
        yield tag // 8, value


def frame(body):
    if len(body) > LIMIT:
        raise Refused(f"a message of {len(body)} bytes is over {LIMIT}")
    return struct.pack(">I", len(body)) + body


# ---- events


def is_ttl(seconds):
    """Whether the seconds are a ttl: binary32 holds them exactly."""
    return 0 <= seconds <= 2**31 - 128 and ctypes.c_float(seconds).value == seconds


def event(host, service, *, time, state=None, description=None, tags=(), ttl=None, attributes=(), metric=None):
    """The field of a message that holds an event. `attributes` are pairs of texts."""
    body = number_field(1, time)
    for number, text in ((2, state), (3, service), (4, host), (5, description), *((7, it) for it in tags)):
        if text is not None:
            body += text_field(number, text.encode())
    if ttl is not None:
        body += varint(8 * 8 + 5) + struct.pack("<f", ttl)
    for key, value in attributes:
        body += text_field(9, text_field(1, key.encode()) + text_field(2, value.encode()))
    if metric is not None:
        body += number_field(13, metric << 1 if metric >= 0 else (-metric << 1) - 1)
    return text_field(6, body)


def frames_of(events, limit=65_536):
    """Frames that hold these fields in order, each of at most `limit` bytes if no event is longer."""
    body = bytearray()
    for it in events:
        if body and len(body) + len(it) > limit:
            yield frame(bytes(body))
            body.clear()
        body += it
    if body:
        yield frame(bytes(body))


# ---- a connection


def address_of(text):
    """The host and the port of HOST:PORT. A host of IPv6 may be in brackets."""
    host, colon, port = text.rpartition(":")
    if not colon or not port.isdecimal() or not 0 < int(port) < 65_536:
        raise Refused(f"{text} is not HOST:PORT")
    host = host.removeprefix("[").removesuffix("]")
    return ANY_HOST.get(host, host), int(port)


def address_text(host, port):
    return f"[{host}]:{port}" if ":" in host else f"{host}:{port}"


class Client:
    """A connection to the server at HOST:PORT. Each wait for it takes at most `patience` seconds."""

    def __init__(self, address, patience=10.0):
        self.address = address
        try:
            self.socket = socket.create_connection(address_of(address), patience)
        except OSError as fault:
            raise Refused(f"no connection to {address}: {fault.strerror or fault}") from fault
        self.socket.setsockopt(socket.IPPROTO_TCP, socket.TCP_NODELAY, 1)

    def __enter__(self):
        return self

    def __exit__(self, *_):
        self.socket.close()

    def receive(self, count):
        text = bytearray()
        while len(text) < count:
            piece = self.socket.recv(min(count - len(text), 65_536))
            if not piece:
                raise Refused(f"{self.address} closed the connection without a reply")
            text += piece
        return bytes(text)

    def exchange(self, body):
        """Sends a message, and gives the events of its reply, each as the field of a message."""
        try:
            self.socket.sendall(frame(body))
            length = struct.unpack(">I", self.receive(4))[0]
            found = list(fields(self.receive(length))) if length <= LIMIT else None
        except OSError as fault:
            raise Refused(f"no reply from {self.address}: {fault.strerror or fault}") from fault
        except IndexError:
            found = None
        if found is None:
            raise Refused(f"the reply of {self.address} is no message of Riemann's")
        if dict(found).get(2) != 1:
            why = dict(found).get(3, b"no reason").decode(errors="replace")
            raise (TooLong if why.startswith("reply of") else Refused)(f"{self.address}: {why}")
        return [text_field(6, value) for number, value in found if number == 6]

    def ask(self, query):
        return self.exchange(text_field(5, text_field(1, query.encode())))


def wait_until_up(address, seconds, is_running=lambda: True):
    """Waits until the server answers a query, for at most `seconds`, and while `is_running` holds."""
    deadline = time.monotonic() + seconds
    while True:
        try:
            with Client(address, max(deadline - time.monotonic(), 0.1)) as client:
                return client.ask("false")
        except Refused as fault:
            if not is_running():
                raise Refused(f"{fault}; its process ended") from fault
            if time.monotonic() > deadline:
                raise
            time.sleep(0.05)


# ---- all live events, in parts

# Numbers from 0 to LAST for the characters, which leave out the surrogates.
LAST = 0x10FFFF - 0x800


def character(number):
    return chr(number if number < 0xD800 else number + 0x800)


def escaped(text):
    return "".join(f"\\x{{{ord(it):x}}}" if not it.isalnum() or ord(it) > 127 else it for it in text)


def quoted(text):
    return '"' + text.replace("\\", "\\\\").replace('"', '\\"') + '"'


class Whole(NamedTuple):
    """The events that meet a rule, which may be told apart by these fields."""

    rule: str
    by: tuple

    def query(self):
        return self.rule

    def parts(self):
        if not self.by:
            raise Refused(f"an event is too long for a reply: {self.rule}")
        (field, *rest), rule = self.by, self.rule
        absent = [Whole(f"{rule} and {field} = {it}", tuple(rest)) for it in ("nil", '""')]
        return [*absent, Range(rule, self.by, "", 0, LAST)]


class Range(NamedTuple):
    """Those whose first field begins with the prefix and then a character of these numbers."""

    rule: str
    by: tuple
    prefix: str
    low: int
    high: int

    def query(self):
        low, high = (f"\\x{{{ord(character(it)):x}}}" for it in (self.low, self.high))
        return f"{self.rule} and {self.by[0]} ~= {quoted(f'^{escaped(self.prefix)}[{low}-{high}]')}"

    def parts(self):
        (field, *rest), low, high = self.by, self.low, self.high
        if low == high:
            prefix = self.prefix + character(low)
            same = Whole(f"{self.rule} and {field} = {quoted(prefix)}", tuple(rest))
            return [same, self._replace(prefix=prefix, low=0, high=LAST)]
        middle = 127 if low < 127 < high else (low + high) // 2
        return [self._replace(high=middle), self._replace(low=middle + 1)]


def live_events(client):
    """All live events of a server, each once. Where a reply would be too long it asks by hosts, and then by services."""
    left = [Whole("true", ("host", "service"))]
    while left:
        part = left.pop()
        try:
            yield from client.ask(part.query())
        except TooLong:
            left.extend(reversed(part.parts()))


def write_dump(address, path):
    """Writes the live events of a server to a file, as frames; gives the number of events and of bytes.

    The file belongs to whom its folder belongs to, and is there only once it is whole.
    """
    new = f"{path}.new"
    count, size = 0, 0

    def counted(events):
        nonlocal count
        for it in events:
            count += 1
            yield it

    try:
        if os.path.lexists(new):
            os.unlink(new)
        with Client(address) as client, open(os.open(new, os.O_WRONLY | os.O_CREAT | os.O_EXCL, 0o600), "wb") as file:
            for it in frames_of(counted(live_events(client))):
                size += file.write(it)
                if size > FILE_LIMIT:
                    raise Refused(f"the index of {address} has over {FILE_LIMIT} bytes, more than `riemann send` takes")
            folder = os.stat(os.path.dirname(os.path.abspath(path)))
            if os.geteuid() == 0:
                os.fchown(file.fileno(), folder.st_uid, folder.st_gid)
            file.flush()
            os.fsync(file.fileno())
        os.replace(new, path)
    except OSError as fault:
        raise Refused(f"cannot write {path}: {fault.strerror}") from fault
    finally:
        if os.path.lexists(new):
            os.unlink(new)
    return count, size


# ---- the program, its configuration, and its process


def program_beside(script):
    """The program `riemann` in the folder from which a script was started, or else on the path."""
    beside = pathlib.Path(script).absolute().parent / "riemann"
    return str(beside) if beside.exists() else "riemann"


def run(program, *words):
    try:
        return subprocess.run([program, *words], stdin=subprocess.DEVNULL, capture_output=True, check=False)
    except OSError as fault:
        raise Refused(f"cannot run {program}: {fault.strerror}") from fault


def address_in(canonical):
    """The host and the port in the canonical text of a configuration."""
    found = re.match(rb'\(tcp-server \{:host "((?:\\.|[^"\\])*)" :port (\d+)\}\)', canonical, re.DOTALL)
    if not found:
        raise Refused("no tcp-server in the canonical text")
    escapes = {"n": "\n", "r": "\r", "t": "\t"}
    host = re.sub(r"\\(.)", lambda it: escapes.get(it[1], it[1]), found[1].decode(), flags=re.DOTALL)
    return host, int(found[2])


def address_in_config(program, config):
    """HOST:PORT of a configuration that the program accepts."""
    read = run(program, "check", config)
    if read.returncode:
        raise Refused(read.stderr.decode(errors="replace").strip() or f"{program} check: status {read.returncode}")
    host, port = address_in(read.stdout)
    if port == 0:
        raise Refused(f"{config} lets the system pick a port")
    return address_text(host, port)


class Socket(NamedTuple):
    """A TCP socket of this machine, as /proc/net lists it."""

    host: str
    port: int
    state: str
    inode: str


def sockets_of(process="self"):
    """The sockets in the network of a process."""
    for name, family in (("tcp", socket.AF_INET), ("tcp6", socket.AF_INET6)):
        try:
            lines = pathlib.Path(f"/proc/{process}/net/{name}").read_text().splitlines()[1:]
        except OSError:
            continue
        for words in map(str.split, lines):
            host, port = words[1].split(":")
            # Words of four bytes, in the order of this machine.
            numbers = struct.unpack(f">{len(host) // 8}I", bytes.fromhex(host))
            packed = struct.pack(f"={len(numbers)}I", *numbers)
            yield Socket(socket.inet_ntop(family, packed), int(port, 16), words[3], words[9])


def inodes_of(process):
    """The sockets that a process has open; nothing if nobody may look."""
    found = set()
    try:
        for it in os.scandir(f"/proc/{process}/fd"):
            try:
                found.add(os.readlink(it.path).removeprefix("socket:[").removesuffix("]"))
            except OSError:
                continue
    except OSError:
        pass
    return found


def listened_by(process):
    """HOST:PORT on which a process listens."""
    inodes = inodes_of(process)
    for it in sockets_of(process):
        if it.state == LISTENS and it.inode in inodes:
            return address_text(it.host, it.port)
    raise Refused(f"process {process} listens on no address, or nobody may look")


def listeners(host, port):
    """The sockets that listen on an address or on all of them, each with its process, or None where nobody may look."""
    taken = {it.inode for it in sockets_of() if it.state == LISTENS and it.port == port
             and (it.host == host or it.host in ANY_HOST or host in ANY_HOST)}
    owners = {}
    for process in (it for it in os.listdir("/proc") if it.isdecimal()):
        if taken:
            owners |= {inode: int(process) for inode in taken & inodes_of(process)}
    return {inode: owners.get(inode) for inode in taken}


def main_of(act, arguments):
    """Runs a script: what is refused is a line on standard error, and the status 1."""
    try:
        return act(arguments) or 0
    except Refused as fault:
        print(f"{pathlib.Path(sys.argv[0]).name}: {fault}", file=sys.stderr)
        return 1
