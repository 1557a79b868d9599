#!/usr/bin/env python3
"""journal.py PROGRAM [--kills N] [--only WORD]: tries the commands `record` and `resume` of the built program.

It kills a server that keeps a journal, with SIGKILL, N times (300) at random moments under the load of several clients, and
resumes it each time: no event that was answered is lost, the lines go on with those of one turn at most put twice, and the
file is one journal. It fills the disk at each byte, cuts a short journal at each byte, and changes each of its bytes. It
prints a line for each check, says what it skips, and ends with status 1 if one failed. It takes some minutes, listens on port
15570, and ends what it starts.
"""

import argparse
import collections
import contextlib
import os
import pathlib
import random
import resource
import shutil
import signal
import socket
import struct
import subprocess
import sys
import tempfile
import threading
import time

from server import OK, PATIENCE, Checks, Failed, field, frame, hold, query, receive, receive_frame, reply_of, varint

PORT = 15570
DONE, CONFIG, LINK_FAULT, JOURNAL, DISK_FAULT = 0, 2, 5, 15, 16
DISK_FAILED = b"riemann: disk failed\n"
CONFIG_LIMIT, JOURNAL_LIMIT, STEP_LIMIT, PIECE_LIMIT, SUMMARIES = 1_048_576, 67_108_864, 69_929, 65_536, 257
NOBODY = 65_534
TEXT = f'(tcp-server {{:host "127.0.0.1" :port {PORT}}}) (streams index (notice "n"))'.encode()
LISTEN, IDLE, OPENED, READ, ENDED, BROKEN, ROOM = range(7)


# ---- journals


Turn = collections.namedtuple("Turn", "secs kind link bytes")


class Misfit(Exception):
    """A file that is no journal, with the first place that does not fit."""


class Short(Exception):
    """The bytes end before a part does, or the part is not valid."""


def part(text, place, count):
    if place + count > len(text):
        raise Short
    return text[place : place + count]


def number(text, place, count):
    return int.from_bytes(part(text, place, count), "big")


def read_record(text, place, first):
    """The turn of the record at the place, and the place after it."""
    links = set()
    count = number(text, place, 2)
    if count > SUMMARIES:
        raise Short
    place += 2
    for _ in range(count):
        links.add(number(text, place, 8))
        if number(text, place + 16, 1) > 2:
            raise Short
        place += 17
    if len(links) < count:
        raise Short
    secs, kind = number(text, place, 8), number(text, place + 8, 1)
    place += 9
    if kind > ROOM or (kind == LISTEN) != first:
        raise Short
    if kind in (LISTEN, IDLE):
        return Turn(secs, kind, None, b""), place
    link = number(text, place, 8)
    place += 8
    if kind != READ:
        return Turn(secs, kind, link, b""), place
    count = number(text, place, 4)
    if not 1 <= count <= PIECE_LIMIT:
        raise Short
    return Turn(secs, kind, link, part(text, place + 4, count)), place + 4 + count


def read_head(text):
    """The configuration, and the place after it."""
    text = text[:JOURNAL_LIMIT]
    if not text or text[0] == 0:
        raise Misfit(0)
    with contextlib.suppress(Short):
        size = number(text, 1, 4)
        if size > CONFIG_LIMIT:
            raise Misfit(1)
        if 5 + size > len(text):
            raise Misfit(5)
        return text[5 : 5 + size], 5 + size
    raise Misfit(1)


def read_turns(text, place, first):
    """The turns from a gate on, and the place of the closed gate."""
    text, turns = text[:JOURNAL_LIMIT], []
    while True:
        if place >= len(text):
            raise Misfit(place)
        if text[place] == 0:
            return turns, place
        try:
            turn, after = read_record(text, place + 1, first and not turns)
        except Short:
            raise Misfit(place + 1) from None
        turns.append(turn)
        place = after


def read_journal(text):
    config, place = read_head(text)
    return config, *read_turns(text, place, True)


def is_free(text):
    """Whether a journal may be begun in such a file."""
    return len(text) < 2 or text[0] == 0


def head(config):
    return b"\x01" + struct.pack(">I", len(config)) + config


def record_of(secs, kind, link=None, data=None, taken=None):
    """A record; `taken` is how many bytes of the link were taken since the one before."""
    text = b"\x00\x00" if taken is None else b"\x00\x01" + struct.pack(">QQB", link, taken, 0)
    text += struct.pack(">QB", secs, kind)
    if link is not None:
        text += struct.pack(">Q", link)
    if data is not None:
        text += struct.pack(">I", len(data)) + data
    return text


# ---- what a run comes to


def event_of(host, metric):
    """An event with the state "ok", the time 100 and this metric."""
    return field(6, b"\x08\x64" + field(2, b"ok") + field(3, b"b") + field(4, host) + b"\x68" + varint(2 * metric))


def event_in(body):
    """The host and the metric of such an event."""
    size = body[12]
    host = body[13 : 13 + size]
    shift, metric = 0, 0
    for byte in body[14 + size :]:
        metric |= (byte & 127) << shift
        shift += 7
    return host, metric // 2


def line_of(moment, host, metric):
    return b'%d "n" {host="%s" service="b" state="ok" time=100 metric=%d}\n' % (moment, host, metric)


class Run:
    """What the turns of a journal come to, as far as they were read."""

    def __init__(self):
        self.text, self.gate, self.now = b"", None, None
        self.lines, self.events, self.found = [], set(), {}
        self.pieces = {}

    def go_on(self, text):
        """Reads a journal that goes on with the one that was read before."""
        if self.gate is None:
            _, place = read_head(text)
        else:
            place = self.gate
            if text[:place] != self.text[:place]:
                raise Failed("the journal does not begin with the one that was there before")
        turns, self.gate = read_turns(text, place, not self.lines)
        self.text = text
        for turn in turns:
            self.take(turn)

    def take(self, turn):
        if turn.kind == LISTEN:
            self.now = turn.secs
        self.now = max(self.now, min(turn.secs, self.now + 3600))
        lines = []
        if turn.kind == OPENED:
            self.pieces[turn.link] = b""
        if turn.kind == READ:
            piece = self.pieces[turn.link] + turn.bytes
            while len(piece) >= 4 and len(piece) >= 4 + struct.unpack(">I", piece[:4])[0]:
                size = struct.unpack(">I", piece[:4])[0]
                body, piece = piece[4 : 4 + size], piece[4 + size :]
                if body[:1] == b"\x32":
                    host, metric = event_in(body)
                    self.events.add((host, metric))
                    self.found[host] = metric
                    lines.append(line_of(self.now, host, metric))
            self.pieces[turn.link] = piece
        self.lines.append(b"".join(lines))

    def reply(self):
        return reply_of(*(event_of(host, self.found[host]) for host in sorted(self.found)))


# ---- the program


class Keeper:
    """The program, as it keeps a journal."""

    def __init__(self, checks, *arguments, limit=None, user=None, env=None):
        self.out = checks.folder / f"{len(checks.processes)}.out"
        settings = {}
        if limit is not None:
            # A write past the limit fails then, as on a full disk.
            settings = {"preexec_fn": lambda: limit_files(limit), "restore_signals": False}
        with open(self.out, "wb") as out:
            self.process = subprocess.Popen(
                [str(checks.program), *map(str, arguments)],
                stdin=subprocess.DEVNULL,
                stdout=subprocess.DEVNULL if limit is not None else out,
                stderr=subprocess.PIPE,
                user=user,
                env=env,
                **settings,
            )
        checks.processes.append(self.process)

    def client(self):
        """A connection, as soon as the program listens; None if it ended."""
        deadline = time.monotonic() + PATIENCE
        while self.process.poll() is None:
            try:
                client = socket.create_connection(("127.0.0.1", PORT), PATIENCE)
                client.setsockopt(socket.IPPROTO_TCP, socket.TCP_NODELAY, 1)
                return client
            except ConnectionRefusedError:
                if time.monotonic() > deadline:
                    raise Failed("the program does not listen") from None
                time.sleep(0.002)
        return None

    def kill(self):
        self.process.send_signal(signal.SIGKILL)
        self.process.wait(PATIENCE)
        self.process.stderr.close()

    def end(self):
        """The status and the error stream of a program that ends by itself."""
        try:
            _, err = self.process.communicate(timeout=PATIENCE)
        except subprocess.TimeoutExpired:
            raise Failed("the program did not end") from None
        return self.process.returncode, err


def limit_files(limit):
    signal.signal(signal.SIGXFSZ, signal.SIG_IGN)
    resource.setrlimit(resource.RLIMIT_FSIZE, (limit, limit))


def expect_end(keeper, status, err):
    came = keeper.end()
    if came != (status, err):
        raise Failed(f"{came} for {(status, err)}")


def config(checks):
    path = checks.folder / "journal.config"
    path.write_bytes(TEXT)
    return path


class Load(threading.Thread):
    """A client that sends events, some at a time, until the connection ends. `answered` are those with a reply."""

    def __init__(self, keeper, name, first):
        super().__init__(daemon=True)
        self.keeper, self.name_, self.metric = keeper, name, first
        self.answered = []

    def run(self):
        with contextlib.suppress(OSError, Failed):
            client = self.keeper.client()
            if client is None:
                return
            with client:
                while self.send_some(client):
                    pass

    def send_some(self, client):
        count = random.choice((1, 1, 1, 2, 5, 20))
        some = []
        for _ in range(count):
            self.metric += 1
            some.append((b"%s-%d" % (self.name_, self.metric % 50), self.metric))
        client.sendall(b"".join(frame(event_of(*one)) for one in some))
        for one in some:
            if receive(client, len(OK)) != OK:
                return False
            self.answered.append(one)
        return True


# ---- killed


def is_killed(checks):
    """Journals of up to thirty kills each."""
    left = checks.kills
    killed = turns = answered = 0
    while left > 0:
        count = min(left, 30)
        run = kill_journal(checks, checks.folder / f"killed{left}", count)
        killed, turns, answered = killed + count, turns + len(run.lines), answered + len(run.events)
        left -= count
    checks.note = f"{killed} kills, {turns} turns, {answered} events"


def kill_journal(checks, path, kills):
    run, metric = Run(), 0
    for kill in range(kills):
        begun = len(run.lines)
        keeper = Keeper(checks, "record", config(checks), path) if run.gate is None else Keeper(checks, "resume", path)
        loads = [Load(keeper, b"c%d" % number, metric) for number in range(4)]
        for load in loads:
            load.start()
        time.sleep(random.choice((random.uniform(0.0, 0.02), random.uniform(0.02, 0.3), random.uniform(0.02, 0.3))))
        keeper.kill()
        for load in loads:
            load.join(PATIENCE)
        metric = max(load.metric for load in loads)
        text = path.read_bytes() if path.exists() else b""
        if run.gate is None and is_free(text):
            if any(load.answered for load in loads):
                raise Failed(f"kill {kill}: events were answered before there was a journal")
            continue
        try:
            run.go_on(text)
        except Misfit as misfit:
            raise Failed(f"kill {kill}: the file does not fit at {misfit}") from None
        lost = [one for load in loads for one in load.answered if one not in run.events]
        if lost:
            raise Failed(f"kill {kill}: {len(lost)} answered events are not in the journal, as {lost[0]}")
        check_lines(kill, run, begun, keeper.out.read_bytes())
        keeper.out.unlink()
    if run.gate is not None:
        check_found(checks, path, run)
    return run


def check_lines(kill, run, begun, out):
    """The run put the lines of the last turn before it and of those after it, but maybe not all of the last."""
    start = begun - 1 if begun > 1 else begun
    whole, last = b"".join(run.lines[start:-1]), run.lines[-1] if len(run.lines) > start else b""
    if not out.startswith(whole) or not (whole + last).startswith(out):
        raise Failed(f"kill {kill}: {len(out)} bytes of lines for {len(whole)} to {len(whole) + len(last)}")


def check_found(checks, path, run):
    """A server that is resumed once more finds the last event of each host."""
    keeper = Keeper(checks, "resume", path)
    try:
        client = keeper.client()
        if client is None:
            raise Failed(f"the program ended: {keeper.end()}")
        with client:
            client.sendall(query(b"true"))
            reply = receive_frame(client)
    finally:
        if keeper.process.poll() is None:
            keeper.kill()
    if reply != run.reply()[4:]:
        raise Failed(f"{len(reply)} bytes were found for {len(run.reply()) - 4}")


def is_killed_at_the_start(checks):
    """While the journal is begun a crash leaves one without a record, or a file in which one may be begun."""
    free = 0
    for kill in range(100):
        path = checks.folder / "begun"
        path.unlink(missing_ok=True)
        if kill % 2:
            path.write_bytes(b"\x00" + b"\xff" * 200)
        keeper = Keeper(checks, "record", config(checks), path)
        time.sleep(random.uniform(0.0, 0.01))
        keeper.kill()
        text = path.read_bytes() if path.exists() else b""
        if is_free(text):
            free += 1
            continue
        try:
            read_journal(text)
        except Misfit as misfit:
            raise Failed(f"kill {kill}: the file does not fit at {misfit}") from None
    checks.note = f"{free} of 100 files were left free"


# ---- full disks


def fill(checks, limit, path):
    """One run that ends as the disk is full."""
    keeper = Keeper(checks, "record", config(checks), path, limit=limit)
    load = Load(keeper, b"f", 0)
    load.start()
    expect_end(keeper, DISK_FAULT, DISK_FAILED)
    load.join(PATIENCE)
    check_full(limit, path, load.answered)


def check_full(limit, path, answered):
    text = path.read_bytes() if path.exists() else b""
    if is_free(text):
        if answered:
            raise Failed(f"limit {limit}: events were answered before there was a journal")
        return
    run = Run()
    try:
        run.go_on(text)
    except Misfit as misfit:
        raise Failed(f"limit {limit}: the file does not fit at {misfit}") from None
    if any(one not in run.events for one in answered):
        raise Failed(f"limit {limit}: an answered event is not in the journal")


def is_full(checks):
    """The file may have so many bytes and no more."""
    for limit in range(len(head(TEXT)) + 200):
        path = checks.folder / "full"
        path.unlink(missing_ok=True)
        fill(checks, limit, path)


def is_full_and_resumed(checks):
    """What a full disk left is resumed once there is room."""
    for limit in (1500, 3000, 20_000):
        path = checks.folder / "refilled"
        path.unlink(missing_ok=True)
        fill(checks, limit, path)
        run = Run()
        run.go_on(path.read_bytes())
        check_found(checks, path, run)


@contextlib.contextmanager
def small_disk(folder, size):
    """A file system in memory of this size; None where none can be mounted."""
    folder.mkdir(exist_ok=True)
    mounted = shutil.which("mount") is not None and subprocess.run(
        ["mount", "-t", "tmpfs", "-o", f"size={size}", "tmpfs", str(folder)], capture_output=True
    )
    if not mounted or mounted.returncode:
        yield None
        return
    try:
        yield folder
    finally:
        subprocess.run(["umount", str(folder)], check=False, capture_output=True)


def is_full_disk(checks):
    for size in (4096, 8192, 65_536, 262_144):
        with small_disk(checks.folder / "small", size) as disk:
            if disk is None:
                checks.note = "skipped: no file system can be mounted"
                return
            path = disk / "j"
            keeper = Keeper(checks, "record", config(checks), path)
            load = Load(keeper, b"f", 0)
            load.start()
            expect_end(keeper, DISK_FAULT, DISK_FAILED)
            load.join(PATIENCE)
            check_full(size, path, load.answered)


# ---- files that are refused


SHORT = b"(tcp-server {:port %d}) (streams index)" % PORT


def short_journal():
    reads = record_of(2, READ, 0, frame(event_of(b"a", 5)))
    turns = [record_of(0, LISTEN), record_of(1, OPENED, 0), reads, record_of(3, ENDED, 0, taken=len(OK))]
    return head(SHORT) + b"".join(b"\x01" + turn for turn in turns) + b"\x00"


def try_bytes(checks, text):
    """The program refuses a file that is no journal, and resumes one that is. Its turns stay the first of the journal."""
    path = checks.folder / "bytes"
    path.write_bytes(text)
    keeper = Keeper(checks, "resume", path)
    try:
        kept, turns, _ = read_journal(text)
    except Misfit as misfit:
        expect_end(keeper, JOURNAL, b"riemann: journal refused at %d\n" % misfit.args[0])
        if path.read_bytes() != text:
            raise Failed("a file that was refused was changed")
        return
    if kept == SHORT:
        client = keeper.client()
        if client is None:
            raise Failed(f"{text.hex()}: {keeper.end()}")
        client.close()
    time.sleep(0.01)
    if keeper.process.poll() is None:
        keeper.kill()
    elif keeper.end()[0] not in (CONFIG, LINK_FAULT):
        raise Failed(f"{text.hex()}: status {keeper.process.returncode}")
    _, left, _ = read_journal(path.read_bytes())
    if left[: len(turns)] != turns:
        raise Failed(f"{text.hex()}: the turns of the journal are not kept")


def is_cut(checks):
    text = short_journal()
    for count in range(len(text) + 1):
        try_bytes(checks, text[:count])


def is_changed(checks):
    text = short_journal()
    for place in range(len(text)):
        for byte in {0, 1, 255, text[place] ^ 1, text[place] ^ 128} - {text[place]}:
            try_bytes(checks, text[:place] + bytes([byte]) + text[place + 1 :])


def is_refused(checks):
    path = checks.folder / "refused"
    path.write_bytes(b"")
    expect_end(Keeper(checks, "resume", path), JOURNAL, b"riemann: journal refused at 0\n")
    for text in (short_journal(), b"\x01\x00", b"\xff\xff\xff"):
        path.write_bytes(text)
        expect_end(Keeper(checks, "record", config(checks), path), JOURNAL, b"riemann: journal refused at 0\n")
        if path.read_bytes() != text:
            raise Failed("a file that was refused was changed")
    expect_end(Keeper(checks, "record", config(checks), checks.folder / "absent" / "j"), DISK_FAULT, DISK_FAILED)
    for absent in (checks.folder / "absent", checks.folder / "absent" / "j"):
        expect_end(Keeper(checks, "resume", absent), DISK_FAULT, DISK_FAILED)
        if absent.exists():
            raise Failed("`resume` made a file")


def is_read_only(checks):
    """Tried as nobody, where this is tried as root."""
    user = NOBODY if os.geteuid() == 0 else None
    for text, arguments in ((b"", ("record", config(checks))), (short_journal(), ("resume",))):
        path = checks.folder / "read-only"
        path.unlink(missing_ok=True)
        path.write_bytes(text)
        path.chmod(0o444)
        expect_end(Keeper(checks, *arguments, path, user=user), DISK_FAULT, DISK_FAILED)
        if path.read_bytes() != text:
            raise Failed("a file that is read-only was changed")


# ---- the limit


def is_at_its_limit(checks):
    """A journal with no room for a record more gives its turns, and then the server ends."""
    frames, count = b"", 0
    while len(frames) + 64 <= PIECE_LIMIT:
        frames += frame(event_of(b"h%d" % (count % 1000), count))
        count += 1
    turns = [record_of(0, LISTEN), record_of(0, OPENED, 0), record_of(0, READ, 0, frames)]
    again = record_of(0, READ, 0, frames, taken=count * len(OK))
    kept = TEXT.replace(b' (notice "n")', b"")
    size = len(head(kept)) + sum(1 + len(turn) for turn in turns) + 1
    more = (JOURNAL_LIMIT - size) // (1 + len(again))
    turns += [again] * more + [record_of(1, ENDED, 0, taken=count * len(OK))]
    text = head(kept) + b"".join(b"\x01" + turn for turn in turns) + b"\x00"
    path = checks.folder / "limit"
    path.write_bytes(text)
    begun = time.monotonic()
    expect_end(Keeper(checks, "resume", path), DONE, b"")
    checks.note = f"{len(text) / 1e6:.1f} MB with {count * (more + 1)} events in {time.monotonic() - begun:.1f} s"
    path.unlink()


CHECKS = {
    "killed at random moments under load": is_killed,
    "killed while the journal is begun": is_killed_at_the_start,
    "a disk that is full at each byte": is_full,
    "a full disk that gets room": is_full_and_resumed,
    "a small disk": is_full_disk,
    "a journal cut at each byte": is_cut,
    "a journal with each byte changed": is_changed,
    "files that are refused": is_refused,
    "files that are read-only": is_read_only,
    "a journal at its limit": is_at_its_limit,
}


def main():
    parser = argparse.ArgumentParser(description=__doc__.splitlines()[0])
    parser.add_argument("program", type=pathlib.Path)
    parser.add_argument("--kills", type=int, default=300)
    parser.add_argument("--only", default="")
    given = parser.parse_args()
    hold(PORT)
    with tempfile.TemporaryDirectory() as folder:
        folder = pathlib.Path(folder)
        folder.chmod(0o755)
        # Another user runs it too, who may not look into the repository.
        program = folder / "riemann"
        shutil.copy(given.program, program)
        program.chmod(0o755)
        checks = Checks(program, folder)
        checks.kills = given.kills
        try:
            for name, check in CHECKS.items():
                if given.only in name:
                    checks.run(name, check)
        finally:
            checks.end_all()
    return 1 if checks.failed else 0


if __name__ == "__main__":
    sys.exit(main())
