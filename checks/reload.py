#!/usr/bin/env python3
"""reload.py PROGRAM: plays what systemd does when a unit of packaging/ is reloaded, without systemd.

It installs the package in a folder, reads a unit from there, and runs its commands as systemd does, with a restart where the
unit asks systemctl for one. The index has to be the same after it, and a server whose new configuration is refused has to go
on. It tries tools/event.py and tools/dump.py too. It prints a line for each check, and ends with status 1 if one failed. It
takes some seconds, listens on the ports 15592 and 15593, and ends what it starts.
"""

import os
import pathlib
import re
import shlex
import signal
import socket
import struct
import subprocess
import sys
import time

from server import OK, PATIENCE, Failed, event, field, frame, query, receive_frame, run_all, varint

ROOT = pathlib.Path(__file__).resolve().parent.parent
PORT, OTHER_PORT = 15592, 15593
FIRST = f'(tcp-server {{:port {PORT}}}) (streams index (changed :state {{:init "ok"}} (notice "first")))'
SECOND = f'(tcp-server {{:host "0.0.0.0" :port {OTHER_PORT}}}) (streams index (changed :state {{:init "ok"}} (notice "second")))'
FOLDERS = {"/run/riemann": "run", "/var/lib/riemann": "state"}


def expect(seen, wanted, what):
    if seen != wanted:
        raise Failed(f"{what}: {str(seen)[:600]!r} for {str(wanted)[:600]!r}")


def events():
    """Fields of a message: events of many kinds, for whose index one reply is too short."""
    now = b"\x08" + varint(int(time.time()))
    host, service = (lambda text: field(4, text)), (lambda text: field(3, text))
    yield field(6, now)
    yield field(6, now + service(b"no host") + b"\x68\x01")
    yield field(6, now + host(b"") + service(b""))
    yield field(6, b"\x08" + varint(2**64 - 5) + host(b"old") + service(b"disk"))
    full = field(2, b"critical") + service(b"cpu") + host(b'"50%"\\\n') + field(5, "é".encode()) + field(7, b"x") + field(7, b"y")
    yield field(6, now + full + b"\x45" + struct.pack("<f", 3600) + field(9, field(1, b"k") + field(2, b"v")) + b"\x68\x09")
    for number in range(110):
        yield field(6, now + service(b"cpu") + host(b"web-%03d.example.com" % number) + field(5, b"x" * 20_000))
    for number in range(110):
        yield field(6, now + service(b"disk %03d" % number) + host("größe".encode()) + field(5, b"x" * 40_000))


HOSTS = ["nil", '""', '"old"', '"50%\\""', '"\\"50%\\"\\\\\\n"', '"größe" and service =~ "disk 0%"', '"größe" and service =~ "disk 1%"']


class Unit:
    """A unit as it is installed in a folder, and the server that it started."""

    def __init__(self, checks, name):
        self.checks, self.folder = checks, checks.folder / f"{name}.{len(list(checks.folder.iterdir()))}"
        words = [ROOT / "packaging/install.sh", self.folder]
        subprocess.run(words, env={**os.environ, "PROGRAM": checks.program}, stdout=subprocess.DEVNULL, check=True)
        for it in FOLDERS.values():
            (self.folder / it).mkdir()
        text = (self.folder / "lib/systemd/system" / name).read_text()
        self.settings = re.findall(r"^(Exec\w+)=[-+]*(.*)$", text, re.MULTILINE)
        self.config = self.folder / "etc/riemann/riemann.config"
        self.config.write_text(FIRST)
        self.notices = self.folder / "notices"
        self.process = None

    def commands(self, setting):
        for name, text in self.settings:
            if name == setting:
                for path, folder in FOLDERS.items():
                    text = text.replace(path, str(self.folder / folder))
                yield shlex.split(text)

    def all_of(self, setting):
        """Runs the commands of a setting, up to one that fails; gives the status, what was written, and what is left."""
        environment, said, words = {**os.environ}, "", list(self.commands(setting))
        if self.process:
            environment["MAINPID"] = str(self.process.pid)
        while words and not words[0][0].endswith("systemctl"):
            ran = subprocess.run(words.pop(0), env=environment, capture_output=True, timeout=6 * PATIENCE, text=True)
            said += ran.stdout + ran.stderr
            if ran.returncode:
                return ran.returncode, said, []
        return 0, said, words

    def start(self):
        self.process = None
        said = self.all_of("ExecStartPre")[1]
        (command,) = self.commands("ExecStart")
        with self.notices.open("ab") as out:
            self.process = subprocess.Popen(command, stdin=subprocess.DEVNULL, stdout=out, stderr=subprocess.DEVNULL)
        self.checks.processes.append(self.process)
        return said + self.all_of("ExecStartPost")[1]

    def stop(self, number=signal.SIGTERM):
        self.process.send_signal(number)
        expect(self.process.wait(PATIENCE), -number, "how it ends")

    def reload(self, meanwhile=lambda: None):
        """What systemd does for `systemctl reload`; gives the status of ExecReload, and what was written."""
        status, said, left = self.all_of("ExecReload")
        if left:
            expect(left, [["/bin/systemctl", "--no-block", "restart", "%n"]], "what is asked of systemd")
            meanwhile()
            self.stop()
            said += self.start()
        return status, said


def ask(port, *messages):
    """The bodies of the replies."""
    with socket.create_connection(("127.0.0.1", port), PATIENCE) as client:
        client.sendall(b"".join(messages))
        return [receive_frame(client) for _ in messages]


def index_of(port):
    """The events of the index, asked for by hosts."""
    rules = [f"host = {it}" for it in HOSTS] + [f'host =~ "web-{it}%"' for it in range(2)]
    return ask(port, *(query(it.encode()) for it in rules))


def fill(port):
    replies = ask(port, *map(frame, events()))
    expect(replies, [OK[4:]] * len(replies), "the replies to events")
    expect(b"over 4194304" in ask(port, query(b"true"))[0], True, "a reply that is too long")
    return index_of(port)


def names_in(unit):
    return re.findall(r'^\d+ "(\w+)"', unit.notices.read_text(), re.MULTILINE)


def is_taken_over(name):
    """The index outlives another configuration, and another address. Notices are given again, and one event is lost."""

    def check(checks):
        unit = Unit(checks, name)
        expect(unit.start(), "", "what a first start says")
        kept = fill(PORT)
        expect(names_in(unit), ["first"] * 3, "notices: no state, critical, and no state again")
        unit.config.write_text(SECOND)

        def one_more():
            expect(ask(PORT, frame(event(b"late"))), [OK[4:]], "an event that comes late")
            # Its notice was written before this is read.
            ask(PORT, query(b"false"))

        status, said = unit.reload(one_more)
        expect((status, "kept 225 events" in said, "sent what was kept" in said), (0, True, True), said)
        expect(index_of(OTHER_PORT) == kept, True, "the index")
        expect(names_in(unit), ["first"] * 4 + ["second"] * 3, "notices of the old streams, and of the new ones")
        expect(ask(OTHER_PORT, query(b'host = "late"')), [OK[4:]], "the event that came late")
        expect(sorted(it.name for it in unit.folder.glob("*/index.frames*")), [], "files that are left")
        unit.stop(signal.SIGKILL)
        expect(unit.start(), "", "what a later start says")
        if name == "riemann-journal.service":
            expect(index_of(OTHER_PORT) == kept, True, "the index of the new journal")
            expect((unit.folder / "state/journal.before").read_bytes()[5:].startswith(FIRST.encode()), True, "the old journal")
        else:
            expect(ask(OTHER_PORT, query(b"true")), [OK[4:]], "an index that no reload kept")
        unit.stop()

    return check


def is_refused(checks):
    unit = Unit(checks, "riemann.service")
    unit.start()
    kept, process = fill(PORT), unit.process
    tests = unit.config.with_suffix(".tests")
    for config, text, line in (
        ("(streams index", None, "check ends with 2: riemann: config refused at 0: open"),
        (SECOND, '(test "t" (event {:host "a" :state "bad"}) (expect "second"))', 'test ends with 12: fail "t"'),
        (SECOND, "(test", "test ends with 11: riemann: tests refused at 0: open"),
    ):
        unit.config.write_text(config)
        if text:
            tests.write_text(text)
        came, said = unit.reload()
        expect((came, line in said), (1, True), said)
        expect((unit.process, process.poll(), index_of(PORT) == kept), (process, None, True), "the old server")
        expect(list((unit.folder / "run").iterdir()), [], "files that are left")
    tests.unlink()
    expect(unit.reload()[0], 0, "the reload without the tests")
    unit.stop()


def is_left_out(checks):
    """What was kept for a restart that never came."""
    unit = Unit(checks, "riemann-journal.service")
    unit.start()
    expect(ask(PORT, frame(event(b"a"))), [OK[4:]], "an event")
    expect(unit.all_of("ExecReload")[0], 0, "a reload without its restart")
    file = unit.folder / "state/index.frames"
    absent = [unit.folder / "bin/riemann-reload", "begin", unit.folder / "absent/journal", file]
    expect((subprocess.run(absent, timeout=PATIENCE).returncode, file.exists()), (0, True), "a volume that is absent")
    os.utime(file, (time.time() - 301, time.time() - 301))
    unit.stop()
    said = unit.start()
    expect(("is left out" in said, file.exists(), (unit.folder / "state/journal.before").exists()), (True, False, False), said)
    expect(len(ask(PORT, query(b"true"))[0]) > len(OK), True, "the index of the journal")
    unit.stop()


def is_sent_after_a_kill(checks):
    """A server that is killed before it was sent what was kept."""
    unit = Unit(checks, "riemann-journal.service")
    unit.start()
    expect(ask(PORT, frame(event(b"a"))), [OK[4:]], "an event")
    expect(unit.all_of("ExecReload")[0], 0, "a reload")
    unit.stop()
    unit.settings, settings = [it for it in unit.settings if it[0] != "ExecStartPost"], unit.settings
    unit.start()
    unit.stop(signal.SIGKILL)
    expect((unit.folder / "state/index.frames.due").exists(), True, "what was kept is due")
    unit.settings = settings
    expect("sent what was kept" in unit.start(), True, "what is sent")
    expect(len(ask(PORT, query(b'host = "a"'))[0]) > len(OK), True, "the index")
    unit.stop()


def is_ended_by_a_hangup(checks):
    unit = Unit(checks, "riemann.service")
    unit.start()
    unit.stop(signal.SIGHUP)


# ---- events and dumps


def tool(name, *words):
    ran = subprocess.run([ROOT / "tools" / name, *words], capture_output=True, timeout=6 * PATIENCE)
    return ran.returncode, ran.stdout, ran.stderr.decode()


def events_in_words(checks):
    expect(tool("event.py", "a", "b", "--time", "100", "--metric", "5", "--state", "ok"), (0, frame(event(b"a")), ""), "a frame")
    unit = Unit(checks, "riemann.service")
    unit.start()
    now = int(time.time())
    words = ["é", "", "--metric", "-9223372036854775808", "--ttl", "2147483520", "--description", 'a "b"', "--tag", "x", "--tag", "y"]
    status, text, _ = tool("event.py", *words, "--attribute", "k=v=w", "--attribute", "l=")
    expect((status, ask(PORT, text)), (0, [OK[4:]]), "an event with all fields")
    shown = subprocess.run([checks.program, "query", f"127.0.0.1:{PORT}", "true"], capture_output=True, timeout=PATIENCE).stdout.decode()
    came = re.search(r"time=(\d+)", shown)
    fits = "metric=-9223372036854775808" in shown and 'tags=["x" "y"] @"k"="v=w" @"l"=""' in shown and "ttl=2147483520" in shown
    expect((fits, now <= int(came[1]) <= time.time()), (True, True), shown)
    unit.stop()
    for words, said in (
        (["--metric", "0.9"], "'0.9' is not a whole number"),
        (["--metric", "9223372036854775808"], "is not from -2^63"),
        (["--ttl", "16777217"], "has over 24 bits"),
        (["--ttl", "-1"], "is not from 0"),
        (["--time", "now"], "'now' is not a whole number"),
        (["--attribute", "k"], "is not KEY=VALUE"),
        (["--state", b"\xff"], "is not UTF-8"),
        (["--colour", "red"], "unrecognized arguments"),
    ):
        status, text, line = tool("event.py", "a", "b", *words)
        expect((status, text, said in line), (2, b"", True), f"{words}: {line}")


def dumps(checks):
    file = checks.folder / "dump"
    status, _, line = tool("dump.py", f"127.0.0.1:{PORT}", file)
    expect((status, "Connection refused" in line, file.exists()), (1, True, False), line)
    unit = Unit(checks, "riemann.service")
    unit.start()
    kept = fill(PORT)
    status, said, _ = tool("dump.py", f"127.0.0.1:{PORT}", file)
    expect((status, said.startswith(b"225 events in ")), (0, True), said)
    expect(tool("dump.py", f"127.0.0.1:{PORT}", checks.folder / "absent/dump")[0], 1, "a folder that is absent")
    unit.stop()
    unit.start()
    words = [checks.program, "send", f"127.0.0.1:{PORT}", file]
    replies = subprocess.run(words, capture_output=True, timeout=6 * PATIENCE)
    expect((replies.returncode, replies.stdout.count(b" ok\n")), (0, replies.stdout.count(b"\n")), "the replies")
    expect(index_of(PORT) == kept, True, "the index")
    with socket.create_connection(("127.0.0.1", PORT), PATIENCE) as client:
        for number in range(17):
            client.sendall(frame(event(b"large", b"%d" % number, b"x" * 4_000_000)))
            receive_frame(client)
    before = file.read_bytes()
    status, _, line = tool("dump.py", f"127.0.0.1:{PORT}", file)
    expect((status, "has over 67108864 bytes" in line, file.read_bytes() == before), (1, True, True), line)
    unit.stop()


CHECKS = {
    "events in words": events_in_words,
    "an index as a file": dumps,
    "a reload of riemann.service": is_taken_over("riemann.service"),
    "a reload of riemann-journal.service": is_taken_over("riemann-journal.service"),
    "a configuration, and tests, that refuse a reload": is_refused,
    "what was kept, and its restart never came": is_left_out,
    "a kill before what was kept was sent": is_sent_after_a_kill,
    "SIGHUP ends a server": is_ended_by_a_hangup,
}


if __name__ == "__main__":
    sys.exit(run_all(__doc__, CHECKS, PORT, OTHER_PORT))
