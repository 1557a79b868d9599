#!/usr/bin/env python3
"""unit.py PROGRAM: plays what systemd does with packaging/riemann-journal.service, without systemd.

It installs the package in a folder, reads the unit from there, and starts its ExecStart as Restart and
RestartPreventExitStatus say. A stand-in for the program ends with each status from 0 to 16 and by signals; what is started
again has to be what the table of docs/OPERATION.md says. Then the program itself is killed, denied memory, room and a port,
and given files that are refused. It prints a line for each check, and ends with status 1 if one failed. It takes some
seconds, listens on port 15590, and ends what it starts.
"""

import contextlib
import os
import pathlib
import re
import resource
import shlex
import signal
import socket
import subprocess
import sys
import time

from journal import DISK_FAULT, JOURNAL, LINK_FAULT, LISTEN, OPENED, READ, event_of, head, limit_files, record_of
from server import OK, PATIENCE, Failed, event, frame, query, receive_frame, reply_of, run_all

ROOT = pathlib.Path(__file__).resolve().parent.parent
PORT = 15590
TEXT = f'(tcp-server {{:host "127.0.0.1" :port {PORT}}}) (streams index (notice "n"))'.encode()
SINK_FAULT, MEMORY = 4, 6
STATUSES = range(17)
# systemd takes the first as an end that was wanted.
CLEAN_SIGNALS = {signal.SIGHUP, signal.SIGINT, signal.SIGTERM, signal.SIGPIPE}
SIGNALS = (*CLEAN_SIGNALS, signal.SIGKILL, signal.SIGSEGV, signal.SIGABRT)
STATE = "/var/lib/riemann"
# Bytes of address space in which the shell starts, and the program has too little.
SCARCE = 12_000_000

# It notes its words, and ends as the file `ends` says.
STAND_IN = """#!/bin/sh
here=$(dirname "$0")
echo "$*" >>"$here/words"
read -r end <"$here/ends"
case $end in -*) kill "$end" $$ ;; esac
exit "$end"
"""
A_JOURNAL = head(TEXT) + b"\x01" + record_of(0, LISTEN) + b"\x00"


class Unit:
    """The unit as it is installed in a folder, with a folder there in place of that of its state."""

    def __init__(self, folder, program):
        install = [ROOT / "packaging/install.sh", folder]
        subprocess.run(install, env={**os.environ, "PROGRAM": str(program)}, stdout=subprocess.DEVNULL, check=True)
        (folder / "etc/riemann/riemann.config").write_bytes(TEXT)
        self.state, self.bin = folder / "state", folder / "bin"
        self.state.mkdir()
        self.journal = self.state / "journal"
        text = (folder / "lib/systemd/system/riemann-journal.service").read_text()
        self.settings = dict(re.findall(r"^(\w+)=(.*)$", text, re.MULTILINE))
        self.stays = {int(it) for it in self.settings["RestartPreventExitStatus"].split()}

    def words(self, setting):
        """The words of a command, as systemd hands them on."""
        return [it.replace("$$", "$").replace(STATE, str(self.state)) for it in shlex.split(self.settings[setting])]

    def is_started_again(self, end):
        """Whether systemd starts it again after a status, or after a signal as a number below 0."""
        if self.settings["Restart"] != "on-failure":
            raise Failed("these are the rules of Restart=on-failure alone")
        return end not in self.stays and end != 0 and -end not in CLEAN_SIGNALS

    def after_stop(self, end):
        """What is said once it ended."""
        status = str(end) if end >= 0 else signal.Signals(-end).name[3:]
        said = subprocess.run(self.words("ExecStopPost"), env={"EXIT_STATUS": status}, capture_output=True, check=True, text=True)
        return said.stdout + said.stderr


def expect(seen, wanted, what):
    if seen != wanted:
        raise Failed(f"{what}: {seen!r} for {wanted!r}")


def play(unit, end):
    """Starts a stand-in that ends so; gives how it ended, and the words that it was given."""
    (unit.bin / "ends").write_text(f"{end}\n")
    (unit.bin / "words").write_text("")
    ran = subprocess.run(unit.words("ExecStart"), capture_output=True, timeout=PATIENCE, check=False)
    return ran.returncode, (unit.bin / "words").read_text().split("\n")[:-1], ran.stderr.decode()


def table():
    """What docs/OPERATION.md says of each status: whether it is started again."""
    rows = re.findall(r"^\| ([0-9, ]+) \| (yes|no) \|", (ROOT / "docs/OPERATION.md").read_text(), re.MULTILINE)
    return {int(it): word == "yes" for numbers, word in rows for it in numbers.split(",")}


# ---- with a stand-in


def stand_in(checks, name):
    folder = checks.folder / name
    folder.mkdir()
    path = folder / "program"
    path.write_text(STAND_IN)
    path.chmod(0o755)
    return Unit(folder, path)


def is_as_the_table_says(checks):
    unit, said = stand_in(checks, "ends"), table()
    unit.journal.write_bytes(A_JOURNAL)
    expect(sorted(said), list(STATUSES), "the statuses of the table")
    for end in STATUSES:
        came, words, _ = play(unit, end)
        expect((came, words), (end, [f"resume {unit.journal}"]), f"a program that ends with {end}")
        expect(unit.is_started_again(came), said[end], f"started again after {end}")
        expect("full" in unit.after_stop(came), end == 0, f"said after {end}")
    for number in SIGNALS:
        came, _, _ = play(unit, -number)
        expect(came, -number, "a program that is killed")
        expect(unit.is_started_again(came), number not in CLEAN_SIGNALS, f"started again after {number.name}")
        expect(unit.after_stop(came), "", f"said after {number.name}")


def is_begun_or_resumed(checks):
    unit = stand_in(checks, "files")
    begun = f"record {unit.bin.parent}/etc/riemann/riemann.config {unit.journal}"
    for text in (None, b"", b"\x01", b"\x00", b"\x00\x01", b"\x00" + A_JOURNAL[1:]):
        unit.journal.unlink(missing_ok=True)
        if text is not None:
            unit.journal.write_bytes(text)
        _, words, err = play(unit, 0)
        expect((words, err), ([begun], f"riemann-journal: begins a journal in {unit.journal}\n"), f"the file {text}")
    for text in (A_JOURNAL, A_JOURNAL[:2], b"\x01\x00", b"\x0a\x0a", b"\xff" * 9):
        unit.journal.write_bytes(text)
        _, words, err = play(unit, 0)
        expect((words, err), ([f"resume {unit.journal}"], ""), f"the file {text}")


def is_not_begun_without_its_volume(checks):
    unit = stand_in(checks, "volume")
    line = f"riemann-journal: no folder for {unit.journal}: is its volume mounted?\n"
    unit.journal.symlink_to(checks.folder / "no volume" / "journal")
    expect(play(unit, 0), (DISK_FAULT, [], line), "a link to a volume that is absent")
    unit.journal.unlink()
    unit.state.rmdir()
    expect(play(unit, 0), (DISK_FAULT, [], line), "a folder that is absent")
    if unit.state.exists():
        raise Failed("the folder was made")
    expect(unit.settings["RequiresMountsFor"], STATE, "the folder whose volume is waited for")
    words = shlex.split(unit.settings["ExecStart"])
    expect(os.path.dirname(words[-1]), f"/var/lib/{unit.settings['StateDirectory']}", "the folder of the journal")


# ---- with the program


class Service:
    """The program, started as the unit says. `host` is in its index, once it was begun."""

    def __init__(self, checks, name):
        folder = checks.folder / name
        folder.mkdir()
        self.checks, self.unit, self.process = checks, Unit(folder, checks.program), None

    def start(self, prepare=None, out=subprocess.DEVNULL):
        words = self.unit.words("ExecStart")
        how = {"preexec_fn": prepare, "restore_signals": False} if prepare else {}
        how |= {"stdin": subprocess.DEVNULL, "stdout": out, "stderr": subprocess.PIPE, "start_new_session": True}
        self.process = subprocess.Popen(words, **how)
        self.checks.processes.append(self.process)

    def ask(self, message):
        """Sends a message as soon as the program listens, and gives the reply."""
        deadline = time.monotonic() + PATIENCE
        while self.process.poll() is None and time.monotonic() < deadline:
            try:
                with socket.create_connection(("127.0.0.1", PORT), PATIENCE) as client:
                    client.sendall(message)
                    return receive_frame(client)
            except ConnectionRefusedError:
                time.sleep(0.01)
        raise Failed(f"the program does not listen: {self.process.poll()}")

    def begin(self):
        self.start()
        expect(self.ask(frame(event_of(b"a", 5))), OK[4:], "the reply to an event")
        self.kill()

    def send(self, number):
        """Sends a signal to all that was started, as systemd does."""
        os.killpg(self.process.pid, number)

    def kill(self):
        self.send(signal.SIGKILL)
        _, _, again = self.end()
        expect(again, True, "started again after a kill")

    def end(self):
        """How it ends, what it says, and whether the unit starts it again."""
        _, err = self.process.communicate(timeout=PATIENCE)
        return self.process.returncode, err.decode(), self.unit.is_started_again(self.process.returncode)

    def goes_on(self):
        """It is started again, and has what it was sent before."""
        self.start()
        expect(self.ask(query(b"true")), reply_of(event_of(b"a", 5))[4:], "the index")
        self.send(signal.SIGTERM)
        expect(self.end(), (-signal.SIGTERM, "", False), "a server that is stopped")


def is_begun_and_killed(checks):
    service = Service(checks, "killed")
    service.begin()
    service.goes_on()
    service.unit.journal.write_bytes(b"")
    service.begin()
    service.goes_on()


def is_denied(checks):
    service = Service(checks, "denied")
    service.begin()
    with open("/dev/full", "wb") as full:
        service.start(out=full)
        with contextlib.suppress(Failed, OSError):
            service.ask(frame(event_of(b"a", 5)))
        expect(service.end(), (SINK_FAULT, "", True), "no write to standard output")
    with socket.socket() as taken:
        taken.setsockopt(socket.SOL_SOCKET, socket.SO_REUSEADDR, 1)
        taken.bind(("127.0.0.1", PORT))
        taken.listen()
        service.start()
        expect(service.end(), (LINK_FAULT, "riemann: links failed\n", True), "no port")
    size = service.unit.journal.stat().st_size
    service.start(lambda: limit_files(size))
    expect(service.end(), (DISK_FAULT, "riemann: disk failed\n", True), "no room")
    service.goes_on()


def is_short_of_memory(checks):
    service = Service(checks, "memory")
    large = [frame(event(b"h%d" % n, description=b"x" * 60_000)) for n in range(200)]
    records = [record_of(0, LISTEN), record_of(0, OPENED, 0), *(record_of(0, READ, 0, it) for it in large)]
    service.unit.journal.write_bytes(head(TEXT) + b"".join(b"\x01" + it for it in records) + b"\x00")
    service.start(lambda: resource.setrlimit(resource.RLIMIT_AS, (SCARCE, SCARCE)))
    expect(service.end(), (MEMORY, "riemann: out of memory\n", True), "no memory")
    service.start()
    expect(service.ask(query(b'host = "a"')), OK[4:], "a query")


def is_refused(checks):
    service = Service(checks, "refused")
    for place in (1, len(A_JOURNAL) - 2, len(A_JOURNAL) - 1):
        damaged = A_JOURNAL[:place] + b"\x07" + A_JOURNAL[place + 1 :]
        service.unit.journal.write_bytes(damaged)
        service.start()
        code, err, again = service.end()
        expect((code, again), (JOURNAL, False), f"byte {place} changed: {err}")
        expect(service.unit.journal.read_bytes(), damaged, "the file")


def is_mounted_again(checks):
    service = Service(checks, "mounted")
    service.begin()
    away = service.unit.state.with_name("away")
    service.unit.state.rename(away)
    for _ in range(2):
        service.start()
        code, _, again = service.end()
        expect((code, again, service.unit.state.exists()), (DISK_FAULT, True, False), "an absent volume")
    away.rename(service.unit.state)
    service.goes_on()


CHECKS = {
    "each status and signal, as the table says": is_as_the_table_says,
    "files in which a journal is begun, or resumed": is_begun_or_resumed,
    "no journal begun where its volume is absent": is_not_begun_without_its_volume,
    "a first start, a kill, and an empty file": is_begun_and_killed,
    "no write, no port, no room": is_denied,
    "no memory": is_short_of_memory,
    "journals that are refused": is_refused,
    "a volume that is absent, and mounted again": is_mounted_again,
}


if __name__ == "__main__":
    sys.exit(run_all(__doc__, CHECKS, PORT))
