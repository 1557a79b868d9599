#!/usr/bin/env python3
"""doctor.py PROGRAM: tries packaging/riemann-doctor and packaging/riemann-probe as they are installed.

The doctor is given a configuration for each cause of a refusal, with the line and the column that it has to name, files that
cannot be read, addresses that are taken or not of this machine, journals, and too many clients. The probe asks a server that
is up, one that is not, one that comes later, and a listener that answers nothing. It prints a line for each check, and ends
with status 1 if one failed. It takes some seconds, listens on port 15591, and ends what it starts.
"""

import os
import pathlib
import re
import socket
import struct
import subprocess
import sys
import threading
import time

from journal import BROKEN, ENDED, IDLE, LISTEN, OPENED, READ, ROOM, head, record_of
from server import PATIENCE, Failed, Server, frame, has_privileged_ports, query, receive_frame, run_all

ROOT = pathlib.Path(__file__).resolve().parent.parent
PORT = 15591
FITS = f'(tcp-server {{:host "127.0.0.1" :port {PORT}}})\n(streams index)\n'

# Another user, if this is run as root.
NOBODY = {"user": 65_534, "group": 65_534, "extra_groups": []} if os.geteuid() == 0 else {}

# For each cause a text with | at the place that has to be named, and a word of what has to be said.
REFUSED = {
    "utf8": ("(streams\n  (notice \"a|\udcff\"))", "UTF-8"),
    "open": ("(streams\n  index |(where (state \"a\") index", "not closed"),
    "close": ("(streams\n\tindex|])", "closes no open"),
    "deep": ("[" * 64 + "|[", "64 brackets"),
    "number": ("(streams\n  (where (> metric |0.9) index))", "a whole number for 0.9"),
    "token": ("(streams (notice |@a))", "no keyword"),
    "escape": ('(streams (notice "a|\\d"))', "escapes of a string"),
    "form": ("(streams\n  |(wher (state \"a\") index))", "wher may be meant as where"),
    "name": ("(streams\n  (where (> |metrik 5) index))", "metrik may be meant as metric"),
    "arguments": ('(streams (notice "é" |"b"))', "one too many"),
    "range": ("(streams\n  (batch |0 5 (notice \"n\")))", "from 1 to 1,000,000"),
    "twice": ("(tcp-server)\n|(tcp-server)", "once"),
    "many": ("(streams\n" + "index " * 4_096 + "|index)", "4,096 streams"),
    "kind": ("(streams (batch 5 5 |index))", "vectors"),
    "pattern": ('; #"(" in a comment\n(let [a #"b(c"]\n  (streams (where (host |#"a[b") (notice "#\\"("))))', "no regular expression"),
}
FAULT = re.compile(r"^FAULT (\S+), line (\d+), column (\d+): (\w+)\n {6}(.*)\n {6}([ \t]*)\^\n((?: {6}.*\n)+)", re.MULTILINE)


def expect(seen, wanted, what):
    if seen != wanted:
        raise Failed(f"{what}: {seen!r} for {wanted!r}")


class Tools:
    """The scripts as they are installed in a folder."""

    def __init__(self, checks):
        self.checks, self.folder = checks, checks.folder / "installed"
        words = [ROOT / "packaging/install.sh", self.folder]
        subprocess.run(words, env={**os.environ, "PROGRAM": checks.program}, stdout=subprocess.DEVNULL, check=True)
        checks.program = str(self.folder / "bin/riemann")

    def run(self, name, *words, **how):
        """The status of a script, and what it wrote."""
        ran = subprocess.run([self.folder / "bin" / name, *map(str, words)], capture_output=True, timeout=6 * PATIENCE, **how)
        return ran.returncode, (ran.stdout + ran.stderr).decode()

    def says(self, status, words, name, *arguments, **how):
        """A script ends so, and has all these words in what it writes."""
        came, said = self.run(name, *arguments, **how)
        missing = [it for it in words if it not in said]
        if came != status or missing:
            raise Failed(f"{name} {arguments}: status {came}, without {missing}:\n{said}")
        return said


def install(checks):
    checks.tools = Tools(checks)


def write(checks, name, text):
    path = checks.folder / name
    path.write_bytes(text.encode("utf-8", "surrogateescape") if isinstance(text, str) else text)
    path.chmod(0o644)
    return path


# ---- the doctor


def causes_of_the_page():
    page = (ROOT / "docs/CONFIGURATIONS.md").read_text()
    section = page[page.index("## Refusals") : page.index("## Canonical text")]
    return set(re.findall(r"^\| `(\w+)`", section, re.MULTILINE)) | set(re.findall(r"refused for `(many|kind)`", section))


def causes_are_named(checks):
    """Each cause of the page, in its line and column, with the line itself and a caret."""
    expect(set(REFUSED) - {"pattern"}, causes_of_the_page() - {"long"}, "the causes of the page")
    path = write(checks, "long.config", "x" * 1_048_577)
    checks.tools.says(1, [f"{path} is longer than 1048576 bytes"], "riemann-doctor", path)
    for cause, (marked, said) in REFUSED.items():
        before, text = marked.split("|")[0], marked.replace("|", "", 1)
        path = write(checks, f"{cause}.config", text)
        status, shown = checks.tools.run("riemann-doctor", path)
        found = FAULT.findall(shown)
        wanted = (str(path), before.count("\n") + 1, len(before.rpartition("\n")[2]) + 1)
        if cause == "pattern":
            # The other one is bound and not used: it is refused too, once it is.
            found = [it for it in found if int(it[1]) == wanted[1]]
        if status != 1 or len(found) != 1 or (found[0][0], int(found[0][1]), int(found[0][2])) != wanted:
            raise Failed(f"{cause}: status {status}, {wanted}: {shown[:600]}")
        _, _, _, named, line, caret, words = found[0]
        if named != cause or said not in " ".join(words.split()):
            raise Failed(f"{cause}: {named}, {words}")
        rest = line[len(caret) :]
        if cause != "utf8" and not text[len(before) :].startswith(rest[:1]):
            raise Failed(f"{cause}: the caret is at {rest[:5]!r}")


def what_fits(checks):
    path = write(checks, "fits.config", FITS)
    checks.tools.says(0, [f"ok    {path} is accepted", f"127.0.0.1:{PORT} is free", "open files", "MB of memory"], "riemann-doctor", path)


def unread_files(checks):
    absent = checks.folder / "absent" / "x.config"
    checks.tools.says(1, [f"{absent.parent}: No such file"], "riemann-doctor", absent)
    checks.tools.says(1, ["is a folder"], "riemann-doctor", checks.folder)
    link = checks.folder / "link.config"
    link.symlink_to(absent)
    checks.tools.says(1, [f"{link} is a link to an absent file"], "riemann-doctor", link)
    path = write(checks, "closed.config", FITS)
    checks.tools.says(1, [f"{path} is no folder"], "riemann-doctor", path / "x")
    path.chmod(0o600)
    if NOBODY:
        said = checks.tools.says(1, ["may not be read by user 65534", f"{path} is -rw------- of root"], "riemann-doctor", path, **NOBODY)
        checks.tools.says(1, ["may not be read by the user of the units"], "riemann-doctor", path)
        expect("is accepted" in said, False, "a file that cannot be read")
        closed = checks.folder / "closed"
        closed.mkdir(0o700)
        inside = closed / "x.config"
        inside.write_text(FITS)
        checks.tools.says(1, ["may not be searched by user 65534", f"{closed} is drwx------"], "riemann-doctor", inside, **NOBODY)


def addresses(checks):
    path = write(checks, "address.config", FITS)
    with socket.socket() as taken:
        taken.setsockopt(socket.SOL_SOCKET, socket.SO_REUSEADDR, 1)
        taken.bind(("0.0.0.0", PORT))
        taken.listen()
        checks.tools.says(1, [f"127.0.0.1:{PORT} is taken by process {os.getpid()}", "doctor.py"], "riemann-doctor", path)
        if NOBODY:
            checks.tools.says(1, ["is taken by a process that this user may not look at"], "riemann-doctor", path, **NOBODY)
    for host, port, said in (
        ("192.0.2.1", PORT, "no address of this machine"),
        ("no-such-host.invalid", PORT, "no host of this name"),
        ("127.0.0.1", 1, "is for root" if has_privileged_ports() else ""),
        ("::1", PORT, ""),
    ):
        text = FITS.replace("127.0.0.1", host).replace(str(PORT), str(port))
        other = write(checks, "other.config", text)
        status, shown = checks.tools.run("riemann-doctor", other)
        if said and (status != 1 or said not in shown) or not said and "Traceback" in shown:
            raise Failed(f"{host}: {status} {shown}")
    server = Server(checks, PORT)
    try:
        with server.client() as client:
            client.sendall(query(b"false"))
            receive_frame(client)
            said = checks.tools.says(0, [f"serves there already, process {server.process.pid}"], "riemann-doctor", path)
            if "1 of 256 clients are connected" not in said:
                raise Failed(said)
    finally:
        server.stop()


def journals(checks):
    path = write(checks, "journal.config", FITS)
    begun, end = int(time.time()), int(time.time()) + 6_000
    # One record a second, and ten in its last hour.
    seconds = [*range(begun, end - 3_600), *(it for it in range(end - 3_600, end) for _ in range(10))]
    idle = b"".join(b"\x01" + record_of(it, IDLE) for it in seconds)
    turns = [(OPENED, 0), (READ, 0, b"x" * 300), (ROOM, 0, None, 9), (ENDED, 0), (OPENED, 1), (BROKEN, 1)]
    idle = b"".join(b"\x01" + record_of(begun, *it) for it in turns) + idle
    for text, status, said in (
        (head(FITS.encode()) + b"\x01" + record_of(begun, LISTEN) + b"\x00", 0, "no second passed"),
        (head(FITS.encode()) + b"\x01" + record_of(begun, LISTEN) + idle + b"\x00" + b"x" * 100, 0, "At 120 bytes a second"),
        (head(FITS.encode()) + b"\x01" + record_of(begun, LISTEN) + idle, 1, "ends within a record"),
        (b"\x00" + head(FITS.encode())[1:], 1, "first gate is closed"),
        (b"", 1, "first gate is closed"),
    ):
        journal = write(checks, "journal", text)
        shown = checks.tools.says(status, [said], "riemann-doctor", path, "--journal", journal)
        if "At 120" in said:
            size = len(text) - 100
            full = end - 1 + (67_108_864 - size) / 120
            days = [time.strftime("%Y-%m-%d", time.gmtime(full + it)) for it in (-600, 600)]
            if f"{size:,} of 67,108,864" not in shown or not any(it in shown for it in days):
                raise Failed(f"{size}, {days}: {shown}")
    checks.tools.says(1, ["No such file"], "riemann-doctor", path, "--journal", checks.folder / "no journal")


def limits(checks):
    path = write(checks, "limits.config", FITS)
    checks.tools.says(1, ["FAULT 500 clients: 256 are served"], "riemann-doctor", path, "--clients", 500)
    words = ["sh", "-c", 'ulimit -n 100; exec "$@"', "sh", str(checks.tools.folder / "bin/riemann-doctor"), str(path)]
    ran = subprocess.run(words, capture_output=True, text=True, timeout=PATIENCE)
    if ran.returncode != 1 or "FAULT 100 open files" not in ran.stdout:
        raise Failed(ran.stdout + ran.stderr)


# ---- the probe


def probe_of_a_server(checks):
    server = Server(checks, PORT)
    try:
        address = f"127.0.0.1:{PORT}"
        server.client().close()
        checks.tools.says(0, [], "riemann-probe", address, "--wait", PATIENCE)
        for _ in range(2):
            said = checks.tools.says(0, ["round trip", "live events", "resident memory", "processor time"], "riemann-probe", address)
        expect("live events: 4 events" in said, True, said)
        shown = subprocess.run([checks.program, "query", address, "true"], capture_output=True, text=True, timeout=PATIENCE).stdout
        metrics = dict(re.findall(r'service="([^"]+)" state="ok".* metric=(\d+)\}$', shown, re.MULTILINE))
        expect(len(metrics), 4, shown)
        pages = int(pathlib.Path(f"/proc/{server.process.pid}/statm").read_text().split()[1])
        if abs(int(metrics["riemann resident memory"]) - pages * 4096) > 1_000_000 or metrics["riemann live events"] != "4":
            raise Failed(f"{metrics}, {pages} pages")
    finally:
        server.stop()


def probe_of_no_server(checks):
    address = f"127.0.0.1:{PORT}"
    checks.tools.says(1, ["Connection refused"], "riemann-probe", address)
    checks.tools.says(1, ["is not HOST:PORT"], "riemann-probe", "127.0.0.1")
    begun = time.monotonic()
    checks.tools.says(1, ["Connection refused"], "riemann-probe", address, "--wait", 1)
    if not 1 <= time.monotonic() - begun < PATIENCE:
        raise Failed("it did not wait a second")
    ended = subprocess.Popen(["true"])
    ended.wait()
    begun = time.monotonic()
    checks.tools.says(1, ["its process ended"], "riemann-probe", address, "--wait", 60, env={**os.environ, "MAINPID": str(ended.pid)})
    if time.monotonic() - begun > PATIENCE:
        raise Failed("it waited for a process that ended")


def probe_of_a_late_server(checks):
    """The unit waits with the configuration, until a server is there."""
    config = write(checks, "late.config", FITS)
    servers = []
    later = threading.Timer(0.7, lambda: servers.append(Server(checks, PORT)))
    later.start()
    try:
        checks.tools.says(0, [], "riemann-probe", config, "--wait", PATIENCE)
    finally:
        later.join()
        servers[0].stop()


def probe_of_another(checks):
    """A listener that closes, or answers no message."""
    for answer, said in (
        (b"", "closed the connection without a reply"),
        (b"HTTP/1.1 400 Bad Request\r\n\r\n", "is no message of Riemann's"),
        (struct.pack(">I", 3) + b"\x1a\xff\xff", "is no message of Riemann's"),
        (frame(b"\x10\x00\x1a\x02no"), ": no\n"),
    ):
        with socket.socket() as listener:
            listener.bind(("127.0.0.1", 0))
            listener.listen()

            def act():
                connection, _ = listener.accept()
                with connection:
                    receive_frame(connection)
                    connection.sendall(answer)

            thread = threading.Thread(target=act, daemon=True)
            thread.start()
            checks.tools.says(1, [said], "riemann-probe", f"127.0.0.1:{listener.getsockname()[1]}")
            thread.join()


CHECKS = {
    "each cause of a refusal, at its place": causes_are_named,
    "a configuration that fits": what_fits,
    "files that cannot be read": unread_files,
    "addresses that are taken, of others, or a server's": addresses,
    "journals": journals,
    "limits of clients and files": limits,
    "a probe of a server": probe_of_a_server,
    "a probe where no server is": probe_of_no_server,
    "a probe of a server that comes later": probe_of_a_late_server,
    "a probe of what is no server": probe_of_another,
}


if __name__ == "__main__":
    sys.exit(run_all(__doc__, CHECKS, PORT, prepare=install))
