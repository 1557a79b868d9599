#!/usr/bin/env python3
"""notices.py PROGRAM: tries the programs in examples that send notices, with local servers that refuse the first try.

Lines that the program writes are read. Then a mail server with STARTTLS and login, and servers for the posts to Slack,
PagerDuty and Alertmanager, look at what is sent. Each sender is killed while lines are written and their file is rotated:
every notice has to arrive, and once but for a message that was on its way at a kill. It does the same with systemd's
journal, where systemd-journal-remote is installed, and tries mail only with openssl; it says what it skips. It prints a
line for each check, and ends with status 1 if one failed. It takes a minute, and ends what it starts.
"""

import base64
import contextlib
import email
import email.policy
import email.utils
import http.server
import io
import json
import os
import pathlib
import random
import re
import shutil
import signal
import socketserver
import ssl
import subprocess
import sys
import tempfile
import threading
import time

from server import Failed, field, frame, need, run_all, varint

ROOT = pathlib.Path(__file__).resolve().parent.parent
EXAMPLES = ROOT / "examples"
sys.dont_write_bytecode = True
sys.path.append(str(EXAMPLES))

import notices_shared  # noqa: E402

PATIENCE = 30.0
JOURNAL_REMOTE = "/lib/systemd/systemd-journal-remote"
KILLS, COUNT = 6, 240
USER, PASSWORD = "riemann", "a secret"


def line_of(host, service, state, metric, second=1_795_827_787):
    return f'{second} "alarm" {{host="{host}" service="{service}" state="{state}" time={second} metric={metric}}}\n'


def expect(seen, wanted, what):
    if seen != wanted:
        raise Failed(f"{what}: {seen!r} for {wanted!r}")


def wait_for(holds, what):
    deadline = time.monotonic() + PATIENCE
    while not (seen := holds()):
        if time.monotonic() > deadline:
            raise Failed(f"{what} did not happen within {PATIENCE:.0f} seconds")
        time.sleep(0.02)
    return seen


# ---- servers that refuse


class Tries:
    """What a server was sent, each with whether it was taken. The numbers of `refused` are those that are not taken."""

    def __init__(self, refused):
        self.refused, self.all, self.lock = refused, [], threading.Lock()

    def take(self, message):
        """What is answered: nothing if the message is taken."""
        with self.lock:
            answer = self.refused.get(len(self.all))
            self.all.append((answer is None, message))
        return answer

    def taken(self):
        return [message for was_taken, message in self.all if was_taken]


class Post(http.server.BaseHTTPRequestHandler):
    """Takes JSON with status 202. Where the answer is 0 the connection ends without one."""

    def do_POST(self):
        body = json.loads(self.rfile.read(int(self.headers["Content-Length"])))
        answer = self.server.tries.take((self.path, body))
        if answer != 0:
            self.send_response(answer or 202)
            self.send_header("Content-Length", "0")
            self.end_headers()

    def log_message(self, *_):
        pass


class Mail(socketserver.StreamRequestHandler):
    """A mail server: it takes mail after a login over TLS alone, or from everybody where its security is `none`."""

    def say(self, text):
        self.wfile.write(text.encode() + b"\r\n")

    def handle(self):
        with contextlib.suppress(OSError):
            self.safe, self.logged_in = False, self.server.security == "none"
            if self.server.security == "tls":
                self.wrap()
            self.say("220 local")
            while line := self.rfile.readline():
                self.answer(line.decode().strip())

    def wrap(self):
        self.connection = self.server.context.wrap_socket(self.connection, server_side=True)
        self.rfile, self.wfile, self.safe = self.connection.makefile("rb"), self.connection.makefile("wb", 0), True

    def answer(self, line):
        word = line.split(" ")[0].upper()
        if word == "EHLO":
            self.say("250-local\r\n250 AUTH PLAIN" if self.safe else "250-local\r\n250 STARTTLS")
        elif word == "STARTTLS":
            self.say("220 go on")
            self.wrap()
        elif word == "AUTH":
            words = base64.b64decode(line.split(" ")[2]).split(b"\0")
            self.logged_in = self.safe and words == [b"", USER.encode(), PASSWORD.encode()]
            self.say("235 yes" if self.logged_in else "535 no")
        elif word in ("MAIL", "RCPT"):
            self.say("250 yes" if self.logged_in else "530 log in first")
        elif word == "DATA":
            self.say("354 go on")
            text = b"".join(iter(self.rfile.readline, b".\r\n"))
            self.say(self.server.tries.take(email.message_from_bytes(text, policy=email.policy.SMTP)) or "250 taken")
        else:
            self.say("221 bye" if word == "QUIT" else "250 yes")


@contextlib.contextmanager
def serving(kind, refused, context=None, security="starttls"):
    """A server in this process. Gives its port and what it was sent."""
    socketserver.ThreadingTCPServer.allow_reuse_address = True
    with socketserver.ThreadingTCPServer(("127.0.0.1", 0), kind) as server:
        server.daemon_threads = True
        server.tries, server.context, server.security = Tries(refused), context, security
        threading.Thread(target=server.serve_forever, args=(0.05,), daemon=True).start()
        try:
            yield server.server_address[1], server.tries
        finally:
            server.shutdown()


def rotate(path):
    """As logrotate does with `copytruncate`, which keeps the file."""
    for number in range(9, 0, -1):
        with contextlib.suppress(FileNotFoundError):
            os.replace(f"{path}.{number}", f"{path}.{number + 1}")
    shutil.copyfile(path, f"{path}.1")
    os.truncate(path, 0)


# ---- a sender


class Sender:
    """One of the programs, with a folder for its messages and a file of lines."""

    def __init__(self, checks, name, settings):
        self.checks, self.name = checks, name
        self.folder = pathlib.Path(tempfile.mkdtemp(dir=checks.folder))
        self.state, self.lines, self.errors = (self.folder / it for it in ("state", "notices.log", "errors"))
        self.settings = {**os.environ, "NOTICES_STATE": str(self.state), "NOTICES_FILE": str(self.lines), **settings}
        self.lines.write_text(line_of("old", "line", "critical", -1))
        self.seen = 0

    def start(self):
        words = [sys.executable, "-B", EXAMPLES / f"notices_to_{self.name}.py"]
        with open(self.errors, "ab") as errors:
            self.process = subprocess.Popen(words, env=self.settings, stdin=subprocess.DEVNULL, stderr=errors, start_new_session=True)
        self.checks.processes.append(self.process)
        wait_for(lambda: (self.state / "cursor").exists() or self.process.poll() is not None, "a start")

    def kill(self):
        os.killpg(self.process.pid, signal.SIGKILL)
        self.process.wait()

    def write(self, *lines):
        with open(self.lines, "a") as file:
            file.write("".join(lines))

    def has_none_left(self):
        return not [it for it in self.state.iterdir() if it.name.isdigit()]

    def tries(self):
        return self.errors.read_text().count("not taken, try")


def certificate(checks):
    """A certificate of this machine, and its key."""
    need("openssl")
    key, text = checks.folder / "key.pem", checks.folder / "certificate.pem"
    if not text.exists():
        words = "openssl req -x509 -newkey rsa:2048 -nodes -days 2 -subj /CN=localhost -addext subjectAltName=DNS:localhost"
        subprocess.run([*words.split(), "-keyout", key, "-out", text], check=True, capture_output=True)
    return text, key


@contextlib.contextmanager
def mail_to(checks, refused, **settings):
    """A mail server and a sender of mail."""
    text, key = certificate(checks)
    context = ssl.SSLContext(ssl.PROTOCOL_TLS_SERVER)
    context.load_cert_chain(text, key)
    with serving(Mail, refused, context, settings.get("MAIL_SECURITY", "starttls")) as (port, tries):
        settings |= {"MAIL_SERVER": f"localhost:{port}", "MAIL_FROM": "riemann@example.org", "MAIL_TO": "ops@example.org"}
        settings = {"MAIL_USER": USER, "MAIL_PASSWORD": PASSWORD, "SSL_CERT_FILE": str(text), **settings}
        yield Sender(checks, "mail", settings), tries


@contextlib.contextmanager
def posts_to(checks, name, refused, **settings):
    """A server for posts, and a sender."""
    with serving(Post, refused) as (port, tries):
        url = f"http://127.0.0.1:{port}/hook"
        settings |= {f"{name.upper()}_URL": url, "PAGERDUTY_KEY": PASSWORD}
        yield Sender(checks, name, settings), tries


# ---- what is sent


def lines_are_read(checks):
    """Lines that the program writes, read again."""
    attributes = field(9, field(1, b"k \"=") + field(2, b"v}")) + field(9, field(1, b"alone"))
    odd = field(2, b"a\\b") + field(3, b"c d") + field(4, b'"}{"') + field(5, b"x\ny [ state=\"no\"") + field(7, b"t 1") + attributes
    config, file = checks.folder / "lines.config", checks.folder / "lines.frames"
    config.write_text('(streams (notice "one \\"n\\"") (fixed-event-window 2 (notice "two")))')
    file.write_bytes(frame(field(6, odd + b"\x68" + varint(2 * 97))) + frame(field(6, field(4, b"b"))))
    said = subprocess.run([checks.program, "feed", config, file], capture_output=True, check=True, timeout=PATIENCE).stderr.decode()
    seen = [notices_shared.notice_of(line) for line in said.splitlines()]
    expect(len(seen), 3, f"the notices in {said}")
    fields = {"host": '"}{"', "service": "c d", "state": "a\\b", "description": 'x\\x0ay [ state="no"', "time": "0", "metric": "97"}
    fields |= {"tags": '["t 1"]', '@k "=': "v}", "@alone": ""}
    expect((seen[0].name, seen[0].events), ('one "n"', [fields]), "an event")
    expect((seen[2].name, len(seen[2].events), seen[2].events[0]), ("two", 2, fields), "a vector")
    expect(seen[2].words(), 'a\\b: "}{" c d 97 and 1 more', "its words")
    for line in ("riemann: links failed", '1 "n" {host="a"', '1 "n" {host="a} ', "", '1 "n'):
        expect(notices_shared.notice_of(line), None, "no notice")


def file_is_read(checks):
    """A file that is rotated in between; each read is by a reader that goes on from the cursor of the one before."""
    path, cursor = checks.folder / "file.log", None

    def read():
        nonlocal cursor
        lines = []
        while True:
            reader = notices_shared.File(str(path))
            reader.begin(cursor)
            more = reader.read(0.0)
            cursor = reader.cursor()
            if not more:
                return lines
            lines += more

    def write(text):
        with open(path, "a") as file:
            file.write(text)

    expect(read(), [], "no file")
    write("1 first\n")
    rotate(path)
    write("2 second\n")
    expect(read(), ["1 first", "2 second"], "a file that was rotated before it was read")
    rotate(path)
    expect(read(), [], "a file that was rotated once it was read")
    for number in range(3, 9):
        rotate(path)
        write(f"{number} rotated\n")
    write("9 beg")
    expect(read(), [f"{number} rotated" for number in range(3, 9)], "a file that was rotated six times")
    write("un\n")
    expect(read(), ["9 begun"], "the rest of a line")
    large = [f"{number} {'x' * 50_000}" for number in range(10, 15)] + [f"15 {'y' * 200_000}"]
    write("\n".join(large) + "\n")
    rotate(path)
    expect(read(), large, "long lines")
    cursor = None
    write("16 before a first start\n")
    expect(read(), [], "a first start")
    os.truncate(path, 0)
    write("17 after it was cut\n")
    said = io.StringIO()
    with contextlib.redirect_stderr(said):
        expect(read(), ["17 after it was cut"], "a file that was cut")
    expect(said.getvalue(), f"{path} was rotated too often: lines may be missing\n", "what is said of it")


def mail_is_sent(checks):
    with mail_to(checks, {0: "451 later"}, MAIL_SECONDS="1") as (sender, tries):
        sender.start()
        sender.write(line_of("web1", "cpu", "critical", 97))
        wait_for(lambda: len(tries.all) == 2, "a second try")
        mails = [mail for _, mail in tries.all]
        expect([was_taken for was_taken, _ in tries.all], [False, True], "what was taken")
        expect(mails[0]["Message-ID"], mails[1]["Message-ID"], "the Message-ID")
        if not re.fullmatch(r"<[^@ ]+@example\.org>", mails[1]["Message-ID"]):
            raise Failed(f"a Message-ID {mails[1]['Message-ID']}")
        expect(abs(mails[1]["Date"].datetime.timestamp() - time.time()) < PATIENCE, True, "the date")
        expect((mails[1]["Subject"], mails[1]["To"]), ("critical: web1 cpu 97", "ops@example.org"), "the subject and the receiver")
        body = "2026-11-28T01:03:07Z critical: web1 cpu 97\n    " + line_of("web1", "cpu", "critical", 97)
        expect(mails[1].get_content().replace("\r\n", "\n").strip(), body.strip(), "the text")
        sender.write(line_of("w\u2028\u00e9b", "disk", "ok", 3), *(line_of("web2", "cpu", "ok", it) for it in range(2)))
        wait_for(lambda: len(tries.all) == 3, "a second mail")
        expect(tries.all[2][1]["Subject"], "ok: w \u00e9b disk 3 and 2 more", "the second subject")
        wait_for(sender.has_none_left, "an empty folder")


def bad_mail_is_put_aside(checks):
    with mail_to(checks, dict.fromkeys(range(3), "554 I do not like it"), MAIL_SECONDS="0") as (sender, tries):
        sender.start()
        sender.write(line_of("web1", "cpu", "critical", 1))
        wait_for(lambda: sender.tries() == 3, "three tries")
        sender.write(line_of("web1", "cpu", "critical", 2))
        wait_for(tries.taken, "the next mail")
        wait_for(sender.has_none_left, "an empty folder")
        sender.kill()
        aside = list((sender.state / "refused").iterdir())
        expect(len(aside), 1, "mails put aside")
        aside[0].rename(sender.state / aside[0].name)
        sender.write(line_of("web1", "cpu", "critical", 3))
        sender.start()
        wait_for(lambda: len(tries.taken()) == 3, "the mail that is there again")
        wait_for(sender.has_none_left, "an empty folder")
        expect([it["Subject"][-1] for it in tries.taken()], ["2", "1", "3"], "the order")


def no_mail_without_certificate(checks):
    with mail_to(checks, {}, MAIL_SECONDS="0") as (sender, tries):
        sender.settings["SSL_CERT_FILE"] = "/dev/null"
        sender.start()
        sender.write(line_of("web1", "cpu", "critical", 1))
        wait_for(lambda: sender.tries() == 2, "two tries")
        expect((tries.all, "CERTIFICATE_VERIFY_FAILED" in sender.errors.read_text()), ([], True), "an unknown certificate")


def mail_is_sent_otherwise(checks):
    for security, user in (("tls", USER), ("none", "")):
        with mail_to(checks, {0: "451 later"}, MAIL_SECONDS="0", MAIL_SECURITY=security, MAIL_USER=user) as (sender, tries):
            sender.start()
            sender.write(line_of("web1", "cpu", "critical", 1))
            wait_for(lambda: [it["Subject"] for it in tries.taken()] == ["critical: web1 cpu 1"], f"a mail with {security}")


def slack_says_what_it_left_out(checks):
    with posts_to(checks, "slack", {0: 503}, SLACK_LINES="3", SLACK_SECONDS="2") as (sender, tries):
        sender.start()
        lines = [line_of(f"h{it}", "<heartbeat>" if it < 40 else "disk", "expired" if it < 40 else "critical", it) for it in range(50)]
        sender.write(*lines)
        wait_for(lambda: len(tries.all) == 2, "a second try")
        texts = ["expired: h0 &lt;heartbeat&gt; 0", "expired: h1 &lt;heartbeat&gt; 1", "expired: h2 &lt;heartbeat&gt; 2"]
        texts += ["and 47 more: 37 expired &lt;heartbeat&gt;, 10 critical disk"]
        expect(tries.all, [(False, ("/hook", {"text": "\n".join(texts)})), (True, ("/hook", {"text": "\n".join(texts)}))], "the posts")
        sender.write(line_of("a", "b", "ok", 1))
        wait_for(lambda: len(tries.all) == 3, "the next message")
        expect(tries.all[2], (True, ("/hook", {"text": "ok: a b 1"})), "the next message")


def pagerduty_triggers_and_resolves(checks):
    with posts_to(checks, "pagerduty", {0: 0, 2: 429}) as (sender, tries):
        sender.start()
        sender.write(line_of("web1", "cpu", "critical", 97), line_of("web1", "cpu", "ok", 12), line_of("h" * 300, "b", "expired", 1))
        wait_for(lambda: len(tries.taken()) == 3, "three events")
        expect([was_taken for was_taken, _ in tries.all], [False, True, False, True, True], "what was taken")
        (_, first), (_, second), (_, third) = tries.taken()
        expect({it["routing_key"] for it in (first, second, third)}, {PASSWORD}, "the key")
        expect((first["event_action"], second["event_action"], third["event_action"]), ("trigger", "resolve", "trigger"), "the actions")
        expect(first["dedup_key"], second["dedup_key"], "the keys of one alert")
        expect((first["dedup_key"], len(third["dedup_key"])), ('["web1", "cpu"]', 64), "keys")
        payload = first["payload"]
        seen = [payload[name] for name in ("summary", "source", "severity", "timestamp", "component", "class")]
        expect(seen, ["critical: web1 cpu 97", "web1", "critical", "2026-11-28T01:03:07Z", "cpu", "alarm"], "the payload")
        expect(PASSWORD in "".join(it.read_text() for it in sender.state.rglob("*") if it.is_file()), False, "a secret on disk")


def alertmanager_fires_and_resolves(checks):
    with posts_to(checks, "alertmanager", {0: 500}) as (sender, tries):
        sender.start()
        sender.write(line_of("web1", "cpu", "critical", 97), line_of("web1", "cpu", "ok", 12, second=1_795_827_790))
        wait_for(lambda: len(tries.taken()) == 2, "two alerts")
        (path, [first]), (_, [second]) = tries.taken()
        expect((len(tries.all), path), (3, "/hook/api/v2/alerts"), "the tries and the path")
        expect((first["labels"], second["labels"]), ({"alertname": "cpu", "instance": "web1", "job": "riemann"},) * 2, "the labels")
        expect((first["startsAt"], first["endsAt"]), ("2026-11-28T01:03:07Z", "2027-11-28T01:03:07Z"), "a firing alert")
        expect((second.get("startsAt"), second["endsAt"]), (None, "2026-11-28T01:03:10Z"), "a resolved alert")
        expect((first["annotations"]["state"], first["annotations"]["summary"]), ("critical", "critical: web1 cpu 97"), "the notes")


# ---- kills


NUMBERS = {
    "mail": lambda mail: re.findall(r"metric=(\d+)}", mail.get_content().replace("=\n", "")),
    "slack": lambda post: re.findall(r"^critical: a b (\d+)$", post[1]["text"], re.MULTILINE),
    "pagerduty": lambda post: [post[1]["payload"]["custom_details"]["metric"]],
    "alertmanager": lambda post: [it["annotations"]["summary"].split()[-1] for it in post[1]],
}


def all_arrive(name, tries, sender):
    """Waits for all numbers: each arrives in one message alone, in order, and a message again only after a kill."""
    wait_for(lambda: any(str(COUNT - 1) in NUMBERS[name](it) for it in tries.taken()), "the last notice")
    wait_for(sender.has_none_left, "an empty folder")
    messages = [[int(number) for number in NUMBERS[name](it)] for it in tries.taken()]
    first_times = list(dict.fromkeys(number for message in messages for number in message))
    expect(sorted(set(range(COUNT)) - set(first_times)), [], f"what did not arrive by {name}")
    expect(first_times == sorted(first_times), True, f"the notices arrived in order: {first_times}")
    each = set(map(tuple, messages))
    expect(sum(map(len, each)), COUNT, "the notices in different messages")
    if len(messages) - len(each) > KILLS:
        raise Failed(f"{len(messages) - len(each)} messages arrived again, with {KILLS} kills")


def kill_in_the_middle(tries, sender):
    """Kills a sender once it has sent something, so that each start gets on."""
    before = sender.seen
    wait_for(lambda: len(tries.all) > before, "a try")
    sender.kill()
    sender.seen = len(tries.all)


def is_killed(checks, name):
    refused = {0: "451 later", 3: "452 later"} if name == "mail" else {0: 503, 3: 0}
    sending = mail_to if name == "mail" else lambda *words, **more: posts_to(words[0], name, *words[1:], **more)
    random.seed(name)
    more = {f"{name.upper()}_{it}": value for it, value in (("SECONDS", "0"), ("LINES", "1000"))}
    with sending(checks, refused, **more) as (sender, tries):
        sender.start()
        for number in range(COUNT):
            sender.write(line_of("a", "b", "critical", number))
            time.sleep(random.random() * 0.02)
            if number % (COUNT // KILLS) == 9:
                kill_in_the_middle(tries, sender)
            if number % (COUNT // KILLS) == 15 and number > COUNT // 3:
                rotate(sender.lines)
            if number % (COUNT // KILLS) == 20:
                sender.start()
        all_arrive(name, tries, sender)


# ---- systemd's journal


class Entries:
    """A journal of systemd in a file, and a `journalctl` on the path that reads it."""

    def __init__(self, folder):
        self.folder, self.count = folder, 0
        script = folder / "journalctl"
        script.write_text(f'#!/bin/sh\nexec {shutil.which("journalctl")} --file {folder}/test.journal "$@"\n')
        script.chmod(0o755)
        self.write("a line of another unit", unit="other.service")

    def write(self, *texts, unit="riemann.service", **fields):
        """Appends an entry for each text."""
        export = b""
        for text in texts:
            self.count += 1
            moment = int(time.time() * 1e6)
            entry = {"__REALTIME_TIMESTAMP": moment, "__MONOTONIC_TIMESTAMP": self.count, "_BOOT_ID": "0" * 31 + "1"}
            entry |= {"_SYSTEMD_UNIT": unit, "_TRANSPORT": "stdout", "MESSAGE": text.rstrip("\n"), **fields}
            export += b"".join(f"{name}={value}\n".encode() for name, value in entry.items()) + b"\n"
        words = [JOURNAL_REMOTE, "-o", self.folder / "test.journal", "-"]
        subprocess.run(words, input=export, check=True, capture_output=True, timeout=PATIENCE)


def journal_is_read(checks):
    need("journalctl", JOURNAL_REMOTE)
    with posts_to(checks, "slack", {0: 503}, SLACK_LINES="1000", SLACK_SECONDS="0") as (sender, tries):
        entries = Entries(sender.folder)
        del sender.settings["NOTICES_FILE"]
        sender.settings["PATH"] = f"{sender.folder}:{os.environ['PATH']}"
        sender.start()
        for number in range(0, COUNT, 10):
            entries.write(*(line_of("a", "b", "critical", it) for it in range(number, number + 9)))
            if number % 50 == 0:
                kill_in_the_middle(tries, sender)
            whole = line_of("a", "b", "critical", number + 9)
            entries.write(whole[:30], _LINE_BREAK="line-max")
            entries.write(whole[30:])
            entries.write("riemann: no notice")
            entries.write(line_of("a", "b", "critical", number), unit="other.service")
            if number % 50 == 0:
                sender.start()
        all_arrive("slack", tries, sender)


def installed_unit_is_whole(checks):
    """The unit calls what is installed, for each program that its settings name."""
    folder = checks.folder / "installed"
    install = [ROOT / "packaging/install.sh", folder]
    subprocess.run(install, env={**os.environ, "PROGRAM": str(checks.program)}, stdout=subprocess.DEVNULL, check=True)
    settings = (folder / "etc/riemann/notices.conf").read_text()
    unit = dict(re.findall(r"^(\w+)=(.*)$", (folder / "lib/systemd/system/riemann-notices@.service").read_text(), re.MULTILINE))
    expect(pathlib.Path(unit["EnvironmentFile"]), folder / "etc/riemann/notices.conf", "the settings of the unit")
    expect((folder / "etc/riemann/notices.conf").stat().st_mode & 0o777, 0o600, "who may read the settings")
    names = re.findall(r"@(\w+)", settings.splitlines()[0])
    expect(sorted(names), sorted(NUMBERS), "the programs that the settings name")
    asked = set(re.findall(r'setting\("(\w+)"|environ\.get\("(\w+)"', "".join(it.read_text() for it in EXAMPLES.glob("notices*.py"))))
    asked = {first or second for first, second in asked} - {"NOTICES_STATE", "STATE_DIRECTORY", "PAGERDUTY_URL"}
    expect(set(re.findall(r"^#([A-Z_]+)=", settings, re.MULTILINE)), asked, "the settings that are asked for")
    for name in names:
        path = pathlib.Path(unit["ExecStart"].replace("%i", name))
        ran = subprocess.run([path], env={"PATH": os.environ["PATH"], "PYTHONDONTWRITEBYTECODE": "1"}, capture_output=True, check=False)
        expect(ran.returncode, int(unit["RestartPreventExitStatus"]), f"{name} without settings")
        expect(ran.stderr.startswith(b"not set: "), True, f"what {name} says")
    settings = {"MAIL_SERVER": "localhost", "MAIL_FROM": "a", "MAIL_TO": "a", "MAIL_SECURITY": "starttsl", "PATH": os.environ["PATH"]}
    ran = subprocess.run([folder / "lib/riemann/notices_to_mail.py"], env=settings, capture_output=True, check=False)
    expect((ran.returncode, ran.stderr), (78, b"MAIL_SECURITY is starttsl, and not one of starttls, tls, none\n"), "a setting")


CHECKS = {
    "lines of the program": lines_are_read,
    "a file and its rotations": file_is_read,
    "the unit, the settings and what is installed": installed_unit_is_whole,
    "mail: STARTTLS, login, Date, Message-ID, subject": mail_is_sent,
    "mail: TLS from the first byte on, and none": mail_is_sent_otherwise,
    "mail: one that is refused for good is put aside": bad_mail_is_put_aside,
    "mail: none to a server with an unknown certificate": no_mail_without_certificate,
    "Slack: a limit that says what it left out": slack_says_what_it_left_out,
    "PagerDuty: trigger and resolve": pagerduty_triggers_and_resolves,
    "Alertmanager: firing and resolved": alertmanager_fires_and_resolves,
    "systemd's journal, a sender that is killed": journal_is_read,
    **{f"{name}: killed {KILLS} times, rotated files": lambda checks, name=name: is_killed(checks, name) for name in NUMBERS},
}


if __name__ == "__main__":
    sys.exit(run_all(__doc__, CHECKS))
