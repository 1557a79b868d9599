"""What the programs notices_to_*.py share: they read notice lines, and send messages of them until each is taken.

A program hands `run` two functions: one makes messages of notices, the other sends one message. A message is kept in a
file until it was taken, and beside it the cursor, which says up to where the lines were read. So no line is lost while
the program is down or the other side refuses. A message is sent twice only if the program is killed after the other side
took it, and before its file was removed. All settings come from the environment.
"""

import collections
import contextlib
import dataclasses
import fcntl
import http.client
import json
import os
import pathlib
import re
import select
import subprocess
import sys
import time
import urllib.error
import urllib.request

QUOTED = r'"[^"\\]*(?:\\.[^"\\]*)*"'
FIELD = re.compile(rf'(\w+)=({QUOTED}|-?\d+|\[(?:{QUOTED}| )*\])|(@{QUOTED})(?:=({QUOTED}))?')
EVENT = rf'\{{[^"{{}}]*(?:{QUOTED}[^"{{}}]*)*\}}'
LINE = re.compile(rf'(\d{{1,13}}) ({QUOTED}) ({EVENT}|\[(?:{EVENT} ?)*\])')
# What a mail's header may not have, beside the control characters that are escaped in a line.
LINE_ENDS = re.compile("[\x80-\x9f\u2028\u2029]")

PIECE = 65_536
# Bytes before the cursor in a file, by which the file is known again.
KNOWN = 64
# Batches that wait to be taken; more lines are left where they are until one of these is.
MOST_WAITING = 1_000
# Seconds: how long it is waited for lines, in which lines make one message, and between two tries at most.
WAIT, GATHER, LONGEST = 0.5, 1.0, 300.0
# Tries after which a message that is refused for good is put aside.
TRIES = 3
BAD_SETTINGS = 78


class Refused(Exception):
    """A message that was not taken; with `for_good` it is the message that is at fault."""

    def __init__(self, why, for_good=False):
        super().__init__(why)
        self.for_good = for_good


def say(text):
    print(text, file=sys.stderr, flush=True)


def refuse_setting(why):
    say(why)
    sys.exit(BAD_SETTINGS)


def setting(name, default=None):
    """A setting; one that has no default has to be there."""
    value = os.environ.get(name) or default
    return refuse_setting(f"not set: {name}") if value is None else value


# ---- notices


class Event(dict):
    """The fields of an event as texts, by their names. The name of an attribute begins with `@`."""

    def words(self):
        """Such as `critical: web1 cpu 97`."""
        what = " ".join(self[name] for name in ("host", "service", "metric") if self.get(name))
        return ": ".join(filter(None, [self.get("state"), what]))

    def is_over(self):
        """Whether its state ends an alert."""
        return self.get("state") in setting("NOTICES_RESOLVED", "ok").split()


@dataclasses.dataclass
class Notice:
    second: int
    name: str
    events: list
    line: str

    def words(self):
        more = f" and {len(self.events) - 1} more" if len(self.events) > 1 else ""
        return (self.events[0].words() or self.name) + more


def moment(second):
    """A second as text, after RFC 3339."""
    return time.strftime("%Y-%m-%dT%H:%M:%SZ", time.gmtime(second))


def unquoted(text):
    """What is in the quotes. The escapes of control characters stay, so that no text has one."""
    return LINE_ENDS.sub(" ", re.sub(r'\\(["\\])', r"\1", text[1:-1]))


def event_of(text):
    event = Event()
    for name, value, key, attribute in FIELD.findall(text):
        value = value or attribute
        event[name or "@" + unquoted(key[1:])] = unquoted(value) if value.startswith('"') else value
    return event


def notice_of(line):
    """The notice that a line says, if it is one. One without events has an event without fields."""
    found = LINE.fullmatch(line)
    if not found:
        return None
    events = [event_of(it) for it in re.findall(EVENT, found[3])]
    return Notice(int(found[1]), unquoted(found[2]), events or [Event()], line)


class Batch:
    """The notices of one message: the first ones, and how many more came by state and service."""

    def __init__(self, most):
        self.most, self.kept, self.left_out = most, [], collections.Counter()

    def take(self, notice):
        if self.most is None or len(self.kept) < self.most:
            self.kept.append(notice)
        else:
            event = notice.events[0]
            self.left_out[" ".join(event[name] for name in ("state", "service") if event.get(name)) or notice.name] += 1

    def left_out_words(self):
        """Such as `and 312 more: 300 expired heartbeat, 12 critical disk`."""
        if not self.left_out:
            return ""
        parts = [f"{count} {kind}" for kind, count in self.left_out.most_common(10)]
        others = len(self.left_out) - len(parts)
        return f"and {self.left_out.total()} more: " + ", ".join(parts) + (f", and {others} other kinds" if others else "")


# ---- where lines come from


def lines_after(path, at):
    """The next whole lines of a file after these bytes: one at least, if it has one."""
    with open(path, "rb") as file:
        file.seek(at)
        text = file.read(PIECE)
        while text and b"\n" not in text and (more := file.read(PIECE)):
            text += more
    return text[: text.rfind(b"\n") + 1]


class File:
    """The lines of a file that another program appends to. Its rotations PATH.1 to PATH.9 are older parts of it.

    The cursor is in the file that has the bytes before it in their place, whatever its name is now.
    """

    def __init__(self, path):
        self.paths = [path, *(f"{path}.{number}" for number in range(1, 10))]
        self.at, self.before, self.is_lost = 0, b"", False

    def begin(self, cursor):
        if cursor:
            self.at, self.before = cursor["at"], cursor["before"].encode("latin-1")
            return
        for path in self.there():
            with open(path, "rb") as file:
                self.at = file.seek(0, os.SEEK_END)
                file.seek(max(0, self.at - KNOWN))
                self.before = file.read()
            if self.at:
                return

    def cursor(self):
        return {"at": self.at, "before": self.before.decode("latin-1")}

    def there(self):
        """The files that are there, the youngest first, each with the number of its inode."""
        found = {}
        for path in self.paths:
            with contextlib.suppress(FileNotFoundError):
                found[path] = os.stat(path).st_ino
        return found

    def holds(self, path):
        with open(path, "rb") as file:
            file.seek(self.at - len(self.before))
            return file.read(len(self.before)) == self.before

    def unread(self, paths):
        """Which of the files may have lines after the cursor, the oldest first, and the place in the first of them.

        Without a cursor all lines are new.
        """
        if not self.before:
            return paths[::-1], 0
        for number, path in enumerate(paths):
            if self.holds(path):
                return paths[number::-1], self.at
        if paths and not self.is_lost:
            say(f"{self.paths[0]} was rotated too often: lines may be missing")
            self.is_lost = True
        return paths[:1], 0

    def read(self, wait):
        """The next lines, after at most these seconds. What was read while files changed their names is read again."""
        there = self.there()
        with contextlib.suppress(FileNotFoundError):
            paths, at = self.unread(list(there))
            for path in paths:
                if text := lines_after(path, at):
                    if self.there() != there:
                        return []
                    self.at, self.before, self.is_lost = at + len(text), ((self.before if at else b"") + text)[-KNOWN:], False
                    return text.decode("utf-8", "replace").split("\n")[:-1]
                at = 0
        time.sleep(wait)
        return []


class Journal:
    """The lines that units of systemd wrote, from systemd's journal, which splits long ones."""

    def __init__(self, units):
        self.command = ["journalctl", "--quiet", "--output=export", *(f"--unit={unit}" for unit in units)]

    def begin(self, cursor):
        self.at = cursor or ""
        if cursor is None:
            last = subprocess.run([*self.command, "--lines=1"], stdout=subprocess.PIPE, check=True).stdout
            for fields in self.entries(last)[0]:
                self.at = fields[b"__CURSOR"].decode()
        self.start()

    def start(self):
        after = [f"--after-cursor={self.at}"] if self.at else []
        self.process = subprocess.Popen([*self.command, "--follow", "--no-tail", *after], stdout=subprocess.PIPE)
        self.text, self.part = b"", b""

    def cursor(self):
        return self.at

    @staticmethod
    def entries(text):
        """The entries in a text of the journal's export format, and what is after them."""
        entries, fields, at, begun = [], {}, 0, 0
        while (end := text.find(b"\n", at)) >= 0:
            name, is_line, value = text[at:end].partition(b"=")
            at = end + 1
            if name and not is_line:
                size = int.from_bytes(text[at : at + 8], "little")
                value, at = text[at + 8 : at + 8 + size], at + 8 + size + 1
                if at > len(text):
                    break
            if name:
                fields[name] = value
            else:
                entries += [fields] if fields else []
                fields, begun = {}, at
        return entries, text[begun:]

    def read(self, wait):
        """The next lines, after at most these seconds."""
        if not select.select([self.process.stdout], [], [], wait)[0]:
            return []
        piece = os.read(self.process.stdout.fileno(), PIECE)
        if not piece:
            say(f"journalctl ended with status {self.process.wait()}, and is started again")
            time.sleep(WAIT)
            self.start()
            return []
        entries, self.text = self.entries(self.text + piece)
        lines = []
        for fields in entries:
            self.part += fields.get(b"MESSAGE", b"")
            if fields.get(b"_LINE_BREAK") != b"line-max":
                lines.append(self.part.decode("utf-8", "replace"))
                self.part, self.at = b"", fields[b"__CURSOR"].decode()
        return lines


# ---- messages that wait


class Queue:
    """Messages that were not taken yet: a file for each batch, which has the cursor after its last line too."""

    def __init__(self, folder):
        self.folder, self.refused = folder, folder / "refused"
        self.refused.mkdir(parents=True, exist_ok=True)
        self.lock = open(folder / "lock", "w")
        try:
            fcntl.flock(self.lock, fcntl.LOCK_EX | fcntl.LOCK_NB)
        except BlockingIOError:
            sys.exit(f"another program keeps its messages in {folder}")
        self.numbers = sorted(int(path.name) for path in folder.iterdir() if path.name.isdigit())

    def write(self, path, value):
        """Writes a file so that after a stop it is there whole, or as it was."""
        new = path.with_name(path.name + ".new")
        with open(new, "w") as file:
            json.dump(value, file)
            file.flush()
            os.fsync(file.fileno())
        new.replace(path)
        folder = os.open(path.parent, os.O_RDONLY)
        os.fsync(folder)
        os.close(folder)

    def read(self, name):
        return json.loads((self.folder / str(name)).read_text())

    def cursor(self):
        """That of the last batch. One that was put aside and is there again has none."""
        cursors = (self.read(number)["cursor"] for number in reversed(self.numbers))
        noted = self.read("cursor") if (self.folder / "cursor").exists() else None
        return next((it for it in cursors if it is not None), noted)

    def note(self, cursor):
        self.write(self.folder / "cursor", cursor)

    def put(self, cursor, messages):
        self.numbers.append(self.numbers[-1] + 1 if self.numbers else 1)
        self.write(self.folder / str(self.numbers[-1]), {"cursor": cursor, "messages": messages})

    def first(self):
        return self.read(self.numbers[0])["messages"][0]

    def remove_first(self):
        batch, path = self.read(self.numbers[0]), self.folder / str(self.numbers[0])
        batch["messages"].pop(0)
        if batch["messages"]:
            self.write(path, batch)
            return
        if batch["cursor"] is not None:
            self.note(batch["cursor"])
        path.unlink()
        self.numbers.pop(0)

    def put_aside(self):
        path = self.refused / f"{time.time_ns()}"
        self.write(path, {"cursor": None, "messages": [self.first()]})
        self.remove_first()
        return path


def try_first(queue, send, tries):
    """Sends the first message. Gives how often it was tried, and the seconds until it is tried again."""
    try:
        send(queue.first())
    except Refused as fault:
        say(f"not taken, try {tries + 1}: {fault}")
        if not fault.for_good or tries + 1 < TRIES:
            return tries + 1, min(LONGEST, 2.0**tries)
        say(f"put aside as {queue.put_aside()}")
    else:
        queue.remove_first()
    return 0, 0.0


def run(make, send, seconds=0.0, most=None):
    """Reads lines for ever. In these seconds at most one batch is made, of so many notices, into messages.

    A first start begins with the lines that come after it.
    """
    folder = pathlib.Path(setting("NOTICES_STATE", os.environ.get("STATE_DIRECTORY")))
    path, units = os.environ.get("NOTICES_FILE"), setting("NOTICES_UNITS", "riemann riemann-journal").split()
    queue, source = Queue(folder), File(path) if path else Journal(units)
    source.begin(queue.cursor())
    if queue.cursor() is None:
        queue.note(source.cursor())
    batch, closes, free = Batch(most), 0.0, 0.0
    tries, again = 0, 0.0
    while True:
        lines = []
        if len(queue.numbers) < MOST_WAITING:
            lines = source.read(0.0 if queue.numbers and again <= time.monotonic() else WAIT)
        elif again > time.monotonic():
            time.sleep(WAIT)
        for notice in filter(None, map(notice_of, lines)):
            if not batch.kept:
                closes = max(free, time.monotonic() + min(GATHER, seconds))
            batch.take(notice)
        if batch.kept and time.monotonic() >= closes:
            queue.put(source.cursor(), make(batch))
            batch, free = Batch(most), time.monotonic() + seconds
        if queue.numbers and time.monotonic() >= again:
            tries, wait = try_first(queue, send, tries)
            again = time.monotonic() + wait


# ---- over HTTP


class NoRedirect(urllib.request.HTTPRedirectHandler):
    """A redirect would make an empty GET of a POST."""

    def redirect_request(self, *_):
        return None


OPENER = urllib.request.build_opener(NoRedirect)


def post(url, value):
    """Posts a value as JSON."""
    request = urllib.request.Request(url, json.dumps(value).encode(), {"Content-Type": "application/json"})
    try:
        with OPENER.open(request, timeout=10):
            pass
    except urllib.error.HTTPError as fault:
        said = b""
        with contextlib.suppress(OSError, http.client.HTTPException):
            said = fault.read(200)
        raise Refused(f"{fault.code} {said.decode('utf-8', 'replace')}", fault.code in (400, 413, 422)) from fault
    except (OSError, http.client.HTTPException) as fault:
        raise Refused(str(fault) or type(fault).__name__) from fault
