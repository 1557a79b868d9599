#!/usr/bin/env python3
"""hosts.py PROGRAM [SCRIPTS]: tries that what is noticed of one host does not depend on the other hosts.

It makes 200 random configurations that keep hosts, services, or hosts and services apart, and a random script of two to
five of these for each. It plays each script with `PROGRAM replay`, and once more for each host without the events of the
others. The notice lines of the host have to be the same in both. The seed is fixed. It takes under a minute. SCRIPTS is
another number of configurations.
"""

import pathlib
import random
import re
import struct
import subprocess
import sys
import tempfile
import time

SEED = 20_261
SCRIPTS = 200
HOSTS = ["a", "b", "web 1", 'q"\\', "é", "", None]
SERVICES = ["cpu", "disk", "", None]
STATES = ["ok", "warning", "critical", "expired", None]
KINDS = """index notice sdo where else with default tag by changed runs throttle rollup batch stable fixed-event-window
    moving-event-window fixed-time-window moving-time-window coalesce smap expired tagged over under""".split()


# ---- messages, in the wire format of Protocol Buffers


def varint(number):
    digits = b""
    while number >= 128:
        digits += bytes([number % 128 + 128])
        number //= 128
    return digits + bytes([number])


def field(number, value):
    """A field of bytes."""
    return varint(number * 8 + 2) + varint(len(value)) + value


def text_field(number, text):
    return b"" if text is None else field(number, text.encode())


def event_bytes(event):
    body = b"" if event["time"] is None else b"\x08" + varint(event["time"])
    body += text_field(2, event["state"]) + text_field(3, event["service"]) + text_field(4, event["host"])
    for tag in event["tags"]:
        body += text_field(7, tag)
    if event["ttl"] is not None:
        body += b"\x45" + struct.pack("<f", event["ttl"])
    if event["owner"] is not None:
        body += field(9, text_field(1, "owner") + text_field(2, event["owner"]))
    if event["metric"] is not None:
        metric = event["metric"]
        body += b"\x68" + varint(2 * metric if metric >= 0 else -2 * metric - 1)
    return field(6, body)


def frame(events):
    body = b"".join(event_bytes(event) for event in events)
    return struct.pack(">I", len(body)) + body


# ---- configurations


class Plans:
    """Random streams, which keep the keys of these fields apart."""

    def __init__(self, rng, key, used):
        self.rng, self.key, self.used = rng, key, used

    def form(self, word, *parts):
        self.used.add(word)
        return "(" + " ".join([word, *parts]) + ")"

    def secs(self):
        return str(self.rng.choice([1, 2, 3, 5, 7, 10, 20]))

    def count(self):
        return str(self.rng.randint(1, 4))

    def state(self):
        return f'"{self.rng.choice(STATES[:4])}"'

    def predicate(self):
        rng = self.rng
        return rng.choice(
            [
                f"(state {self.state()})",
                f"(not (service {self.quoted(SERVICES)}))",
                f"(host {self.quoted(HOSTS[:2])})",
                f"(> metric {rng.randint(-3, 3)})",
                '(or (tagged "t") (= metric nil))',
                '(like state "%i%")',
                "(= :owner nil)",
                "true",
            ]
        )

    def quoted(self, texts):
        text = self.rng.choice([text for text in texts if text is not None])
        return f'"{text}"'

    def sets(self):
        """Fields that are set: none of the key."""
        rng = self.rng
        choices = {
            ":state": [self.state(), "nil"],
            ":ttl": ["3", "8", "nil"],
            ":metric": ["1", "nil"],
            ":description": ['"d"', "nil"],
            ":owner": ['"me"', "nil"],
            ":host": ['"a"', "nil"],
            ":service": ['"cpu"', "nil"],
            ":time": [str(rng.randint(90, 130))],
        }
        fields = rng.sample([name for name in choices if name not in self.key], rng.randint(1, 3))
        return "{" + " ".join(f"{name} {rng.choice(choices[name])}" for name in fields) + "}"

    def fields_of_by(self):
        """Those of the key, and maybe others, in any order."""
        fields = self.key + self.rng.sample([":state", ":owner", ":host"], self.rng.choice([0, 0, 1]))
        self.rng.shuffle(fields)
        return "[" + " ".join(fields) + "]"

    def notice(self):
        self.used.add("notice")
        return f'(notice "n{self.rng.randint(0, 9)}")'

    def index(self):
        self.used.add("index")
        return "index"

    def many(self, stream, depth):
        return " ".join(stream(depth - 1) for _ in range(self.rng.randint(1, 2)))

    def routed(self, stream, depth):
        parts = [self.predicate(), self.many(stream, depth)]
        if self.rng.random() < 0.5:
            self.used.add("else")
            parts.append(f"(else {self.many(stream, depth)})")
        return self.form("where", *parts)

    def simple(self, stream, depth):
        """A stream that keeps nothing, with such streams below it."""
        below = lambda: self.many(stream, depth)
        forms = [
            lambda: self.form("sdo", below()),
            lambda: self.routed(stream, depth),
            lambda: self.form("with", self.sets(), below()),
            lambda: self.form("default", self.sets(), below()),
            lambda: self.form("tag", '["t" "u"]', below()),
            lambda: self.form("expired", below()),
            lambda: self.form("tagged", '"t"', below()),
            lambda: self.form("over", str(self.rng.randint(-2, 3)), below()),
            lambda: self.form("under", str(self.rng.randint(-2, 3)), below()),
        ]
        return self.rng.choice(forms)()

    def above(self, depth):
        """A stream that is not below a `by`."""
        choice = self.rng.random()
        if depth == 0 or choice < 0.55:
            return self.form("by", self.fields_of_by(), self.many(self.below, 4))
        if choice < 0.8:
            return self.simple(self.above, depth)
        return self.rng.choice([self.index, self.notice])()

    def below(self, depth):
        """A stream below a `by`."""
        if depth == 0:
            return self.rng.choice([self.index, self.notice, self.notice])()
        choice = self.rng.random()
        if choice < 0.15:
            return self.rng.choice([self.index, self.notice])()
        if choice < 0.4:
            return self.simple(self.below, depth)
        return self.rng.choice([self.filter, self.vectors])(depth)

    def filter(self, depth):
        f = self.rng.choice([":state", ":metric", ":service", ":host"])
        below = self.many(self.below, depth)
        forms = [
            lambda: self.form("by", f, below),
            lambda: self.form("changed", f, below),
            lambda: self.form("changed", f, '{:init "ok"}', below),
            lambda: self.form("runs", self.count(), f, below),
            lambda: self.form("throttle", self.count(), self.secs(), below),
            lambda: self.form("stable", self.secs(), f, below),
        ]
        return self.rng.choice(forms)()

    def vectors(self, depth):
        below = self.many(self.of_vectors, depth)
        forms = [
            lambda: self.form("rollup", self.count(), self.secs(), below),
            lambda: self.form("batch", self.count(), self.secs(), below),
            lambda: self.form("fixed-event-window", self.count(), below),
            lambda: self.form("moving-event-window", self.count(), below),
            lambda: self.form("fixed-time-window", self.secs(), below),
            lambda: self.form("moving-time-window", self.secs(), below),
            lambda: self.form("coalesce", self.secs(), below),
        ]
        return self.rng.choice(forms)()

    def of_vectors(self, depth):
        choice = self.rng.random()
        if depth <= 0 or choice < 0.5:
            return self.notice()
        if choice < 0.7:
            return self.form("sdo", self.many(self.of_vectors, depth))
        fold = self.rng.choice(["sum", "minimum", "maximum", "count"])
        return self.form("smap", f"folds/{fold}", self.many(self.below, depth))


def expiry(rng, key):
    """How expired events come again: with the fields of the key."""
    if rng.random() < 0.2:
        return ""
    if rng.random() < 0.4:
        return f"(periodically-expire {rng.randint(1, 12)})\n"
    keep = key + rng.sample([":tags", ":metric", ":ttl", ":owner", ":service"], rng.randint(0, 3))
    rng.shuffle(keep)
    return f"(periodically-expire {rng.randint(1, 12)} {{:keep-keys [{' '.join(keep)}]}})\n"


def configuration(rng, key, used):
    plans = Plans(rng, key, used)
    streams = [plans.above(2) for _ in range(rng.randint(1, 3))]
    return expiry(rng, key) + "(streams\n  " + "\n  ".join(streams) + ")\n"


# ---- scripts


class Script:
    """Turns of some links, each with whole messages or the two halves of one."""

    def __init__(self, rng, hosts, services):
        self.rng, self.hosts, self.services = rng, hosts, services
        self.links = rng.randint(1, 3)
        self.start = self.now = rng.randint(95, 105)
        self.turns = []
        for _ in range(rng.randint(15, 40)):
            self.add_turn()
        self.turns.append((self.now + rng.randint(5, 60), None, []))

    def event(self):
        rng = self.rng
        return {
            "host": rng.choice(self.hosts),
            "service": rng.choice(self.services),
            "state": rng.choice(STATES[:3] + STATES),
            "time": rng.choice([None, None, self.now, max(0, self.now + rng.randint(-12, 6))]),
            "ttl": rng.choice([None, 1, 2, 5, 20]),
            "metric": rng.choice([None, 0, 1, 2, -3, 7]),
            "tags": rng.choice([[], [], ["t"], ["u", "t"]]),
            "owner": rng.choice([None, None, "me", ""]),
        }

    def add_turn(self):
        rng = self.rng
        self.now += rng.choice([0, 0, 1, 1, 2, 3, 11])
        if rng.random() < 0.1:
            self.turns.append((self.now, None, []))
            return
        link = rng.randrange(self.links)
        messages = [[self.event() for _ in range(rng.choice([0, 1, 1, 2, 4]))] for _ in range(rng.randint(1, 3))]
        if rng.random() < 0.2:
            self.turns.append((self.now, link, [("first half", messages[0])]))
            self.now += rng.randint(0, 2)
            self.turns.append((self.now, link, [("second half", messages[0])]))
        else:
            self.turns.append((self.now, link, [("whole", message) for message in messages]))

    def keys(self, key):
        """The keys of its events, in the order in which they come."""
        keys = {}
        for _, _, pieces in self.turns:
            for _, message in pieces:
                keys.update((key_of(event, key), None) for event in message)
        return list(keys)

    def text(self, is_wanted):
        """The script with the events that are wanted alone."""
        lines = [f"start {self.start}"] + [f"{self.start} open {link}" for link in range(self.links)]
        for now, link, pieces in self.turns:
            if link is None:
                lines.append(f"{now} idle")
                continue
            read = b""
            for part, message in pieces:
                whole = frame([event for event in message if is_wanted(event)])
                middle = len(whole) // 2
                read += {"whole": whole, "first half": whole[:middle], "second half": whole[middle:]}[part]
            lines.append(f"{now} read {link} {read.hex()}")
        return "\n".join(lines) + "\n"


def key_of(event, key):
    return tuple(event[name[1:]] for name in key)


# ---- notice lines

TOKEN = re.compile(r'"(?:[^"\\]|\\.)*"|[{]|@|[a-z]+=')


def unquoted(token):
    return re.sub(r"\\(.)", r"\1", token[1:-1])


def keys_of(line, key):
    """The keys of the events in a notice line."""
    item = re.fullmatch(r'\d+ "[^"]*" (.*)', line).group(1)
    events, name = [], None
    for token in TOKEN.findall(item):
        if token == "{":
            events.append({"host": None, "service": None})
        elif token[0] == '"':
            if name in ("host", "service"):
                events[-1][name] = unquoted(token)
            name = None
        else:
            name = token[:-1]
    return {key_of(event, key) for event in events}


class Player:
    """Plays scripts with the program."""

    def __init__(self, program, folder):
        self.program, self.folder = program, folder
        self.plays = 0

    def lines(self, config, script):
        """The notice lines of a replay."""
        self.plays += 1
        (self.folder / "config").write_text(config)
        (self.folder / "script").write_text(script)
        ended = subprocess.run(
            [self.program, "replay", "config", "script"],
            cwd=self.folder,
            stdin=subprocess.DEVNULL,
            capture_output=True,
            timeout=60.0,
        )
        if (ended.returncode, ended.stderr) != (0, b""):
            raise RuntimeError(f"status {ended.returncode}, {ended.stderr!r}\n{config}{script}")
        return [line for line in ended.stdout.decode().splitlines() if not line.startswith("link ")]


def differences(player, config, script, key):
    """What is noticed of a key in the whole script and not in that of the key alone, or the other way round; and how many
    lines were compared."""
    lines = player.lines(config, script.text(lambda event: True))
    found, counted = [], 0
    for one in script.keys(key):
        among = [line for line in lines if keys_of(line, key) == {one}]
        alone = player.lines(config, script.text(lambda event: key_of(event, key) == one))
        counted += len(among)
        if among != alone:
            found.append((one, among, alone))
    if counted != len(lines):
        found.append((None, lines, []))
    return found, counted


def main():
    if len(sys.argv) not in (2, 3):
        print(__doc__.splitlines()[0], file=sys.stderr)
        return 1
    begun = time.monotonic()
    rng, used, counted, failed, noticed = random.Random(SEED), set(), 0, 0, 0
    scripts = int(sys.argv[2]) if len(sys.argv) == 3 else SCRIPTS
    with tempfile.TemporaryDirectory() as folder:
        player = Player(pathlib.Path(sys.argv[1]).resolve(), pathlib.Path(folder))
        for number in range(scripts):
            key = rng.choice([[":host"], [":host"], [":service"], [":host", ":service"]])
            config = configuration(rng, key, used)
            services = rng.sample(SERVICES, rng.randint(2, 4) if ":service" in key else rng.randint(1, 3))
            script = Script(rng, rng.sample(HOSTS, rng.randint(2, 5)), services)
            found, lines = differences(player, config, script, key)
            counted, noticed = counted + lines, noticed + (lines > 0)
            for one, among, alone in found:
                failed += 1
                print(f"FAIL script {number}, key {one}\n{config}", *among, "-- alone:", *alone, sep="\n")
    missing = set(KINDS) - used
    if scripts == SCRIPTS and missing:
        failed += 1
        print("FAIL these kinds were not tried:", *sorted(missing))
    print(
        f"{'FAIL' if failed else 'ok  '} {scripts} scripts in {player.plays} replays, {noticed} with notices:"
        f" {counted} lines ({time.monotonic() - begun:.1f} s)"
    )
    return 1 if failed else 0


if __name__ == "__main__":
    sys.exit(main())
