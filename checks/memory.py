#!/usr/bin/env python3
"""memory.py PROGRAM: refuses the built program memory, reads and writes, one after the other.

For each case it runs the program once as it is, and counts its allocations. Then it runs it again for each of them:
that one is refused, and that one and all later ones. The program has to end with status 6 and its line, having written
a prefix of what it wrote before, or to do all that it did before. In the same way each read and each write fails, or
moves one byte alone; of `send` and `query`, which talk to a server, each call of epoll fails too. Then calls of a
server fail while two clients talk to it, for each of `serve`, `record` and `resume`: one link may break, or the server
ends with its status, and its journal has all events that were answered. At last the address space is cut to 5, 6, .. 60
MB.

It prints a line for each case, and ends with status 1 if one failed. It takes some minutes and needs a C compiler: what
is refused is refused by `refuse.c`, which it compiles. With `--only WORD` it runs the cases whose names have the word.
"""

import concurrent.futures
import contextlib
import os
import pathlib
import resource
import signal
import socket
import struct
import subprocess
import sys
import tempfile
import time

from journal import LISTEN, OPENED, READ, Misfit, head, is_free, read_journal, record_of
from server import compiled

OUT_OF_MEMORY = b"riemann: out of memory\n"
READ_FAULT, SINK_FAULT, LINK_FAULT, MEMORY, NOT_PASSED, UNANSWERED, DISK_FAULT = 3, 4, 5, 6, 12, 13, 16
PATIENCE = 30.0
PORT = 15560


class Failed(Exception):
    """A run that did what it must not, with what was seen."""


# ---- messages, in the wire format of Protocol Buffers


def varint(number):
    digits = b""
    while number >= 128:
        digits += bytes([number % 128 + 128])
        number //= 128
    return digits + bytes([number])


def field(number, value):
    return varint(number * 8 + 2) + varint(len(value)) + value


def frame(body):
    return struct.pack(">I", len(body)) + body


def event(host, service, tags=(), attributes=()):
    """An event with a state, a time, a metric, and a description too long to be kept without memory of its own."""
    text = b"\x08\x64" + field(2, b"ok") + field(3, service) + field(4, host) + field(5, b"description " * 4)
    text += b"".join(field(7, tag) for tag in tags)
    text += b"".join(field(9, field(1, key) + field(2, value)) for key, value in attributes)
    return field(6, text + b"\x68\x0a")


def query(text):
    return frame(field(5, field(1, text)))


# ---- the cases: words, files, and what the program may write before it ends with status 6


def rollup():
    reads = [f"{second} read 0 000000053203220161" for second in (101, 102, 103, 104, 105, 111, 112, 113)]
    script = ["start 100", "100 open 0", *reads, "120 idle"]
    return ["replay", "c", "s"], {"c": '(streams (rollup 3 10 (notice "r")))', "s": "\n".join(script) + "\n"}


def coalesce():
    script = ["start 100", "100 open 0", "101 read 0 000000053203220161", "107 read 0 000000053203220162", "110 idle"]
    return ["replay", "c", "s"], {
        "c": '(streams (by :host (coalesce 10 (notice "c"))))',
        "s": "\n".join(script) + "\n",
    }


def expiry():
    events = (
        "00000036320c12026f6b1a0363707522016132121208637269746963616c1a036d656d220161"
        "32121208637269746963616c1a03637075220162"
    )
    asked = query(b'host = "a" and not state = "ok"').hex()
    script = ["start 1000", "1000 open 0", "1000 open 1", f"1000 read 0 {events}", f"1001 read 1 {asked}", "1065 idle"]
    return ["replay", "c", "s"], {
        "c": "(let [index (index)] (periodically-expire 5)\n"
        '  (streams (default :ttl 60 index (expired (notice "expired")))))',
        "s": "\n".join(script) + "\n",
    }


def long_message():
    tags = [b"tag", b"a tag of more than twenty-four bytes"]
    body = b"".join(event(b"host %d" % n, b"service", tags, [(b"key %d" % n, b"value")]) for n in range(200))
    return ["feed", "c", "f"], {"c": '(streams index (changed :state (notice "n")))', "f": frame(body) + query(b"true")}


def query_of_many():
    body = b"".join(event(b"h%d" % n, b"s") for n in range(100))
    asked = query(b'service = "s" and (host =~ "h%" or host ~= "^h[0-9]+$")')
    return ["feed", "c", "f"], {"c": "(streams index)", "f": frame(body) + asked}


def long_configuration():
    below = '(where (service #"^a") (with {:state "x" :ttl 5} (by [:host :service] (changed :state {:init "ok"} (notice "n")))))'
    return ["check", "c"], {"c": "(periodically-expire 10)\n(streams\n" + "\n".join([below] * 15) + ")\n"}


def longest_configuration():
    return ["check", "c"], {"c": "(streams\n" + '(where (service "a") (tag "x" (notice "n")))\n' * 1_365 + ")\n"}


def many_keys():
    events = b"".join(frame(event(b"host %d" % n, b"service")) for n in range(100_000))
    return ["feed", "c", "f"], {"c": "(streams index)", "f": events}


def many_forks():
    reads = [f"{n} read 0 {frame(event(b'host %d' % n, b'service')).hex()}" for n in range(20_000)]
    script = ["start 0", "0 open 0", *reads]
    return ["replay", "c", "s"], {"c": '(streams (by :host (stable 60 :state (notice "n"))))', "s": "\n".join(script) + "\n"}


def many_links():
    opened = [f"0 open {link}" for link in range(257)]
    script = ["start 0", *opened, "1 read 0 000000053203220161", "1 read 256 000000053203220161", "2 broken 3"]
    return ["replay", "c", "s"], {"c": "(streams index)", "s": "\n".join(script) + "\n"}


def tests():
    """Three tests, of which the last one does not pass."""
    changes = '(event {:host "a" :state "ok"}) (tick 10) (event {:host "a" :state "warning" :tags ["prod"]})'
    item = '{:host "a" :state "warning" :tags ["prod"] :time 10}'
    first, last = f'(test "1" {changes} (expect "n" {item}))', f'(test "3" {changes} (expect "n"))'
    return ["test", "c", "t"], {
        "c": '(streams (default :ttl 60 index) (by [:host] (changed :state {:init "ok"} (notice "n"))))',
        "t": f'{first} (test "2" (tick 7) (expect "n")) {last}',
    }


def requests():
    """A message of 20 events, one event, and a query for all of them."""
    body = b"".join(event(b"h%d" % n, b"s") for n in range(20))
    return ["send", f"127.0.0.1:{PORT}", "f"], {"f": frame(body) + frame(event(b"h1", b"s")) + query(b'service = "s"')}


def question():
    return ["query", f"127.0.0.1:{PORT}", 'host =~ "h1%"'], {}


CASES = {
    "a rollup": rollup,
    "a coalesce in forks": coalesce,
    "events that expire, and a query": expiry,
    "a message of 200 events with tags and attributes": long_message,
    "a query that finds 100 events": query_of_many,
    "a configuration of 75 streams": long_configuration,
    "257 links": many_links,
    "three tests": tests,
}

# Those of clients, which follow one another over one server.
CLIENT_CASES = {"`send` of 21 events and a query": requests, "`query`": question}


LARGE = {
    "a configuration of 4,095 streams": longest_configuration,
    "a file with 100,000 keys": many_keys,
    "a script with 20,000 forks": many_forks,
}


# ---- runs


class Runner:
    """Runs the program in a folder with the files of a case, with some calls refused."""

    def __init__(self, program, library, folder, case):
        self.program, self.library, self.folder = program, library, folder
        self.words, files = case()
        for name, text in files.items():
            data = text if isinstance(text, bytes) else text.encode()
            (folder / name).write_bytes(data)
        self.whole = self.run()
        if self.whole[0] not in (0, NOT_PASSED):
            raise Failed(f"the run with nothing refused ended with {self.whole}")

    def run(self, **refused):
        """Gives the status, and what was written to standard output and to standard error."""
        return self.start({name: str(value) for name, value in refused.items()})

    def count(self, kind):
        """How many calls of a kind the run makes."""
        ours, its = os.pipe()
        self.start({"REFUSE_KIND": kind, "REFUSE_COUNT": str(its)}, pass_fds=(its,))
        os.close(its)
        with os.fdopen(ours, "rb") as it:
            return int(it.read())

    def start(self, refused, **given):
        ran = subprocess.run(
            [self.program, *self.words],
            cwd=self.folder,
            env={"LD_PRELOAD": self.library, **refused},
            stdin=subprocess.DEVNULL,
            capture_output=True,
            timeout=PATIENCE,
            check=False,
            **given,
        )
        return ran.returncode, ran.stdout, ran.stderr


def is_prefix(one, other):
    return other[: len(one)] == one


def stopped_well(ran, whole):
    """Whether a run that was refused memory ended as it has to: as the whole run, or with status 6, its line, and a prefix."""
    status, out, err = ran
    if status == whole[0]:
        return ran == whole
    return (
        status == MEMORY
        and is_prefix(out, whole[1])
        and err.endswith(OUT_OF_MEMORY)
        and is_prefix(err[: -len(OUT_OF_MEMORY)], whole[2])
    )


def failed_well(ran, whole, statuses=(READ_FAULT, SINK_FAULT, MEMORY)):
    """The same of a run of which a read or a write failed: its status says so, and it wrote a prefix and at most its line."""
    status, out, err = ran
    if status == whole[0]:
        return ran == whole
    return status in statuses and is_prefix(out, whole[1])


def client_failed_well(ran, whole):
    """The same of a client, whose link may fail too."""
    return failed_well(ran, whole, (READ_FAULT, SINK_FAULT, LINK_FAULT, MEMORY, UNANSWERED))


def in_turn(runner, pool, kind, is_well, **more):
    """Refuses each call of a kind in turn, and gives how many there are, and how many runs ended before their end."""
    calls = runner.count(kind)
    runs = pool.map(lambda at: (at, runner.run(REFUSE_KIND=kind, REFUSE_AT=at, **more)), range(calls))
    ended = 0
    for at, ran in runs:
        if not is_well(ran, runner.whole):
            raise Failed(f"{kind} {at} of {calls} {more}: status {ran[0]}, {ran[1][-200:]!r}, {ran[2][-200:]!r}")
        ended += ran[0] != runner.whole[0]
    return calls, ended


def refuse_all(runner, pool):
    """Gives a line of what was refused of a case."""
    line = refuse_memory(runner, pool)
    reads, _ = in_turn(runner, pool, "reads", failed_well)
    in_turn(runner, pool, "reads", equals, REFUSE_SHORT=1)
    writes, _ = in_turn(runner, pool, "writes", failed_well)
    in_turn(runner, pool, "writes", equals, REFUSE_SHORT=1)
    return f"{line}; {reads} reads and {writes} writes failed or were short"


def refuse_memory(runner, pool):
    once, ended = in_turn(runner, pool, "memory", stopped_well)
    _, ended_more = in_turn(runner, pool, "memory", stopped_well, REFUSE_MORE=1)
    return f"{once} allocations: status 6 in {ended} runs with one refused, in {ended_more} with it and all later ones"


def equals(ran, whole):
    return ran == whole


def refuse_client(program, library, folder, case, pool):
    """The same of a client, over a server of which nothing is refused. No read is short: a system's is not."""
    (folder / "c").write_text(SERVED)
    server = subprocess.Popen([program, "serve", "c"], cwd=folder, stdin=subprocess.DEVNULL, stdout=subprocess.DEVNULL)
    try:
        wait_for(server)
        Runner(program, library, folder, requests)
        runner = Runner(program, library, folder, case)
        line = refuse_memory(runner, pool)
        kinds = ("reads", "writes", "polls", "controls")
        reads, writes, polls, controls = (in_turn(runner, pool, kind, client_failed_well)[0] for kind in kinds)
        in_turn(runner, pool, "writes", equals, REFUSE_SHORT=1)
        return f"{line}; {reads} reads, {writes} writes, {polls} waits and {controls} other calls of epoll failed"
    finally:
        server.kill()
        server.wait()


# ---- a small address space


def cut(megabytes):
    size = megabytes * 1_000_000
    return lambda: resource.setrlimit(resource.RLIMIT_AS, (size, size))


def in_little_space(program, folder, case):
    """Runs a case with an address space of 5 to 60 MB, and gives how the runs ended."""
    words, files = case()
    for name, text in files.items():
        (folder / name).write_bytes(text if isinstance(text, bytes) else text.encode())
    ended = {0: 0, MEMORY: 0, "not started": 0}
    for megabytes in range(5, 61):
        ran = subprocess.run(
            [program, *words], cwd=folder, stdin=subprocess.DEVNULL, capture_output=True, timeout=PATIENCE,
            preexec_fn=cut(megabytes), check=False,
        )
        if ran.returncode == 127 and b"error while loading" in ran.stderr:
            ended["not started"] += 1
        elif ran.returncode == 0 or ran.returncode == MEMORY and ran.stderr.endswith(OUT_OF_MEMORY):
            ended[ran.returncode] += 1
        else:
            raise Failed(f"with {megabytes} MB: status {ran.returncode}, {ran.stderr[-200:]!r}")
    return f"5 to 60 MB of address space: status 0 {ended[0]} times, 6 {ended[MEMORY]} times, not started {ended['not started']} times"


def served_in_little_space(program, folder):
    """Serves a client that sends ever new keys, with an address space of 5 to 60 MB, and gives how the runs ended."""
    (folder / "c").write_text(f'(tcp-server {{:host "127.0.0.1" :port {PORT}}}) (streams index)')
    ended = {0: 0, MEMORY: 0, "not started": 0}
    for megabytes in range(5, 61):
        server = subprocess.Popen(
            [program, "serve", "c"], cwd=folder, stdin=subprocess.DEVNULL, stdout=subprocess.PIPE, stderr=subprocess.PIPE,
            preexec_fn=cut(megabytes),
        )
        try:
            load(server)
            if server.poll() is None:
                server.send_signal(signal.SIGTERM)
            out, err = server.communicate(timeout=PATIENCE)
        finally:
            server.kill()
        if server.returncode == 127 and b"error while loading" in err:
            ended["not started"] += 1
        elif server.returncode == -signal.SIGTERM:
            ended[0] += 1
        elif server.returncode == MEMORY and err == OUT_OF_MEMORY:
            ended[MEMORY] += 1
        else:
            raise Failed(f"served with {megabytes} MB: status {server.returncode}, {err[-200:]!r}")
    return (
        f"served with 5 to 60 MB of address space: went on {ended[0]} times, status 6 {ended[MEMORY]} times,"
        f" not started {ended['not started']} times"
    )


def load(server):
    """Sends 30,000 events of new keys to the server, as long as it takes them."""
    link = None
    for _ in range(200):
        if server.poll() is not None:
            return
        with contextlib.suppress(OSError):
            link = socket.create_connection(("127.0.0.1", PORT), timeout=PATIENCE)
            break
        time.sleep(0.01)
    if link is None:
        return
    with link, contextlib.suppress(OSError):
        for begin in range(0, 30_000, 100):
            body = b"".join(event(b"host %d" % n, b"service") for n in range(begin, begin + 100))
            link.sendall(frame(body))
            if len(link.recv(6)) == 0:
                return


# ---- calls of a server that fail

OK = frame(b"\x10\x01")
ENDINGS = {
    READ_FAULT: b"riemann: cannot read c\n",
    SINK_FAULT: b"",
    LINK_FAULT: b"riemann: links failed\n",
    MEMORY: OUT_OF_MEMORY,
    DISK_FAULT: b"riemann: disk failed\n",
}
SERVED = f'(tcp-server {{:host "127.0.0.1" :port {PORT}}}) (streams index (changed :state (notice "n")))'
POSTED = frame(event(b"host", b"service"))

# For each command of a server, how many of the first calls of a kind fail, one in each run.
KINDS = {"reads": 20, "writes": 12, "accepts": 8, "polls": 30, "controls": 6, "memory": 150}
SERVERS = {
    "serve": KINDS,
    "record": {**KINDS, "writes": 50, "syncs": 40},
    "resume": {**KINDS, "writes": 50, "syncs": 40},
}


class Client:
    """A client that gets its replies one after the other, as long as its link stands."""

    def __init__(self, message):
        self.message, self.got, self.is_broken = message, b"", False
        try:
            self.link = socket.create_connection(("127.0.0.1", PORT), timeout=PATIENCE)
        except OSError:
            self.link, self.is_broken = None, True

    def talk(self):
        """Sends the message, and takes its reply."""
        try:
            if not self.is_broken:
                self.link.sendall(self.message)
            wanted = len(self.got) + len(OK)
            while not self.is_broken and len(self.got) < wanted:
                piece = self.link.recv(wanted - len(self.got))
                self.got += piece
                self.is_broken = not piece
        except OSError:
            self.is_broken = True

    def close(self):
        if self.link is not None:
            self.link.close()


def wait_for(server):
    """Returns once the server listens, or has ended."""
    for _ in range(500):
        with contextlib.suppress(OSError), socket.create_connection(("127.0.0.1", PORT), timeout=PATIENCE):
            return
        if server.poll() is not None:
            return
        time.sleep(0.005)


def talk_of_two(server):
    """Two clients send three messages each, in turn. Gives them."""
    wait_for(server)
    clients = [Client(POSTED), Client(query(b'host = "x"'))]
    for client in clients * 3:
        client.talk()
    for client in clients:
        client.close()
    return clients


def begin(folder, command):
    """Writes the files of a command of a server, and gives its arguments, and the turns that its journal has before."""
    (folder / "c").write_text(SERVED)
    (folder / "j").unlink(missing_ok=True)
    if command == "serve":
        return ["serve", "c"], []
    if command == "record":
        return ["record", "c", "j"], []
    read = record_of(101, READ, 0, frame(event(b"other", b"service")))
    turns = [record_of(100, LISTEN), record_of(100, OPENED, 0), read]
    text = head(SERVED.encode()) + b"".join(b"\x01" + turn for turn in turns) + b"\x00"
    (folder / "j").write_bytes(text)
    return ["resume", "j"], read_journal(text)[1]


def is_kept(folder, before, posted):
    """Whether the journal, if there has to be one, has the turns of before, and as many events as were answered."""
    path = folder / "j"
    text = path.read_bytes() if path.exists() else b""
    if is_free(text):
        return not before and posted == 0
    try:
        _, turns, _ = read_journal(text)
    except Misfit:
        return False
    return turns[: len(before)] == before and sum(turn.bytes == POSTED for turn in turns) >= posted


def served(program, library, folder, command, kind, at):
    """Serves two clients while a call fails. Gives whether the server went on, and how many links broke."""
    words, before = begin(folder, command)
    server = subprocess.Popen(
        [program, *words], cwd=folder, stdin=subprocess.DEVNULL, stdout=subprocess.PIPE, stderr=subprocess.PIPE,
        env={"LD_PRELOAD": library, "REFUSE_KIND": kind, "REFUSE_AT": str(at)},
    )
    try:
        clients = talk_of_two(server)
        if any(it.is_broken for it in clients):
            with contextlib.suppress(subprocess.TimeoutExpired):
                server.wait(timeout=0.5)
        if server.poll() is None:
            server.send_signal(signal.SIGTERM)
        _, err = server.communicate(timeout=PATIENCE)
    finally:
        server.kill()
    # The signal may come after the last line of a server that is ending.
    was_stopped, broken = server.returncode == -signal.SIGTERM, sum(it.is_broken for it in clients)
    went_on = was_stopped and (err == b"" or err not in ENDINGS.values())
    is_well = all(is_prefix(it.got, 3 * OK) for it in clients)
    if went_on:
        is_well = is_well and broken <= 1 and err == b""
    elif not was_stopped:
        is_well = is_well and err == ENDINGS.get(server.returncode)
    if command != "serve":
        is_well = is_well and is_kept(folder, before, len(clients[0].got) // len(OK))
    if not is_well:
        raise Failed(f"call {at} of {kind}: status {server.returncode}, {broken} links broken, {err[-200:]!r}")
    return went_on, broken


def failing_server(program, library, folder, command):
    """Fails each of the first calls of a server, of each kind, and gives how the runs ended."""
    parts = []
    for kind, most in SERVERS[command].items():
        runs = [served(program, library, folder, command, kind, at) for at in range(most)]
        on = [broken for went_on, broken in runs if went_on]
        parts.append(f"{kind} {most}, went on {len(on)} with {sum(on)} links broken, ended {most - len(on)}")
    return "; ".join(parts)


# ---- all


def main(program, only):
    program = os.path.abspath(program)
    failed = 0
    with tempfile.TemporaryDirectory() as top, concurrent.futures.ThreadPoolExecutor(os.cpu_count()) as pool:
        library = compiled("refuse", top)
        if library is None:
            print("skipped: there is no C compiler")
            return 0
        checks = {
            name: lambda folder, case=case: refuse_all(Runner(program, library, folder, case), pool)
            for name, case in CASES.items()
        }
        for name, case in CLIENT_CASES.items():
            checks[name] = lambda folder, case=case: refuse_client(program, library, folder, case, pool)
        for name, case in LARGE.items():
            checks[f"{name}, in little space"] = lambda folder, case=case: in_little_space(program, folder, case)
        for it in SERVERS:
            checks[f"a server, `{it}`"] = lambda folder, command=it: failing_server(program, library, folder, command)
        checks["serving in little space"] = lambda folder: served_in_little_space(program, folder)
        for name, check in checks.items():
            if only not in name:
                continue
            folder = pathlib.Path(tempfile.mkdtemp(dir=top))
            try:
                print(f"{name}: {check(folder)}", flush=True)
            except (Failed, subprocess.TimeoutExpired) as error:
                failed += 1
                print(f"{name}: FAILED: {error}", flush=True)
    return 1 if failed else 0


if __name__ == "__main__":
    words = sys.argv[1:]
    only = words[words.index("--only") + 1] if "--only" in words else ""
    if not words or words[0].startswith("-"):
        sys.exit("usage: memory.py PROGRAM [--only WORD]")
    sys.exit(main(words[0], only))
