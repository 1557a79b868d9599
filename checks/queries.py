#!/usr/bin/env python3
"""queries.py PROGRAM: measures how long queries take, and for how long they keep another client waiting.

It serves `(streams index)`, posts 100,000 events of about 120 bytes, of random keys, and asks for all of them, for 20,000
and for one host. Then it sends 1, 10, 100 and 5,400 queries `true` in one write, and an event from another client at
once; and the same with `not nil`, which all events meet too. It prints the times in milliseconds, the least and the
median of some runs, and of these writes what the server spends, on the average. It ends with status 1 if a reply is not
the one that it has to be. With `--most N` no write has more queries than N. It ends what it starts.

With `--expressions` it measures queries with regular expressions in place of these. None of them is found in an event.
It prints for each what the server spends to build it, in milliseconds, and on a search of one event, in microseconds;
and in seconds, for a query that holds as many of it as fit, and for a piece of 64 KB of such queries, if all events are
searched. Then it prints how long another client waits for a query full of the first, and what memory the server takes
for a query that is full of large expressions, and in which no event is looked at.

With `--flood` it measures what one client can do to the others, for each of these queries. Ten clients post events, and
another one posts an event and asks for one host, once a second, for five seconds. Then one client more sends pieces that
are full of the query, without reading a reply, and they go on for 60 seconds (`--seconds`). For both it prints the worst
wait and the median one of the client that asks, in milliseconds, with ">" where a reply did not come, and the events of
the ten in a second. Last are the same three for the second half of the flood.
"""

import argparse
import pathlib
import random
import socket
import statistics
import struct
import subprocess
import sys
import tempfile
import threading
import time

from server import OK, Failed, ask, expect, field, frame, query, varint

PORT = 15570
EVENTS, SERVICES, FOUND = 100_000, 10, 20_000
MESSAGE = 100
LIMIT = 4_194_304
NONE = b"\x10\x01"
NOW = int(time.time())
WRITES = (1, 10, 100, 5400)
# Two rules that all events meet: the one of which the length of the reply is kept, and another one.
ALL = (b"true", b"not nil")
QUERY, PIECE = 4_096, 65_536
# Tests, and how many events are searched to measure each, for ten of it.
TESTS = {
    'host ~= "^q"': 50_000,
    'host ~= "q"': 50_000,
    'host ~= "[a-z]+q"': 50_000,
    'description ~= "([a-z]+ ?)+q"': 10_000,
    'description ~= "(.?){99}q"': 1_000,
    # About as large as an expression may be.
    'description ~= "(.?){270}q"': 1_000,
}
TEN = 10
POSTING, QUIET = 10, 5
NOBODY = b'host = "nobody"'
LARGE = b'a ~= "(.?){270}"'


def event(number):
    """Event `number`, as a field of a message."""
    host, service = divmod(number, SERVICES)
    state = b"few" if number < FOUND else b"many"
    body = b"\x08" + varint(NOW) + field(2, state) + field(3, b"service %d" % service) + field(4, b"host%05d.net" % host)
    body += field(5, b"what was seen there at that time") + field(7, b"tag one") + field(7, b"tag two")
    return field(6, body + field(9, field(1, b"rack") + field(2, b"number seven")) + b"\x68" + varint(2 * number))


def connect():
    deadline = time.monotonic() + 20
    while True:
        try:
            client = socket.create_connection(("127.0.0.1", PORT))
            client.setsockopt(socket.IPPROTO_TCP, socket.TCP_NODELAY, 1)
            return client
        except ConnectionRefusedError:
            if time.monotonic() > deadline:
                raise
            time.sleep(0.02)


def receive(client, count):
    """So many bytes, each of which is copied once."""
    text = bytearray(count)
    view, had = memoryview(text), 0
    while had < count:
        more = client.recv_into(view[had:])
        if more == 0:
            raise SystemExit("FAIL the server closed the connection")
        had += more
    return bytes(text)


def reply(client):
    return receive(client, struct.unpack(">I", receive(client, 4))[0])


def after_queries(client, other, text, count):
    """The queries in one write, and then an event of another client, which is answered."""
    client.sendall(query(text) * count)
    time.sleep(0.0005)
    other.sendall(frame(event(7)))
    expect(other, OK)


def timed(call):
    start = time.monotonic()
    answer = call()
    return 1000 * (time.monotonic() - start), answer


def asked(client, text):
    client.sendall(query(text))
    return reply(client)


def show(name, times):
    print(f"{name}: {min(times):.2f} {statistics.median(times):.2f}", flush=True)


def post(client, fields):
    """Posts the events in a random order."""
    fields = random.Random(1).sample(fields, EVENTS)
    for first in range(0, EVENTS, MESSAGE):
        client.sendall(frame(b"".join(fields[first : first + MESSAGE])))
        expect(client, OK)


def connected():
    clients = connect(), connect()
    for client in clients:
        client.settimeout(1200)
    return clients


def full_query(test):
    """As often the test as a query holds, so that an event that meets none of them is searched for each."""
    return b" or ".join([test] * ((QUERY + 4) // (len(test) + 4)))


def spent(server):
    """The seconds that the server's process has spent on a processor."""
    return int(pathlib.Path(f"/proc/{server.pid}/schedstat").read_text().split()[0]) / 1e9


def peak(server):
    """The most memory that the server has had, in KB."""
    return int(pathlib.Path(f"/proc/{server.pid}/status").read_text().split("VmHWM:")[1].split()[0])


def spent_on(server, client, text, times):
    """The seconds that the server spends on the query, which finds nothing."""
    before = spent(server)
    for _ in range(times):
        if asked(client, text) != NONE:
            raise SystemExit(f"FAIL {text.decode()}: an event is found")
    return (spent(server) - before) / times


def measure_test(server, client, test, searched):
    """What a test takes to be built, and to be searched for in one event. The events are chosen by their metrics."""
    built = spent_on(server, client, NOBODY + b" and " + test, 20)
    ten = b" or ".join([test] * TEN)
    walk = spent_on(server, client, b"metric < 0", 20)
    whole = spent_on(server, client, b"metric < %d and (" % searched + ten + b")", 3)
    return built, (whole - walk - TEN * built) / searched / TEN


def measure_expressions(server):
    fields = [event(number) for number in range(EVENTS)]
    client, other = connected()
    post(client, fields)
    print(f"{EVENTS} events: built, a search, a query of at most {QUERY} bytes, a piece of {PIECE}")
    for text, searched in TESTS.items():
        test = text.encode()
        built, search = measure_test(server, client, test, searched)
        whole = full_query(test)
        taken = whole.count(test) * (built + EVENTS * search)
        queries = PIECE // len(query(whole))
        print(f"{text}: {1000 * built:.2f} {1e6 * search:.2f} {taken:.1f} {taken * queries:.0f}", flush=True)
    first = full_query(next(iter(TESTS)).encode())
    before = spent(server)
    client.sendall(query(first))
    time.sleep(0.0005)
    waited, _ = timed(lambda: ask(other, frame(fields[7]), OK))
    if reply(client) != NONE:
        raise SystemExit("FAIL a query full of the first: an event is found")
    taken = spent(server) - before
    print(f"{first.count(b'~=')} of the first: another client waits {waited / 1000:.1f}, the server spends {taken:.1f}")
    before, large = peak(server), full_query(LARGE)[: -len(NOBODY + b" and ()")]
    large = NOBODY + b" and (" + large[: large.rindex(b" or ")] + b")"
    taken = spent_on(server, client, large, 1)
    print(f"{large.count(LARGE)} of {LARGE.decode()}, no event: {taken:.1f}, from {before} to {peak(server)} KB")


class Others:
    """The clients that are served beside a flood, each in a thread of its own. They end with the server."""

    def __init__(self, fields):
        self.counts, self.waits, self.asked = [0] * POSTING, [], None
        messages = [frame(b"".join(fields[MESSAGE * each : MESSAGE * (each + 1)])) for each in range(POSTING)]
        for each, message in enumerate(messages):
            begin(self.post, connect(), each, message)
        begin(self.ask, connect(), frame(fields[0]) + query(b'host = "host00000.net"'))

    def post(self, client, each, message):
        while True:
            client.sendall(message)
            expect(client, OK)
            self.counts[each] += MESSAGE

    def ask(self, client, request):
        while True:
            self.asked = time.monotonic()
            client.sendall(request)
            expect(client, OK)
            if not reply(client).startswith(b"\x10\x01"):
                raise SystemExit("FAIL one host: refused")
            self.waits.append(time.monotonic() - self.asked)
            self.asked = None
            time.sleep(1)

    def measure(self, seconds):
        """The worst wait and the median one, whether a reply is missing, and the events in a second."""
        first, before, begun = len(self.waits), sum(self.counts), time.monotonic()
        time.sleep(seconds)
        asked, now = self.asked, time.monotonic()
        missing = asked is not None and now - asked > 1
        waits = self.waits[first:] + ([now - asked] if missing or not self.waits[first:] else [])
        return max(waits), statistics.median(waits), missing, (sum(self.counts) - before) / (now - begun)


def begin(call, *given):
    def run():
        try:
            call(*given)
        except (OSError, Failed):
            pass  # The server was ended.

    threading.Thread(target=run, daemon=True).start()


def send_for_ever(client, piece):
    while True:
        client.sendall(piece)


def shown(measured):
    worst, median, missing, events = measured
    return f"{'>' * missing}{1000 * worst:.0f} {1000 * median:.1f} {events:.0f}"


def measure_flood(server, text, seconds):
    fields = [event(number) for number in range(EVENTS)]
    client, flooding = connected()
    post(client, fields)
    others = Others(fields)
    others.measure(2)
    quiet = others.measure(QUIET)
    begin(send_for_ever, flooding, query(text) * (PIECE // len(query(text))))
    before, halves = len(others.waits), [others.measure(seconds / 2) for _ in range(2)]
    waits = others.waits[before:] or [halves[1][0]]
    worst, missing = max(half[0] for half in halves), any(half[2] for half in halves)
    flooded = worst, statistics.median(waits), missing, statistics.mean(half[3] for half in halves)
    return f"{shown(quiet)}, {shown(flooded)}, {shown(halves[1])}"


def floods():
    """The name of each flood and its query."""
    whole = {f"full of {test}": full_query(test.encode()) for test in TESTS}
    return {**{text.decode(): text for text in ALL}, **whole}


def measure(server, most):
    fields = [event(number) for number in range(EVENTS)]
    few, host = b"".join(fields[:FOUND]), b"".join(fields[:SERVICES])
    size = 2 + sum(map(len, fields))
    refused = b"\x10\x00" + field(3, b"reply of %d bytes over %d" % (size, LIMIT))
    client, other = connected()
    post(client, fields)
    print(f"{EVENTS} events of {size // EVENTS} bytes, {FOUND} with the state \"few\"")
    for text, answer in (
        (b"true", refused),
        (b'state = "few"', b"\x10\x01" + few),
        (b'host = "host00000.net"', b"\x10\x01" + host),
        (b'state =~ "f%"', b"\x10\x01" + few),
        (b"false", NONE),
    ):
        times = []
        for _ in range(15):
            taken, found = timed(lambda: asked(client, text))
            if found != answer:
                raise SystemExit(f"FAIL {text.decode()}: {len(found)} bytes, and not {len(answer)}")
            times.append(taken)
        show(text.decode(), times)
    for text in ALL:
        for count in WRITES:
            # As many as a piece holds.
            count = min(count, PIECE // len(query(text)))
            if count > most:
                continue
            times, before = [], spent(server)
            runs = max(1, min(9, 200 // count))
            for _ in range(runs):
                times.append(timed(lambda: after_queries(client, other, text, count))[0])
                for _ in range(count):
                    if reply(client) != refused:
                        raise SystemExit(f"FAIL a query {text.decode()}")
            show(f"another client waits, {count} queries {text.decode()}", times)
            print(f"the server spends {1000 * (spent(server) - before) / runs:.2f}", flush=True)


def main():
    arguments = argparse.ArgumentParser()
    arguments.add_argument("program")
    arguments.add_argument("--most", type=int, default=WRITES[-1])
    arguments.add_argument("--expressions", action="store_true")
    arguments.add_argument("--flood", action="store_true")
    arguments.add_argument("--seconds", type=int, default=60)
    given = arguments.parse_args()
    if given.expressions:
        serve(given.program, measure_expressions)
    elif given.flood:
        print("worst wait, median, events in a second; with a flood; in its second half", flush=True)
        for name, text in floods().items():
            print(f"{name}: {serve(given.program, measure_flood, text, given.seconds)}", flush=True)
    else:
        serve(given.program, measure, given.most)


def serve(program, call, *given):
    """What the call gives with a server of its own."""
    with tempfile.TemporaryDirectory() as folder:
        config = pathlib.Path(folder) / "config"
        config.write_text(f'(tcp-server {{:host "127.0.0.1" :port {PORT}}}) (streams index)')
        server = subprocess.Popen([program, "serve", str(config)])
        try:
            return call(server, *given)
        finally:
            server.kill()
            server.wait()


if __name__ == "__main__":
    sys.exit(main())
