#!/usr/bin/env python3
"""balanced.py PROGRAM: compares three servers behind haproxy with one server, host by host.

Twelve hosts, each with an address of its own in 127.0.0.0/8, send the same events to both. The notice lines of a host have
to be the same but for the second in which they were made, and the three servers together have to have the events of the
one. It prints a line for each check, and ends with status 1 if one failed. It takes some seconds, and ends what it starts.
Without haproxy it says so, and ends with status 0.
"""

import collections
import pathlib
import re
import shutil
import socket
import struct
import subprocess
import sys
import tempfile
import time

from server import OK, PATIENCE, expect, field, frame, query, receive, varint

ONE_PORT, PORTS, BALANCER_PORT = 15560, (15561, 15562, 15563), 15559
HOSTS, EVENTS = 12, 30
CONFIG = """
(tcp-server {{:host "127.0.0.1" :port {port}}})
(streams
  index
  (by :host
    (changed :state {{:init "ok"}} (notice "changed"))
    (moving-event-window 3 (smap folds/sum (where (> metric 250) (notice "high"))))))
"""
BALANCER = """
defaults
  mode tcp
  timeout connect 2s
  timeout client 1h
  timeout server 1h
listen riemann
  bind 127.0.0.1:{port}
  balance source
  hash-type consistent
{servers}
"""


class Failed(Exception):
    pass


def event(host, number):
    """Event `number` of the host, with a state, a metric and a time that follow from both."""
    mixed = (number * 37 + host * 11) % 101
    state = b"critical" if mixed > 70 else b"ok"
    body = b"\x08" + varint(1000 + number) + field(2, state) + field(3, b"cpu") + field(4, b"host%d" % host)
    return field(6, body + b"\x68" + varint(2 * mixed))


def connect(port, host):
    """A connection from the address of the host, as soon as somebody listens."""
    deadline = time.monotonic() + PATIENCE
    while True:
        try:
            return socket.create_connection(("127.0.0.1", port), PATIENCE, (f"127.0.1.{host + 1}", 0))
        except ConnectionRefusedError:
            if time.monotonic() > deadline:
                raise Failed(f"nobody listens on port {port}")
            time.sleep(0.02)


def is_up(port):
    with connect(port, 200) as client:
        client.sendall(query(b"false"))
        expect(client, OK)


def send_all(port):
    """All hosts at once, each over its connection, one event each in turn."""
    clients = [connect(port, host) for host in range(HOSTS)]
    for number in range(EVENTS):
        for host, client in enumerate(clients):
            client.sendall(frame(event(host, number)))
        for client in clients:
            expect(client, OK)
    for client in clients:
        client.close()


def events_at(port):
    """The bytes of all events of the index."""
    with connect(port, 200) as client:
        client.sendall(query(b"true"))
        body = receive(client, struct.unpack(">I", receive(client, 4))[0])
    events, at = [], 2
    while at < len(body):
        end = at + 2 + body[at + 1]
        events.append(body[at:end])
        at = end
    return events


def lines_of_hosts(paths):
    """The lines of each host in order, without the second in which they were made."""
    lines = collections.defaultdict(list)
    for path in paths:
        for line in path.read_text().splitlines():
            lines[re.search(r'host="(\w+)"', line)[1]].append(line.split(" ", 1)[1])
    return dict(lines)


def run(program, folder, processes):
    notices = {}
    for port in (ONE_PORT, *PORTS):
        config = folder / f"{port}.config"
        config.write_text(CONFIG.format(port=port))
        notices[port] = folder / f"{port}.notices"
        with notices[port].open("wb") as out:
            processes.append(subprocess.Popen([program, "serve", str(config)], stdout=out))
    servers = "\n".join(f"  server s{port} 127.0.0.1:{port} check" for port in PORTS)
    config = folder / "haproxy.cfg"
    config.write_text(BALANCER.format(port=BALANCER_PORT, servers=servers))
    for port in (ONE_PORT, *PORTS):
        is_up(port)
    processes.append(subprocess.Popen(["haproxy", "-q", "-db", "-f", str(config)]))
    send_all(ONE_PORT)
    send_all(BALANCER_PORT)
    one, three = events_at(ONE_PORT), [events_at(port) for port in PORTS]
    if sorted(one) != sorted(sum(three, [])) or len(one) != HOSTS:
        raise Failed(f"{len(one)} events, and {[len(events) for events in three]}")
    if sum(1 for events in three if events) < 2:
        raise Failed("all hosts are at one server")
    wanted = lines_of_hosts([notices[ONE_PORT]])
    found = lines_of_hosts([notices[port] for port in PORTS])
    if wanted != found or len(wanted) != HOSTS:
        raise Failed("the lines of a host differ")
    count = sum(len(lines) for lines in wanted.values())
    shares = " + ".join(str(len(events)) for events in three)
    return f"{count} lines of {HOSTS} hosts ({shares}) are those of one server"


def main():
    if len(sys.argv) != 2:
        print(__doc__.splitlines()[0], file=sys.stderr)
        return 1
    if not shutil.which("haproxy"):
        print("skip three servers behind haproxy: it is not installed")
        return 0
    processes = []
    with tempfile.TemporaryDirectory() as folder:
        try:
            print("ok  ", run(sys.argv[1], pathlib.Path(folder), processes))
            return 0
        except (Failed, OSError) as fault:
            print("FAIL three servers behind haproxy:", fault)
            return 1
        finally:
            for process in processes:
                process.kill()
                process.wait()


if __name__ == "__main__":
    sys.exit(main())
