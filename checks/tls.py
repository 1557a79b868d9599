#!/usr/bin/env python3
"""tls.py PROGRAM: tries the recipes of examples/tls with stunnel and haproxy before a server, with client certificates.

It changes their ports and folders, and nothing else. A client with a certificate has to be answered as without TLS. One
without, one of another authority, and one that speaks no TLS have to get nothing. It prints a line for each check, and ends
with status 1 if one failed. It takes some seconds, listens on the ports 15594 to 15596, and ends what it starts. What is not
installed is skipped, and said.
"""

import pathlib
import shutil
import socket
import ssl
import subprocess
import sys
import time

from server import OK, PATIENCE, Failed, Server, event, frame, need, query, receive, reply_of, run_all

RECIPES = pathlib.Path(__file__).resolve().parent.parent / "examples/tls"
PORT, TLS_PORT, CLIENT_PORT = 15594, 15595, 15596
LARGE = [event(b"large", b"%02d" % number, b"x" * 60_000) for number in range(50)]


def expect(seen, wanted, what):
    if seen != wanted:
        raise Failed(f"{what}: {str(seen)[:300]} for {str(wanted)[:300]}")


def certificates(folder, *names):
    subprocess.run([RECIPES / "certificates.sh", folder, *names], check=True, timeout=PATIENCE)


def recipe(checks, name, prefix=""):
    """A recipe with the ports of this test, and the folder of its certificates."""
    text = (RECIPES / name).read_text()
    own = CLIENT_PORT if name == "stunnel_client.conf" else PORT
    for found, put in (("5554", TLS_PORT), ("127.0.0.1:5555", f"127.0.0.1:{own}"), ("= server:", "= 127.0.0.1:"),
                       ("/etc/riemann/tls", checks.tls)):
        text = text.replace(found, str(put))
    path = checks.folder / f"tried_{name}"
    path.write_text(prefix + text)
    return path


def start(checks, port, *words):
    """Starts a program, and waits until it listens."""
    log = checks.folder / f"log.{port}"
    with log.open("wb") as out:
        process = subprocess.Popen(words, stdin=subprocess.DEVNULL, stdout=out, stderr=out)
    checks.processes.append(process)
    deadline = time.monotonic() + PATIENCE
    while time.monotonic() < deadline and process.poll() is None:
        try:
            return socket.create_connection(("127.0.0.1", port), PATIENCE).close()
        except ConnectionRefusedError:
            time.sleep(0.02)
    raise Failed(f"{words[0]} does not listen: {log.read_text()[-400:]}")


def stunnel(checks, port, name):
    start(checks, port, "stunnel", str(recipe(checks, name, "foreground = yes\npid =\n")))


def haproxy(checks, port, name):
    start(checks, port, "haproxy", "-db", "-f", str(recipe(checks, name)))


def connect(checks, name=None, folder=None):
    """A connection over TLS, with the certificate of this name."""
    context = ssl.create_default_context(cafile=checks.tls / "ca.pem")
    if name:
        context.load_cert_chain((folder or checks.tls) / f"{name}.pem")
    plain = socket.create_connection(("127.0.0.1", TLS_PORT), PATIENCE)
    plain.setsockopt(socket.IPPROTO_TCP, socket.TCP_NODELAY, 1)
    return context.wrap_socket(plain, server_hostname="server")


def is_answered(checks, name):
    """Events and queries, and a reply of 3 MB that comes whole."""
    with connect(checks, name) as client:
        for it in (event(b"a"), *LARGE):
            client.sendall(frame(it))
            expect(receive(client, len(OK)), OK, "the reply to an event")
        client.sendall(query(b'host = "a"') + query(b'host = "large"'))
        wanted = reply_of(event(b"a")) + reply_of(*LARGE)
        expect(receive(client, len(wanted)) == wanted, True, "the replies to queries")


def gets_nothing(connected):
    """What a client gets that is let in to nothing: no byte, or an error."""
    try:
        with connected() as client:
            client.sendall(frame(event(b"intruder")))
            expect(receive(client, 1), b"", "a reply")
    except (ssl.SSLError, ConnectionError):
        pass


def intruders_get_nothing(checks):
    gets_nothing(lambda: connect(checks))
    gets_nothing(lambda: connect(checks, "web1", checks.other))
    with socket.create_connection(("127.0.0.1", TLS_PORT), PATIENCE) as client:
        client.sendall(frame(event(b"intruder")))
        client.settimeout(1)
        try:
            # A server of TLS may answer with an alert, and with nothing else.
            expect(receive(client, 5)[:1] in (b"", b"\x15"), True, "what plain bytes get")
        except (TimeoutError, ConnectionError):
            pass


def no_intruder_was_heard(checks):
    with socket.create_connection(("127.0.0.1", PORT), PATIENCE) as client:
        client.sendall(query(b'host = "intruder"'))
        expect(receive(client, len(OK)), OK, "the events of intruders")


def commands_are_answered(checks, name, statuses, printed):
    """The program's own commands over a client's stunnel, which asks for a server of this name."""
    path = recipe(checks, "stunnel_client.conf", "foreground = yes\npid =\n")
    path.write_text(path.read_text().replace("checkHost = server", f"checkHost = {name}"))
    start(checks, CLIENT_PORT, "stunnel", str(path))
    words = [checks.program, "query", f"127.0.0.1:{CLIENT_PORT}", 'host = "a"', "--turns", "100"]
    came = subprocess.run(words, capture_output=True, timeout=2 * PATIENCE)
    expect(came.stdout, printed, f"what a query of the server {name} prints: {came.stderr}")
    expect(came.returncode in statuses, True, f"status {came.returncode} of a query of the server {name}: {came.stderr}")
    process = checks.processes.pop()
    process.kill()
    process.wait()


def another_client_is_answered(checks):
    """A client with TLS of its own, once with a certificate and once without."""
    words = ["riemann-client", "send", "-G", "-o", f"cafile={checks.tls}/ca.pem"]
    own = [word for it in ("certfile", "keyfile") for word in ("-o", f"{it}={checks.tls}/web1.pem")]
    for host, options, wanted in (("intruder", [], 1), ("c", own, 0)):
        came = subprocess.run([*words, *options, "-h", host, "localhost", str(TLS_PORT)], capture_output=True, timeout=PATIENCE)
        expect(came.returncode, wanted, f"riemann-client as {host}: {came.stderr}")


def recipe_is_tried(proxy, name, outsiders):
    def check(checks):
        need(proxy.__name__)
        server = Server(checks, PORT)
        server.client().close()
        proxy(checks, TLS_PORT, name)
        is_answered(checks, "web1")
        is_answered(checks, "ops")
        intruders_get_nothing(checks)
        for it in outsiders:
            gets_nothing(lambda it=it: connect(checks, it))
        if shutil.which("stunnel"):
            line = b'0 ok\n{host="a" service="b" state="ok" time=100 metric=5}\n'
            commands_are_answered(checks, "server", (0,), line)
            # stunnel may end the connection in order or reset it, by when the query came.
            commands_are_answered(checks, "another", (5, 13), b"")
        if shutil.which("riemann-client"):
            another_client_is_answered(checks)
        no_intruder_was_heard(checks)

    return check


def authority_is_sound(checks):
    """A certificate makes no other one."""
    for name, wanted in (("ca", "CA:TRUE"), ("web1", "CA:FALSE"), ("server", "CA:FALSE")):
        words = ["openssl", "x509", "-noout", "-ext", "basicConstraints", "-in", checks.tls / f"{name}.pem"]
        text = subprocess.run(words, capture_output=True, text=True, check=True).stdout
        expect((wanted in text, text.count("CA:")), (True, 1), f"the certificate of {name}")
    modes = {it.name: oct(it.stat().st_mode & 0o777) for it in checks.tls.iterdir()}
    wanted = dict.fromkeys(("ca.key", "server.pem", "web1.pem", "ops.pem", "stranger.pem"), "0o600")
    expect(modes, wanted | {"ca.pem": "0o644", "users": "0o600"} | {it: modes[it] for it in modes if it == "ca.srl"}, "the files")


def certify(checks):
    need("openssl")
    checks.tls, checks.other = checks.folder / "tls", checks.folder / "other"
    certificates(checks.tls, "server", "web1", "ops")
    certificates(checks.tls, "stranger")
    certificates(checks.other, "web1")
    (checks.tls / "users").write_text("web1\nops\n")
    (checks.tls / "users").chmod(0o600)


CHECKS = {
    "an authority and its certificates": authority_is_sound,
    "stunnel before a server": recipe_is_tried(stunnel, "stunnel.conf", ()),
    "haproxy before a server": recipe_is_tried(haproxy, "haproxy.cfg", ("stranger",)),
}


if __name__ == "__main__":
    sys.exit(run_all(__doc__, CHECKS, PORT, TLS_PORT, CLIENT_PORT, prepare=certify))
