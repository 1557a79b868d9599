#!/usr/bin/env python3
"""clients.py PROGRAM: has clients of others send events to the built program, over loopback, and looks at each event.

The C command line, a program over the C library, Ruby, events as riemann-tools sends them, syslog-ng and collectd, each
where it is installed. Host, service, state, description, ttl, metric, tags and attributes of every event have to be what the
client was told to send. Faults of collectd that are known are counted, and any other one fails. It prints a line for each
check, says what it skips, and ends with status 1 if one failed. It takes some seconds, listens on port 15565, and ends what
it starts.
"""

import os
import pathlib
import re
import shutil
import subprocess
import sys
import time

from server import PATIENCE, Failed, Skipped, need, run_all

ROOT = pathlib.Path(__file__).resolve().parent.parent
sys.dont_write_bytecode = True
sys.path.append(str(ROOT / "examples"))

import notices_shared  # noqa: E402

PORT = 15565
ADDRESS = ("127.0.0.1", str(PORT))
CONFIG = f'(tcp-server {{:host "127.0.0.1" :port {PORT}}}) (streams index (notice "got"))'

LIBRARY = r"""
#include <riemann/riemann-client.h>
#include <riemann/event.h>
#include <riemann/message.h>
#include <riemann/simple.h>
#include <stdio.h>
#include <stdlib.h>

int main(int count, char **words) {
  riemann_client_t *client = riemann_client_create(RIEMANN_CLIENT_TCP, "127.0.0.1", atoi(words[1]));
  int is_ok = client != NULL;
  for (int64_t number = 0; is_ok && number < 50; number++) {
    char service[20];
    sprintf(service, "disk %d", (int)number);
    riemann_message_t *reply = riemann_communicate_event(client,
        RIEMANN_EVENT_FIELD_HOST, "lib1", RIEMANN_EVENT_FIELD_SERVICE, service, RIEMANN_EVENT_FIELD_STATE, "ok",
        RIEMANN_EVENT_FIELD_METRIC_S64, 9007199254740993 + number, RIEMANN_EVENT_FIELD_TTL, 30.0f,
        RIEMANN_EVENT_FIELD_TAGS, "a", "b", NULL, RIEMANN_EVENT_FIELD_NONE);
    is_ok = reply && reply->has_ok && reply->ok;
    riemann_message_free(reply);
  }
  riemann_message_t *reply = riemann_communicate_query(client, "host = \"lib1\"");
  is_ok = is_ok && reply && reply->n_events == 50 && reply->events[0]->metric_sint64 == 9007199254740993;
  riemann_message_free(reply);
  riemann_client_free(client);
  return !is_ok;
}
"""
RUBY = """
require "riemann/client"
client = Riemann::Client.new(host: "127.0.0.1", port: ARGV[0].to_i, timeout: 20)
20.times do |number|
  sent = { host: "ruby1", service: "disk #{number}", state: "critical", metric: number - 10, ttl: 60, tags: ["a", "b"], k: "v" }
  exit 2 unless (client.tcp << sent).ok
end
exit client["host = \\"ruby1\\""].length == 20"""
# As the program of riemann-tools for a disk, and that for the load, report.
TOOLS = """
require "riemann/client"
client = Riemann::Client.new(host: "127.0.0.1", port: ARGV[0].to_i, timeout: 20).tcp
[["disk /", 0.53, "53% used"], ["disk /srv", 0.97, "97% used"], ["load", 2, "2 processes"]].each do |service, metric, words|
  state = metric.is_a?(Float) && metric > 0.9 ? "critical" : "ok"
  client << { host: "tools1", service: service, state: state, metric: metric, description: words, ttl: 10, tags: [] }
end"""
SYSLOG = """@version: 3.38
source s {{ file("{0}/messages" flags(no-parse)); }};
destination d {{
  riemann(server("127.0.0.1") port({1}) type("tcp") ttl("120")
    host("syslog1") service("log") state("ok") description("$MSG") metric(int64("5")));
}};
log {{ source(s); destination(d); }};
"""
COLLECTD = """Hostname "collectd1"
BaseDir "{0}"
PIDFile "{0}/collectd.pid"
Interval 1
LoadPlugin contextswitch
LoadPlugin load
LoadPlugin memory
LoadPlugin threshold
LoadPlugin write_riemann
<Plugin threshold>
  <Type "contextswitch">
    WarningMax 0
    Persist true
    PersistOK true
  </Type>
</Plugin>
<Plugin write_riemann>
  <Node "server">
    Host "127.0.0.1"
    Port "{1}"
    Protocol TCP
    Batch false
    StoreRates false
    TTLFactor 2.0
    Notifications false
    CheckThresholds {2}
  </Node>
</Plugin>
"""


def start(checks, log, *words):
    with log.open("wb") as out:
        process = subprocess.Popen(words, stdin=subprocess.DEVNULL, stdout=out, stderr=subprocess.STDOUT, cwd=checks.folder)
    checks.processes.append(process)


def call(status, *words):
    ran = subprocess.run(words, capture_output=True, text=True, timeout=2 * PATIENCE, check=False)
    if ran.returncode != status:
        raise Failed(f"{words[0]}: status {ran.returncode}: {ran.stdout}{ran.stderr}")
    return ran.stdout + ran.stderr


class Listener:
    """The program, and the events that it got."""

    def __init__(self, checks):
        self.lines = checks.folder / f"notices.{len(checks.processes)}"
        self.begun = int(time.time())
        config = checks.folder / "config"
        config.write_text(CONFIG)
        start(checks, self.lines, checks.program, "serve", config)

    def events(self, count):
        """The events once there are so many, as fields without times, which have to be of now."""
        deadline = time.monotonic() + 2 * PATIENCE
        while self.lines.read_text().count("\n") < count:
            if time.monotonic() > deadline:
                raise Failed(f"no {count} events, and these: {self.lines.read_text()}")
            time.sleep(0.05)
        events = [notices_shared.notice_of(line).events[0] for line in self.lines.read_text().split("\n")[:-1]]
        for event in events:
            if not self.begun <= int(event.pop("time")) <= time.time():
                raise Failed(f"the time of {event}")
        return events

    def expect(self, wanted):
        events = self.events(len(wanted))
        for seen, one in zip(events, wanted):
            if seen != one:
                raise Failed(f"{seen} for {one}")
        if len(events) != len(wanted):
            raise Failed(f"{len(events)} events for {len(wanted)}: {events[len(wanted):]}")


def is_up(checks):
    """A server that listens."""
    listener = Listener(checks)
    for _ in range(int(PATIENCE) * 10):
        if subprocess.run([checks.program, "query", ":".join(ADDRESS), "false"], capture_output=True, check=False).returncode == 0:
            return listener
        time.sleep(0.1)
    raise Failed("the program does not listen")


def c_command_line(checks):
    need("riemann-client")
    listener, sent = is_up(checks), ["riemann-client", "send", "-h", "web1", "-S"]
    call(0, *sent, "disk", "-s", "critical", "-i", "97", "--ttl", "60", "-t", "full", "-t", "old", "-D", "a b", "-a", "mount=/", *ADDRESS)
    call(0, *sent, "cpu", "-i", "-5", *ADDRESS)
    call(0, *sent, "load", "-d", "1.5", *ADDRESS)
    said = call(1, *sent, "cpu", "-s", "ok", "-i", "42", "--ttl", "300.5", *ADDRESS)
    if "message refused at 17: ttl" not in said:
        raise Failed(said)
    base = {"host": "web1", "@x-client": "riemann-c-client"}
    first = {"service": "disk", "state": "critical", "description": "a b", "ttl": "60", "metric": "97", "@mount": "/"}
    listener.expect([{**base, **first, "tags": '["full" "old"]'}, {**base, "service": "cpu", "metric": "-5"}, {**base, "service": "load"}])
    said = call(0, "riemann-client", "query", "-j", 'service = "disk"', *ADDRESS)
    if '"metric_sint64":97' not in said or '"mount":"\\/"' not in said:
        raise Failed(said)
    if "query refused at 6" not in call(1, "riemann-client", "query", "host =", *ADDRESS):
        raise Failed("a query is not refused")


def c_library(checks):
    need("cc", "pkg-config")
    flags = subprocess.run(["pkg-config", "--cflags", "--libs", "riemann-client"], capture_output=True, text=True, check=False)
    if flags.returncode:
        raise Skipped("no libriemann-client-dev")
    source, client = checks.folder / "client.c", checks.folder / "client"
    source.write_text(LIBRARY)
    call(0, "cc", "-o", client, source, *flags.stdout.split())
    listener = is_up(checks)
    call(0, client, str(PORT))
    base = {"host": "lib1", "state": "ok", "ttl": "30", "tags": '["a" "b"]'}
    listener.expect([{**base, "service": f"disk {it}", "metric": str(9_007_199_254_740_993 + it)} for it in range(50)])


def need_ruby():
    need("ruby")
    if subprocess.run(["ruby", "-e", 'require "riemann/client"'], capture_output=True, check=False).returncode:
        raise Skipped("no ruby-riemann-client")


def ruby_client(checks):
    need_ruby()
    listener = is_up(checks)
    call(0, "ruby", "-e", RUBY, str(PORT))
    base = {"host": "ruby1", "state": "critical", "ttl": "60", "tags": '["a" "b"]', "@k": "v"}
    listener.expect([{**base, "service": f"disk {it}", "metric": str(it - 10)} for it in range(20)])


def riemann_tools(checks):
    """A share as a float is no metric here: its state and words are what counts."""
    need_ruby()
    listener = is_up(checks)
    call(0, "ruby", "-e", TOOLS, str(PORT))
    base = {"host": "tools1", "ttl": "10"}
    listener.expect([
        {**base, "service": "disk /", "state": "ok", "description": "53% used"},
        {**base, "service": "disk /srv", "state": "critical", "description": "97% used"},
        {**base, "service": "load", "state": "ok", "description": "2 processes", "metric": "2"},
    ])  # fmt: skip


def syslog_client(checks):
    need("syslog-ng")
    if "riemann" not in call(0, "syslog-ng", "--module-registry"):
        raise Skipped("no syslog-ng-mod-riemann")
    listener, folder = is_up(checks), checks.folder
    (folder / "messages").write_text("".join(f"message {it}\n" for it in range(50)))
    (folder / "syslog.conf").write_text(SYSLOG.format(folder, PORT))
    files = [f"--{name}={folder}/syslog.{name}" for name in ("persist-file", "pidfile", "control")]
    start(checks, folder / "syslog.log", "syslog-ng", "--foreground", "--no-caps", f"--cfgfile={folder}/syslog.conf", *files)
    base = {"host": "syslog1", "service": "log", "state": "ok", "ttl": "120", "metric": "5", "tags": '[".source.s"]'}
    listener.expect([{**base, "description": f"message {it}"} for it in range(50)])


def faults_of_collectd(event, states):
    """The known faults of an event, which has to be right in all else."""
    event, faults = dict(event), set()
    plugin, kind = ("-".join(filter(None, [event[f"@{it}"], event.get(f"@{it}_instance")])) for it in ("plugin", "type"))
    right = (f"{plugin}/{kind}", f"{plugin}/{kind}/{event['@ds_name']}")
    state, service, tags = (event.pop(it, None) for it in ("state", "service", "tags"))
    faults |= {"a service of no letter"} if not re.search("[a-z]", service) else set()
    faults |= {"broken tags"} if tags else set()
    faults |= {"an empty state or description"} if state == "" or event.pop("description", None) == "" else set()
    faults |= {"an empty host"} if event["host"] == "" else set()
    if (service not in right and not faults & {"a service of no letter"}) or state not in ("", None, *states):
        raise Failed(f"{service}, {state}: {event}")
    is_whole = event["@ds_type"] != "gauge"
    rest = event["ttl"], event["host"] in ("", "collectd1"), event.get("description")
    if rest != ("2", True, None) or bool(re.fullmatch(r"\d+", event.get("metric", ""))) != is_whole:
        raise Failed(f"{event}")
    return faults


def collectd_client(checks):
    """With CheckThresholds an event has the state that the plugin `threshold` found."""
    program = shutil.which("collectd", path=f"{os.environ['PATH']}:/usr/sbin")
    if not program or not os.path.exists("/usr/lib/collectd/write_riemann.so"):
        raise Skipped("no collectd-core")
    for is_checked, states in (("false", ()), ("true", ("ok", "warning"))):
        listener = is_up(checks)
        (checks.folder / "collectd.conf").write_text(COLLECTD.format(checks.folder, PORT, is_checked))
        start(checks, checks.folder / "collectd.log", program, "-f", "-C", "collectd.conf")
        events = listener.events(60)
        checks.end_all()
        faults = [it for event in events for it in faults_of_collectd(event, states)]
        if states and not {"ok", "warning"} <= {it.get("state") for it in events if "@ds_name" in it}:
            raise Failed("no event has a state of its threshold")
        said = ", ".join(f"{faults.count(it)} {it}" for it in sorted(set(faults)))
        checks.note += f"CheckThresholds {is_checked}: {len(events)} events; {said or 'no fault'}. "


CHECKS = {
    "the C command line": c_command_line,
    "the C library": c_library,
    "the Ruby client": ruby_client,
    "events as those of riemann-tools": riemann_tools,
    "syslog-ng": syslog_client,
    "collectd, but for its known faults": collectd_client,
}


if __name__ == "__main__":
    sys.exit(run_all(__doc__, CHECKS, PORT))
