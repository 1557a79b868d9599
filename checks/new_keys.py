#!/usr/bin/env python3
"""new_keys.py PROGRAM COUNT: measures the memory of a server to which COUNT events come, each of a host that is new.

It serves `(by :host {:idle 1} (changed :state {:init "ok"} (notice "c")))`, so that a host's fork ends after a second in which
it was silent, and sends the events by `new_keys.c`, which it compiles: with `--rate N` so many in a second, and else as fast as
they are taken. With `--kept` the `by` has no `:idle`, and keeps all. It prints the server's resident memory in KB before the
first event and every ten seconds, and the seconds, the memory and the peak at the end. What memory is taken follows the second
with the most events. It ends with status 1 if an event was not accepted, or if the memory after the last event is more than
half above that after the first ten seconds. It says if it is skipped, without a C compiler. It ends what it starts.
"""

import argparse
import pathlib
import shutil
import subprocess
import sys
import tempfile
import time

from held import connect, resident

PORT = 15575
SECONDS = 10


def main():
    words = argparse.ArgumentParser()
    words.add_argument("program")
    words.add_argument("count", type=int)
    words.add_argument("--rate", type=int, default=0)
    words.add_argument("--kept", action="store_true")
    given = words.parse_args()
    if not shutil.which("cc"):
        print("skipped: there is no C compiler")
        return 0
    with tempfile.TemporaryDirectory() as folder:
        config, client = pathlib.Path(folder) / "config", pathlib.Path(folder) / "client"
        source = pathlib.Path(__file__).with_name("new_keys.c")
        subprocess.run(["cc", "-O2", "-o", client, source], check=True)
        fields = ":host" if given.kept else ":host {:idle 1}"
        streams = f'(by {fields} (changed :state {{:init "ok"}} (notice "c")))'
        config.write_text(f'(tcp-server {{:host "127.0.0.1" :port {PORT}}}) (streams {streams})')
        server = subprocess.Popen([given.program, "serve", str(config)])
        try:
            connect().close()
            print(f"before {resident(server)}", flush=True)
            began, seen = time.monotonic(), []
            sender = subprocess.Popen([client, str(PORT), str(given.count), str(given.rate)])
            while True:
                try:
                    status = sender.wait(SECONDS)
                    break
                except subprocess.TimeoutExpired:
                    seen.append(resident(server))
                    print(f"after {time.monotonic() - began:.0f} seconds {seen[-1]}", flush=True)
            seen.append(resident(server))
            print(f"{given.count} events in {time.monotonic() - began:.0f} seconds, then {seen[-1]}, ", end="")
            print(f"at most {resident(server, 'VmHWM')}")
        finally:
            server.kill()
            server.wait()
    is_flat = given.kept or seen[-1] * 2 <= seen[0] * 3
    if status != 0 or not is_flat:
        print("FAIL " + ("the memory grew" if status == 0 else "an event was not accepted"))
        return 1
    return 0


if __name__ == "__main__":
    sys.exit(main())
