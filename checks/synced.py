#!/usr/bin/env python3
"""synced.py PROGRAM: tries when `record` and `resume` of the built program sync the file of a journal.

It reads the calls that the program makes, which `calls.c` logs. `record` syncs the directory of the file before it writes.
The first sync of a file follows a write of all that the file has, and changes no byte of it. Each record is added by the
four calls of `docs/JOURNAL.md`, and each reply is sent after those of its turn. It prints a line for each check, and ends
with status 1 if one failed. It needs a C compiler, says so without one, listens on port 15570, and takes some seconds.
"""

import os
import pathlib
import sys

from journal import JOURNAL, PORT, READ, Keeper, config, event_of, expect_end, read_head, read_record
from server import OK, Failed, Skipped, compiled, frame, receive, run_all

REPLIES = 20
# More than two of the pieces in which a file is written back.
LONG = 150_000


class Calls:
    """The calls of the log, in order, as tuples: the kind, the path of the file, and numbers."""

    def __init__(self, log, path):
        self.path, self.all = str(path), []
        paths, places = {}, {}
        for line in log.read_text().splitlines():
            kind, number, *rest = line.split(" ", 2)
            if kind == "send":
                self.all.append(("send", None, int(rest[0])))
            elif kind == "open":
                paths[number], places[number] = rest[0], 0
            elif kind == "close":
                paths.pop(number, None)
            elif number in paths:
                self.take(kind, number, rest, paths[number], places)

    def take(self, kind, number, rest, path, places):
        """A call of a file that was opened by its path."""
        if kind == "seek":
            places[number] = int(rest[0])
        elif kind == "sync":
            self.all.append(("sync", path))
        else:
            count = int(rest[0])
            self.all.append((kind, path, places[number], count))
            places[number] += count

    def of_journal(self):
        """The writes and the syncs of the journal, and the sends."""
        return [it for it in self.all if it[0] == "send" or it[0] != "read" and it[1] == self.path]


def logged(checks, command, *arguments):
    """The program, with a log of its calls, which are of a journal in the file of the last argument."""
    log = checks.folder / f"{len(checks.processes)}.log"
    environment = {"LD_PRELOAD": checks.library, "CALLS_LOG": str(log)}
    return Keeper(checks, command, *arguments, env=environment), lambda: Calls(log, arguments[-1])


def served(checks, command, *arguments):
    """The calls of a server that keeps a journal, of which a client gets replies one by one."""
    keeper, calls = logged(checks, command, *arguments)
    client = keeper.client()
    if client is None:
        raise Failed(f"the program ended: {keeper.end()}")
    with client:
        for metric in range(REPLIES):
            client.sendall(frame(event_of(b"h", metric)))
            if receive(client, len(OK)) != OK:
                raise Failed("an event is not answered")
    keeper.kill()
    return calls()


# ---- what the calls have to be


def after_write_back(calls, size):
    """The calls after the first sync. Before it all that the file has is written, from its start, and no more."""
    place = 0
    while calls and calls[0][0] == "write":
        _, _, begun, count = calls.pop(0)
        if begun != place:
            raise Failed(f"{count} bytes are written at {begun}, and not at {place}")
        place += count
    if place != size or not calls or calls[0][0] != "sync":
        raise Failed(f"{place} of {size} bytes are written back before the first sync")
    return calls[1:]


def kinds_of(text):
    """The kinds of the turns of a journal, by the places of their gates, and the place of the closed gate."""
    kinds, (_, place) = {}, read_head(text)
    while text[place] != 0:
        turn, after = read_record(text, place + 1, not kinds)
        kinds[place], place = turn.kind, after
    return kinds, place


def expect_records(calls, gate, text):
    """Each record is put on the disk whole before its gate is, and each reply is sent after its turn. `text` is what the
    file has at the end."""
    kinds, _ = kinds_of(text)
    posted = answered = 0
    while calls:
        if calls[0][0] == "send":
            calls, answered = calls[1:], answered + 1
            if posted < answered:
                raise Failed(f"reply {answered} is sent before its turn is on the disk")
            continue
        if len(calls) < 4:
            break  # The server was killed.
        (_, *written), _, (_, *opened), _ = four = calls[:4]
        if [it[0] for it in four] != ["write", "sync", "write", "sync"]:
            raise Failed(f"the gate is at {gate}, and the calls are {four}")
        if written[1] != gate + 1 or opened[1:] != [gate, 1]:
            raise Failed(f"the gate is at {gate}, and the calls are {four}")
        posted += kinds.get(gate) == READ
        calls, gate = calls[4:], gate + written[2]
    if answered != REPLIES:
        raise Failed(f"{answered} replies are sent")


def expect_directory_synced(calls, directory):
    """The directory of the file is synced before the file is written."""
    for call in calls.all:
        if call == ("sync", directory):
            return
        if call[:2] == ("write", calls.path):
            break
    raise Failed(f"{directory} is not synced before {calls.path} is written")


# ---- checks


def is_recorded(checks):
    """The path is whole, or a name in the folder in which the program runs."""
    for path, directory in ((str(checks.folder / "whole"), str(checks.folder)), ("name", ".")):
        calls = served(checks, "record", config(checks), path)
        expect_directory_synced(calls, directory)
        rest = after_write_back(calls.of_journal(), 0)
        if [it[0] for it in rest[:2]] != ["write", "sync"]:
            raise Failed(f"a journal is begun by {rest[:2]}")
        # The head is written as a record is.
        expect_records(rest[2:], 0, pathlib.Path(path).read_bytes())


def is_resumed(checks):
    path = checks.folder / "whole"
    text = path.read_bytes()
    text = text + b"\xff" * LONG
    path.write_bytes(text)
    _, gate = kinds_of(text)
    calls = served(checks, "resume", path)
    after = path.read_bytes()
    if after[:gate] != text[:gate] or len(after) != len(text):
        raise Failed("the journal of before is changed")
    expect_records(after_write_back(calls.of_journal(), len(text)), gate, after)


def is_refused(checks):
    """What is refused is written back all the same, and is not changed."""
    path = checks.folder / "refused"
    text = b"\x00" + bytes(it % 251 for it in range(LONG))
    path.write_bytes(text)
    keeper, calls = logged(checks, "resume", path)
    expect_end(keeper, JOURNAL, b"riemann: journal refused at 0\n")
    if after_write_back(calls().of_journal(), len(text)) or path.read_bytes() != text:
        raise Failed("a file that is refused is changed")


CHECKS = {
    "the syncs of `record`": is_recorded,
    "the syncs of `resume`": is_resumed,
    "the sync of a file that is refused": is_refused,
}


def log_calls(checks):
    os.chdir(checks.folder)
    checks.library = compiled("calls", checks.folder)
    if checks.library is None:
        raise Skipped("no C compiler")


if __name__ == "__main__":
    sys.exit(run_all(__doc__, CHECKS, PORT, prepare=log_calls))
