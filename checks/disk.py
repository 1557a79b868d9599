#!/usr/bin/env python3
"""disk.py PROGRAM: tries a journal on a disk of which one write fails, once.

The disk is ext4 in a file on a file system in memory that is full, so that a block of it that was given back cannot be
written. A server of `record` ends as the gate of its last record is not written. The block is then as it was before, and
every write succeeds. A server of `resume` answers events. A copy of the disk at that moment, as after a power cut, has all
that was answered. It prints a line for each check, and ends with status 1 if one failed. It needs root and loop devices, and
says what it skips without them. It takes some seconds, listens on port 15570, and unmounts what it mounted.
"""

import contextlib
import fcntl
import os
import shutil
import struct
import subprocess
import sys

from journal import DISK_FAILED, DISK_FAULT, PORT, READ, Keeper, Run, check_found, config, event_of, expect_end, read_journal
from server import OK, Failed, Skipped, frame, need, receive, run_all

MEGABYTE = 1_048_576
BLOCK = 4_096
# The `ioctl` that gives the block of the disk in which a block of a file is.
FIBMAP = 1
TRIES = 20


def call(*words):
    need(words[0])
    ran = subprocess.run([str(it) for it in words], capture_output=True, check=False)
    if ran.returncode:
        raise Skipped(f"{words[0]}: {ran.stderr.decode(errors='replace').strip()}")


@contextlib.contextmanager
def mounted(folder, *words):
    folder.mkdir()
    call("mount", *words, folder)
    try:
        yield folder
    finally:
        subprocess.run(["umount", str(folder)], check=False, capture_output=True)


class Disk:
    """An ext4 file system in a file that has all its blocks, on a file system in memory that has no other room."""

    def __init__(self, memory):
        self.image, self.filling = memory / "image", memory / "filling"
        call("fallocate", "-l", 32 * MEGABYTE, self.image)
        call("mkfs.ext4", "-q", "-F", "-b", BLOCK, "-E", "nodiscard,lazy_itable_init=0,lazy_journal_init=0", self.image)
        call("fallocate", "-l", 32 * MEGABYTE, self.image)

    def fill(self):
        """Takes all room that is left."""
        with contextlib.suppress(OSError), open(self.filling, "ab", buffering=0) as filling:
            while True:
                filling.write(bytes(BLOCK))

    @contextlib.contextmanager
    def failing(self, path, block):
        """The block of the file cannot be written meanwhile. Then it has the bytes of before, and can be."""
        with open(path, "rb") as file:
            place = BLOCK * struct.unpack("i", fcntl.ioctl(file, FIBMAP, struct.pack("i", block)))[0]
        with open(self.image, "r+b", buffering=0) as image:
            before = os.pread(image.fileno(), BLOCK, place)
            # Its last byte is a gate, which an idle turn may just have opened.
            if before[:-1] != path.read_bytes()[BLOCK * block :][: BLOCK - 1]:
                raise Failed("the block of the file is not found on the disk")
            self.fill()
            call("fallocate", "-p", "-o", place, "-l", BLOCK, self.image)
            self.fill()
            try:
                yield
            finally:
                self.filling.unlink()
                os.pwrite(image.fileno(), before, place)


# ---- a server, and a client that gets replies


class Talk:
    """A client of a server. `answered` are the events that it got a reply for, and those that were before."""

    def __init__(self, keeper, answered):
        self.client, self.answered = keeper.client(), answered
        if self.client is None:
            raise Failed(f"the program ended: {keeper.end()}")

    def post(self, size):
        """Sends events whose frames have this size together. Gives whether all were answered."""
        events = events_of(size, 64 + len(self.answered))
        replies = b""
        with contextlib.suppress(OSError):
            self.client.sendall(b"".join(frame(event_of(*it)) for it in events))
            replies = receive(self.client, len(OK) * len(events))
        self.answered += events[: len(replies) // len(OK)]
        return len(replies) == len(OK) * len(events)


def events_of(size, metric):
    """Events of which no two have the same host, whose metrics go on from this one. It is from 64 to 8,191."""
    bare = len(frame(event_of(b"", metric)))
    count = size // (bare + 40)
    room = size - count * bare
    hosts = [(room + it) // count for it in range(count)]
    return [((b"%d" % (metric + it)).ljust(hosts[it], b"x"), metric + it) for it in range(count)]


# ---- checks


def fail_last_gate(checks, disk, path):
    """A server of `record` ends as a block is not written, in which nothing but the gate of its last record is written
    then. Gives the events that were answered before."""
    keeper = Keeper(checks, "record", config(checks), path)
    talk = Talk(keeper, [])
    for _ in range(TRIES):
        _, turns, gate = read_journal(path.read_bytes())
        # The record of a read has 23 bytes more than it, and 17 more after a reply. An idle turn may come between.
        after = gate + 24 + 17 * (turns[-1:] != [] and turns[-1].kind == READ)
        if not talk.post(BLOCK + (BLOCK - 1 - after) % BLOCK):
            raise Failed("an event is not answered")
        _, _, gate = read_journal(path.read_bytes())
        if gate % BLOCK == BLOCK - 1:
            with disk.failing(path, gate // BLOCK):
                if not talk.post(2 * BLOCK):
                    expect_end(keeper, DISK_FAULT, DISK_FAILED)
                    return talk.answered
    raise Failed("no write failed")


def answer_more(checks, path, answered):
    """A server of `resume` answers events. Then it is killed. Gives all events that were answered."""
    keeper = Keeper(checks, "resume", path)
    talk = Talk(keeper, answered)
    for _ in range(5):
        if not talk.post(1_000):
            raise Failed("an event is not answered")
    keeper.kill()
    return talk.answered


def is_kept(checks):
    if os.geteuid() != 0:
        raise Skipped("not root")
    with contextlib.ExitStack() as stack:
        memory = stack.enter_context(mounted(checks.folder / "memory", "-t", "tmpfs", "-o", "size=33M", "tmpfs"))
        disk = Disk(memory)
        path = stack.enter_context(mounted(checks.folder / "disk", "-o", "loop", disk.image)) / "j"
        stack.callback(checks.end_all)
        answered = answer_more(checks, path, fail_last_gate(checks, disk, path))
        shutil.copy(disk.image, checks.folder / "copy")
        copied = stack.enter_context(mounted(checks.folder / "copied", "-o", "loop", checks.folder / "copy")) / "j"
        run = Run()
        run.go_on(copied.read_bytes())
        missing = sum(it not in run.events for it in answered)
        if missing:
            raise Failed(f"{missing} of {len(answered)} answered events are missing")
        check_found(checks, copied, run)
        checks.note = f"{len(answered)} events were answered"


if __name__ == "__main__":
    sys.exit(run_all(__doc__, {"a gate that was not written": is_kept}, PORT))
