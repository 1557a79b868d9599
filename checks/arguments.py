#!/usr/bin/env python3
"""arguments.py PROGRAM: tries the arguments of the built program, as the system hands them over.

It gives each command its words with one too few and one too many, an argument that is not UTF-8, and files that are empty or
absent. It prints a line for each check, and ends with status 1 if one failed. It takes some seconds.
"""

import pathlib
import subprocess
import sys
import tempfile

from server import PATIENCE, Checks, Failed

DONE, USAGE, READ_FAULT, SCRIPT = 0, 1, 3, 7
CONFIG = b'(tcp-server {:host "127.0.0.1" :port 15598}) (streams index)'
CANONICAL = b'(tcp-server {:host "127.0.0.1" :port 5555})\n(streams)\n'
USAGE_LINE = b"riemann: usage: feed CONFIG FILE, "
# No text in UTF-8: a byte that begins none, a character that is cut off, one that is too long, and half of a pair.
NOT_UTF8 = (b"\xff", b"c\xc3", b"\xc0\xaf", b"\xed\xa0\x80", b"\x80")

# Each command with words that it takes: with `--turns 0` a server and a client end at once.
COMMANDS = (
    "check c",
    "feed c f",
    "replay c f",
    "test c f",
    "graphite f",
    "graphite f --host 1",
    "load c 0 0",
    "serve c --turns 0",
    "send 127.0.0.1:1 f --turns 0",
    "query 127.0.0.1:1 true --turns 0",
    "--help",
    "--version",
)


def call(checks, *words):
    """The status, the output and the error stream of the program, in a folder with the files c and f."""
    how = {"cwd": checks.folder, "stdin": subprocess.DEVNULL, "capture_output": True, "timeout": PATIENCE}
    ran = subprocess.run([checks.program, *words], **how, check=False)
    return ran.returncode, ran.stdout, ran.stderr


def expect_usage(checks, *words):
    status, out, err = call(checks, *words)
    if (status, out, err[: len(USAGE_LINE)], err.count(b"\n")) != (USAGE, b"", USAGE_LINE, 1):
        raise Failed(f"{words}: {status} {out[:40]} {err[:60]}")


def expect(checks, wanted, *words):
    came = call(checks, *words)
    if came != wanted:
        raise Failed(f"{words}: {came} for {wanted}")


def is_command(checks):
    for text in COMMANDS:
        status, _, err = call(checks, *text.split())
        if status == USAGE:
            raise Failed(f"{text}: {err[:60]}")


def is_short(checks):
    expect_usage(checks)
    expect_usage(checks, "")
    for text in (*COMMANDS, "serve c", "record c absent", "resume absent", "send x f", "query x true"):
        expect_usage(checks, *text.split()[:-1])


def is_long(checks):
    for text in COMMANDS:
        for more in (["x"], [""], ["--turns", "0", "x"], ["x"] * 4, ["--help"]):
            expect_usage(checks, *text.split(), *more)
    expect_usage(checks, "record", "c", "absent", "x")
    expect_usage(checks, "resume", "absent", "x")


def is_not_utf8(checks):
    for text in COMMANDS:
        words = [it.encode() for it in text.split()]
        for place in range(len(words) + 1):
            expect_usage(checks, *words[:place], NOT_UTF8[place % len(NOT_UTF8)], *words[place + 1 :])
    for word in NOT_UTF8:
        expect_usage(checks, b"check", word)


def is_option(checks):
    status, out, err = call(checks, "--help")
    if (status, out[:24], err) != (DONE, b"usage: riemann COMMAND\n\n", b""):
        raise Failed(f"--help: {status} {out[:40]} {err[:60]}")
    status, out, err = call(checks, "--version")
    if (status, out[:8], out.count(b"\n"), err) != (DONE, b"riemann ", 1, b""):
        raise Failed(f"--version: {status} {out[:40]} {err[:60]}")
    expect(checks, (READ_FAULT, b"", b"riemann: cannot read --help\n"), "check", "--help")


def is_empty(checks):
    for words, out in (("check f", CANONICAL), ("feed f f", b""), ("graphite f", b""), ("test f f", b"")):
        expect(checks, (DONE, out, b""), *words.split())
    expect(checks, (DONE, b"", b""), "send", "127.0.0.1:1", "f", "--turns", "0")
    expect(checks, (SCRIPT, b"", b"riemann: script refused at line 1\n"), "replay", "f", "f")


def is_absent(checks):
    absent = "check @,feed @ x,feed c @,replay @ x,replay c @,test @ x,test c @,graphite @,graphite @ --host 1,load @ 0 0"
    absent += ",serve @,serve @ --turns 0,record @ x,send 127.0.0.1:1 @,send 127.0.0.1:1 @ --turns 0"
    for name in ("absent", "a b", "", "é", str(checks.folder)):
        line = f"riemann: cannot read {name}\n".encode()
        for words in absent.split(","):
            expect(checks, (READ_FAULT, b"", line), *[it.replace("@", name) for it in words.split()])
    if sorted(it.name for it in checks.folder.iterdir()) != ["c", "f"]:
        raise Failed("a file was made")


CHECKS = {
    "each command with its words": is_command,
    "no words, an empty one, and one too few": is_short,
    "words too many": is_long,
    "words that are not UTF-8": is_not_utf8,
    "the options": is_option,
    "empty files": is_empty,
    "files that are absent": is_absent,
}


def main():
    program = str(pathlib.Path(sys.argv[1]).resolve())
    with tempfile.TemporaryDirectory() as folder:
        checks = Checks(program, pathlib.Path(folder))
        (checks.folder / "c").write_bytes(CONFIG)
        (checks.folder / "f").write_bytes(b"")
        for name, check in CHECKS.items():
            checks.run(name, check)
    return 1 if checks.failed else 0


if __name__ == "__main__":
    sys.exit(main())
