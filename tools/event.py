#!/usr/bin/env python3
"""Writes an event as a frame to standard output, for `riemann send ADDRESS FILE`."""

import argparse
import pathlib
import sys
import time

sys.path.insert(1, str(pathlib.Path(__file__).resolve().parent.parent / "packaging"))
from riemann_messages import event, frame, is_ttl, main_of  # noqa: E402 # the folder comes first

MOST = 2**63


def whole(text):
    """A whole number of 64 signed bits."""
    if not text.removeprefix("-").isdecimal() or not text.isascii():
        raise argparse.ArgumentTypeError(f"{text!r} is not a whole number")
    if not -MOST <= int(text) < MOST:
        raise argparse.ArgumentTypeError(f"{text} is not from -2^63 to 2^63 - 1")
    return int(text)


def ttl(text):
    """A ttl that the server takes."""
    if not is_ttl(whole(text)):
        raise argparse.ArgumentTypeError(f"{text} is not from 0 to 2^31 - 128, or has over 24 bits")
    return int(text)


def utf8(text):
    """A text in UTF-8."""
    try:
        text.encode()
    except UnicodeEncodeError as fault:
        raise argparse.ArgumentTypeError(f"{text!r} is not UTF-8") from fault
    return text


def attribute(text):
    """A key and a value."""
    key, sign, value = utf8(text).partition("=")
    if not sign:
        raise argparse.ArgumentTypeError(f"{text!r} is not KEY=VALUE")
    return key, value


def write(arguments):
    given = vars(arguments)
    if given["time"] is None:
        given["time"] = int(time.time())
    sys.stdout.buffer.write(frame(event(**given)))
    sys.stdout.buffer.flush()


def main():
    parser = argparse.ArgumentParser(description=__doc__)
    parser.add_argument("host", type=utf8)
    parser.add_argument("service", type=utf8)
    parser.add_argument("--state", type=utf8)
    parser.add_argument("--metric", type=whole)
    parser.add_argument("--time", type=whole, help="in seconds since 1970; now, if it is not given")
    parser.add_argument("--ttl", type=ttl, help="after how many seconds it expires")
    parser.add_argument("--description", type=utf8)
    parser.add_argument("--tag", type=utf8, action="append", default=[], dest="tags")
    parser.add_argument("--attribute", type=attribute, action="append", default=[], dest="attributes", metavar="KEY=VALUE")
    return main_of(write, parser.parse_args())


if __name__ == "__main__":
    sys.exit(main())
