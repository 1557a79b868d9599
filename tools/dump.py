#!/usr/bin/env python3
"""Writes the whole index of the server at ADDRESS to FILE, as frames that `riemann send ADDRESS FILE` takes."""

import argparse
import pathlib
import sys

sys.path.insert(1, str(pathlib.Path(__file__).resolve().parent.parent / "packaging"))
from riemann_messages import main_of, write_dump  # noqa: E402 # the folder comes first


def write(arguments):
    events, size = write_dump(arguments.address, arguments.file)
    print(f"{events} events in {size} bytes")


def main():
    parser = argparse.ArgumentParser(description=__doc__)
    parser.add_argument("address", help="HOST:PORT")
    parser.add_argument("file")
    return main_of(write, parser.parse_args())


if __name__ == "__main__":
    sys.exit(main())
