#!/usr/bin/env python3
"""graphite.py PROGRAM: compares `PROGRAM graphite` with a plain program, over random files.

The plain program below shares no code with the server, and takes its time. The files are drawn from fixed numbers, so that
each run compares the same. It prints a line for each file, and ends with status 1 if one differs.

graphite.py --rows: prints rows of tests for crates/test_rows/data/graphite-texts.rows, drawn the same way.
"""

import pathlib
import random
import re
import subprocess
import sys
import tempfile

MOST = 2**63
LINES_REFUSED = 10


# ---- what lines mean


def lines_of(text):
    """The lines of a text, without their LF and the one CR before it."""
    *ended, last = text.split(b"\n")
    return [line[:-1] if line.endswith(b"\r") else line for line in ended] + [last]


def words_of(line):
    return [word for word in line.replace(b"\t", b" ").split(b" ") if word]


def is_path(word):
    if len(word) > 1024 or any(byte < 0x20 or byte == 0x7F for byte in word):
        return False
    try:
        word.decode("utf-8")
    except UnicodeDecodeError:
        return False
    return True


def value_of(word):
    """The number of a value, or None."""
    found = re.fullmatch(rb"(-?[0-9]{1,20})(\.0{1,20})?", word)
    if found is None or not -MOST <= int(found[1]) < MOST:
        return None
    return int(found[1])


def time_of(word):
    """The number of a time, or None."""
    if re.fullmatch(rb"[0-9]{1,19}", word) is None or int(word) >= MOST:
        return None
    return int(word)


def read_line(line, host_part):
    """None where the line is skipped, the name of a cause, or host, service, time and metric."""
    words = words_of(line)
    if not words:
        return None
    if len(words) != 3:
        return "words"
    path, value, time = words
    if not is_path(path):
        return "path"
    if value_of(value) is None:
        return "value"
    if time_of(time) is None:
        return "time"
    host, service = None, path
    parts = path.split(b".")
    if host_part and len(parts) > host_part:
        host = parts.pop(host_part - 1)
        service = b".".join(parts)
    return host, service, time_of(time), value_of(value)


# ---- frames, in the wire format of Protocol Buffers


def varint(number):
    digits = b""
    while number >= 128:
        digits += bytes([number % 128 + 128])
        number //= 128
    return digits + bytes([number])


def field(number, content):
    """A field of bytes."""
    return varint(number * 8 + 2) + varint(len(content)) + content


def frame_of(host, service, time, metric):
    event = b"\x08" + varint(time) + field(3, service)
    if host is not None:
        event += field(4, host)
    event += b"\x68" + varint(2 * metric if metric >= 0 else -2 * metric - 1)
    message = field(6, event)
    return len(message).to_bytes(4, "big") + message


def converted(text, host_part):
    """The frames of a text, its refused lines as they are reported, and the status."""
    frames, refused = [], []
    for number, line in enumerate(lines_of(text), 1):
        said = read_line(line, host_part)
        if isinstance(said, str):
            refused.append((number, said))
        elif said is not None:
            frames.append(frame_of(*said))
    return b"".join(frames), refused


# ---- random lines


NUMBERS = [
    b"0", b"-0", b"5", b"5.", b"5.0", b"5.00", b"-5.000", b"1.5", b".0", b"5.0.0", b"5.01", b"+5", b"--5", b"-", b"5e3",
    b"0x10", b"nan", b"007", b"9223372036854775807", b"9223372036854775808", b"-9223372036854775808",
    b"-9223372036854775809", b"-9223372036854775808.0", b"18446744073709551616", b"99999999999999999999",
    b"00000000000000000001", b"000000000000000000001", b"-00000000000000000001", b"5." + 20 * b"0", b"5." + 21 * b"0",
    b"1.0\r", b"\xd9\xa3",
]  # fmt: skip
TIMES = [
    b"0", b"100", b"1700000000", b"9223372036854775807", b"9223372036854775808", b"0000000000000000007",
    b"00000000000000000007", b"-1", b"-0", b"+1", b"1.0", b"1\r", b"", b"\xc2\xb2",
]  # fmt: skip
PARTS = [b"a", b"web1", b"cpu", b"load-1m", b"", b"", b"\xc3\xbc", b"\xe2\x82\xac", b"\xf0\x9f\x98\x80", b"a=b;c"]
ODD = [b"\xff", b"\xc3", b"\xed\xa0\x80", b"\xc0\xaf", b"\x7f", b"\x1f", b"\x00", b"\x0b", b"\r", b"\xf4\x90\x80\x80"]
BLANKS = [b" ", b" ", b" ", b" ", b"\t", b"  ", b" \t ", b"\t\t"]


def drawn_path(draw):
    path = b".".join(draw.choice(PARTS) for _ in range(draw.choice([1, 1, 2, 3, 4, 5, 66])))
    if draw.random() < 0.1:
        place = draw.randrange(len(path) + 1)
        path = path[:place] + draw.choice(ODD) + path[place:]
    if draw.random() < 0.02:
        path = path.ljust(draw.choice([1023, 1024, 1025, 3000]), draw.choice([b".", b"x"]))
    return path


def drawn_number(draw, chosen):
    if draw.random() < 0.5:
        return draw.choice(chosen)
    return str(draw.randrange(10 ** draw.randrange(1, 21))).encode()


def drawn_line(draw):
    kind = draw.random()
    if kind < 0.04:
        return b"".join(draw.choice([b" ", b"\t", b""]) for _ in range(4))
    if kind < 0.08:
        return bytes(draw.randrange(256) for _ in range(draw.randrange(12))).replace(b"\n", b".")
    words = [drawn_path(draw), drawn_number(draw, NUMBERS), drawn_number(draw, TIMES)]
    if draw.random() < 0.06:
        words.insert(draw.randrange(4), draw.choice([b"x", b"5", b"\r"]))
    if draw.random() < 0.06:
        words.pop(draw.randrange(len(words)))
    line = b""
    for word in words:
        line += (draw.choice(BLANKS) if line or draw.random() < 0.1 else b"") + word
    return line + (draw.choice(BLANKS) if draw.random() < 0.1 else b"")


def drawn_text(draw, count):
    text = b""
    for _ in range(count):
        text += drawn_line(draw) + draw.choice([b"\n", b"\n", b"\n", b"\r\n", b"\r\r\n"])
    return text + draw.choice([b"", drawn_line(draw), drawn_line(draw) + b"\r"])


# ---- rows


def spelled(content):
    """Bytes as rows spell them. A blank is spelled as itself only within a text."""
    shown = ""
    for place, byte in enumerate(content):
        beside = content[place - 1 : place + 2] if place else b""
        plain = 0x21 <= byte < 0x7F and byte not in b"@>"
        blank = byte == 0x20 and len(beside) == 3 and all(0x21 <= other < 0x7F for other in (beside[0], beside[2]))
        shown += chr(byte) if plain or blank else f"@<{byte:02x}>"
    return shown.replace(">@<", " ")


def shown_event(said):
    host, service, time, metric = said
    texts = " ".join("-" if text is None else spelled(text) for text in (host, service))
    return f"{texts} - - {time} None None Some({metric}) None None"


def line_row(line, host_part):
    said = read_line(line, host_part)
    if said is None:
        wanted = "skipped"
    elif isinstance(said, str):
        wanted = f"line refused: {said}"
    else:
        wanted = shown_event(said)
    return f"graphite-line: {host_part} {spelled(line)} => {wanted}"


def text_row(text, host_part):
    frames, refused = converted(text, host_part)
    wanted = spelled(frames) + "".join(f" {number} {why}" for number, why in refused)
    return f"graphite: {host_part} {spelled(text)} => {wanted}"


def print_rows():
    draw = random.Random(40)
    print("# Lines after Graphite's plain text, without a host part (0) or with one, drawn by checks/graphite.py --rows: what a")
    print("# plain program makes of them. An event in one line is as in messages.rows.")
    print()
    for _ in range(160):
        print(line_row(drawn_line(draw), draw.choice([0, 0, 1, 2, 3, 64])))
    print()
    print("# Texts: the frames, and then the refused lines.")
    print()
    print(text_row(b"", 0))
    for _ in range(40):
        print(text_row(drawn_text(draw, draw.randrange(4)), draw.choice([0, 1, 2])))


# ---- the built program


def compare(program, name, text, host_part):
    frames, refused = converted(text, host_part)
    wanted = (
        LINES_REFUSED if refused else 0,
        frames,
        b"".join(b"riemann: line %d refused: %s\n" % (number, why.encode()) for number, why in refused),
    )
    with tempfile.TemporaryDirectory() as folder:
        pathlib.Path(folder, "lines").write_bytes(text)
        words = [program, "graphite", "lines"] + (["--host", str(host_part)] if host_part else [])
        done = subprocess.run(words, cwd=folder, capture_output=True, timeout=60, check=False)
    same = (done.returncode, done.stdout, done.stderr) == wanted
    lines = text.count(b"\n") + 1
    print(f"graphite: {name}, {lines} lines, {len(refused)} refused: {'the same' if same else 'DIFFERS'}")
    return same


def main():
    if sys.argv[1:] == ["--rows"]:
        print_rows()
        return 0
    program = pathlib.Path(sys.argv[1]).resolve()
    draw = random.Random(41)
    held = [
        compare(program, "nothing", b"", 0),
        compare(program, "one line", b"a.b 5 100", 1),
    ]
    for host_part in (0, 1, 2, 3, 64):
        held.append(compare(program, f"host part {host_part}", drawn_text(draw, 20_000), host_part))
    return 0 if all(held) else 1


if __name__ == "__main__":
    sys.exit(main())
