"""Proves and builds a program of this repository: build.py PROGRAM_CRATE

Nothing is done if the built program is newer than its sources. Else `rt ci` runs over a copy of the crates that the program
needs, without their edits and without the crates of tests. So what the gate proved is not proved again, and what is proved
here counts for the gate. The built program is then put where `rt run` would leave it.
"""

import os
import pathlib
import re
import shutil
import subprocess
import sys
import tempfile
import time

ROOT = pathlib.Path(__file__).resolve().parent.parent
PROVED = re.compile(r"rt: (\w+) (is kept: .*|proved)\n")


def needed_by(program):
    """Returns the program's crate and those of the repository that it needs, each with its line of crates.txt."""
    lines = re.findall(r"^((\w+).*?:(.*))$", (ROOT / "crates.txt").read_text(), re.MULTILINE)
    uses = {name: (line, below.split()) for line, name, below in lines}
    needed = [program]
    for name in needed:
        needed += [it for it in uses[name][1] if it in uses and it not in needed]
    return {name: uses[name][0] for name in needed}


def is_new(built, needed):
    """Returns whether the program is there and no source is newer."""
    parts = [ROOT / "crates" / name / part for name in needed for part in ("src", "specs", "proofs")]
    sources = [ROOT / "crates.txt", ROOT / "HANDLES", *filter(pathlib.Path.exists, parts)]
    newer = ["find", *sources, "-newer", built, "-print", "-quit"]
    return built.exists() and not subprocess.run(newer, stdout=subprocess.PIPE, check=True).stdout


def copy_to(room, needed):
    """Copies the crates, without their edits and what was built of them."""
    shutil.copy(ROOT / "HANDLES", room)
    (room / "crates.txt").write_text("".join(f"{line}\n" for line in needed.values()))
    for name in needed:
        leave = shutil.ignore_patterns("out", "must-fail")
        shutil.copytree(ROOT / "crates" / name, room / "crates" / name, ignore=leave)


def prove(room, needed):
    """Runs `rt ci` there, says which crates are left, and returns whether all were proved."""
    left, said = len(needed), []
    print(f"riemann: proving {left} crates, which takes minutes, once", file=sys.stderr, flush=True)
    with subprocess.Popen(["rt", "ci"], cwd=room, stdout=subprocess.PIPE, stderr=subprocess.STDOUT, text=True) as run:
        for line in run.stdout:
            said.append(line)
            if found := PROVED.match(line):
                left -= 1
                print(f"riemann: {found[1]} is proved, {left} are left", file=sys.stderr, flush=True)
    if run.returncode:
        print("".join(said), "riemann: not proved", sep="", file=sys.stderr)
    return run.returncode == 0


def main(program):
    needed, built = needed_by(program), ROOT / "crates" / program / "out" / program
    if is_new(built, needed):
        return 0
    if not shutil.which("rt"):
        print("riemann: the command rt of the Rattle toolchain is not on the path", file=sys.stderr)
        return 1
    begun = time.time()
    with tempfile.TemporaryDirectory(prefix="riemann-build-") as room:
        room = pathlib.Path(room)
        copy_to(room, needed)
        if not prove(room, needed):
            return 1
        built.parent.mkdir(exist_ok=True)
        shutil.copy(room / "crates" / program / "out" / program, f"{built}.new")
    # A source that was changed meanwhile is newer.
    os.utime(f"{built}.new", (begun, begun))
    os.replace(f"{built}.new", built)
    return 0


if __name__ == "__main__":
    try:
        sys.exit(main(sys.argv[1]))
    except KeyboardInterrupt:
        sys.exit(130)
