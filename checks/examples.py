#!/usr/bin/env python3
"""examples.py PROGRAM: runs `PROGRAM test` over the configurations in examples/, the packaged one, and a long test.

Each configuration that gives notices has tests, and all have to pass. Then each number of it is made one less and one
more, one change at a time. A test has to fail for it, or the configuration has to be refused. The long test has 100,000
events and 1,000,000 seconds. What it takes is printed, and may be at most 10 seconds of processor time, with each
configuration that it is run with. It prints a line for each, and ends with status 1 if one is not as it has to be.
"""

import pathlib
import re
import resource
import subprocess
import sys
import tempfile

ROOT = pathlib.Path(__file__).resolve().parent.parent
EXAMPLES = ROOT / "examples"

# Tests of a configuration that is not beside them.
ELSEWHERE = {"packaged.tests": ROOT / "packaging/riemann.config"}

PASSED, REFUSED, VERDICT = 0, 2, 12

# What is no number that tests depend on: where the server listens, comments, strings, patterns, and words. A number
# begins where none of these does.
TOKEN = re.compile(r'\(tcp-server[^)]*\)|;[^\n]*|#?"(?:\\.|[^"\\])*"|[A-Za-z_:=<>][^\s,()\[\]{}";]*|(?P<number>-?[0-9]+)', re.DOTALL)

EVENTS = 100_000
SECONDS = 1_000_000
TURNS = 4_000
MOST_SECONDS = 10

LONG = {
    "one stream": '(streams (changed :state {:init nil} (notice "n")))',
    "an index that expires": '(periodically-expire 10) (streams (default :ttl 60 index) (by [:host :service] (changed :state (notice "n"))))',
    "what waits": '(streams (rollup 5 60 (notice "n")) (coalesce 10 (smap folds/count (notice "m"))) (stable 30 :state (notice "s")))',
}


def run_tests(program, config, tests):
    """The status, the output and the error stream of a run over two texts, and the seconds of processor time."""
    before = resource.getrusage(resource.RUSAGE_CHILDREN)
    with tempfile.TemporaryDirectory() as folder:
        pathlib.Path(folder, "config").write_text(config)
        pathlib.Path(folder, "tests").write_text(tests)
        done = subprocess.run([program, "test", "config", "tests"], cwd=folder, capture_output=True, timeout=600, check=False)
    after = resource.getrusage(resource.RUSAGE_CHILDREN)
    seconds = after.ru_utime + after.ru_stime - before.ru_utime - before.ru_stime
    return done.returncode, done.stdout.decode(), done.stderr.decode(), seconds


# ---- examples


def changes_of(config):
    """The configuration with one number made one less or one more, for each number in it, and what was changed."""
    for found in TOKEN.finditer(config):
        if found["number"] is None:
            continue
        for by in (-1, 1):
            number = str(int(found["number"]) + by)
            yield f"{found['number']} to {number}", config[: found.start()] + number + config[found.end() :]


def try_example(program, path):
    config = ELSEWHERE.get(path.name, path.with_suffix(".config")).read_text()
    tests = path.read_text()
    status, out, err, _ = run_tests(program, config, tests)
    lines = out.splitlines()
    if status != PASSED or err or len(lines) != len(re.findall(r"^\(test ", tests, re.MULTILINE)):
        print(f"examples: {path.name}: status {status}\n{out}{err}", end="")
        return False
    unseen, count = [], 0
    for change, other in changes_of(config):
        count += 1
        if run_tests(program, other, tests)[0] not in (REFUSED, VERDICT):
            unseen.append(change)
    print(f"examples: {path.name}: {len(lines)} tests pass, {count - len(unseen)} of {count} changes of a number are found")
    for change in unseen:
        print(f"examples: {path.name}: {change} is not found")
    return not unseen


def all_have_tests():
    configs = [path for path in sorted(EXAMPLES.glob("*.config")) if "(notice " in path.read_text()]
    untested = [path.name for path in configs if not path.with_suffix(".tests").exists()]
    for name in untested:
        print(f"examples: {name} has no tests")
    return not untested


# ---- a long test


def long_test():
    events = "(event {})" * (EVENTS // TURNS)
    tick = f"(tick {SECONDS // TURNS})"
    return f'(test "long"{(events + tick) * TURNS}(expect "n"))'


def try_long(program, name, config, tests):
    status, out, err, seconds = run_tests(program, config, tests)
    held = status in (PASSED, VERDICT) and out.count("\n") == 1 and not err and seconds < MOST_SECONDS
    print(f"examples: {EVENTS} events in {SECONDS} seconds, {name}: {seconds:.2f} seconds of processor time, {out.strip()}{err.strip()}")
    return held


def main():
    program = pathlib.Path(sys.argv[1]).resolve()
    held = [all_have_tests()]
    held += [try_example(program, path) for path in sorted(EXAMPLES.glob("*.tests"))]
    tests = long_test()
    held += [try_long(program, name, config, tests) for name, config in LONG.items()]
    return 0 if all(held) else 1


if __name__ == "__main__":
    sys.exit(main())
