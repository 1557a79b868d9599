"""Tries edits that the prover has to refuse: edits.py [--look] [--again] [--ci] [--jobs N] [--minutes N] [CRATE..]

An edit is a file edits/CRATE/NAME.edit (docs/EDITS.md). Those of the crates that are named, or of all, are put into a
copy of the repository. They are tried there by `rt must-fail`, which begins with what `rt check` kept of the same text on
this machine. A crate is skipped if its edits were all refused and neither they nor the crate nor one below it changed
since.

--look       only says which edits do not fit the text of their crate any more; it takes a second
--again      skips no crate
--ci         tries them by `rt ci CRATE`, which begins with what `rt ci` proved on this machine, as right after the gate
--jobs N     tries N crates at a time, each in a copy of its own
--minutes N  gives up a crate after N minutes (120)

It prints a line for each edit, and writes the day and the result of each crate into docs/EDITS.md. The status is 1 if
an edit was not refused, and 2 if a name is not that of a crate with edits.
"""

import argparse
import collections
import datetime
import glob
import hashlib
import os
import queue
import re
import shutil
import signal
import subprocess
import sys
import tempfile
import threading

ROOT = os.path.dirname(os.path.dirname(os.path.abspath(__file__)))
PAGE = f"{ROOT}/docs/EDITS.md"
HEAD = "| Crate | Edits | Last tried | Result | Text |"
REFUSED = "refused"
BY_A_NAME = "refused by a name alone"
BY_A_LIMIT = "refused by a limit of the prover alone"
NOT_REFUSED = "NOT REFUSED"
BAD = "BAD EDIT"
NOT_TRIED = "not tried"
# What `rt must-fail` says of an edit, the first that it contains.
SAID = {
    "only because a proof file names what the edit took away": BY_A_NAME,
    "only by a limit": BY_A_LIMIT,
    "NOT REFUSED": NOT_REFUSED,
    "BAD EDIT": BAD,
    "NOT TRIED": NOT_TRIED,
    "refused, as it must be": REFUSED,
}


def read_needs():
    """Returns each crate of the repository, lowest first, with those of the repository that it uses."""
    with open(f"{ROOT}/crates.txt", encoding="utf-8") as file:
        lines = [line.partition("#")[0].partition(":") for line in file]
    needs = {words.split()[0]: below.split() for words, colon, below in lines if colon}
    return {crate: [it for it in below if it in needs] for crate, below in needs.items()}


def needed_by(crate, needs):
    """Returns the crate and all below it."""
    needed = [crate]
    for name in needed:
        needed += [it for it in needs[name] if it not in needed]
    return needed


def edits_of(crate):
    """Returns the names of the crate's edits."""
    return sorted(os.path.basename(it).removesuffix(".edit") for it in glob.glob(f"{ROOT}/edits/{crate}/*.edit"))


def wrong_names(names, needs):
    """Returns a line for each name or folder that cannot be tried."""
    folders = os.listdir(f"{ROOT}/edits")
    lost = [f"edits/{it}: crates.txt has no crate {it}; move its edits" for it in sorted(folders) if it not in needs]
    unknown = [f"{it}: crates.txt has no crate {it}" for it in names if it not in needs and it not in folders]
    without = [f"{it}: it has no edits in edits/{it}" for it in names if it in needs and it not in folders]
    return lost + unknown + without


def misfit(crate, edit):
    """Returns why the edit cannot be applied, or None."""
    texts, path, old = {}, "", ""
    with open(f"{ROOT}/edits/{crate}/{edit}.edit", encoding="utf-8") as lines:
        for line in lines.read().split("\n"):
            if line.startswith("file: "):
                path = f"{ROOT}/crates/{crate}/{line[6:].strip()}"
                if not os.path.isfile(path):
                    return f"there is no file {line[6:].strip()}"
            elif line.startswith("old: "):
                old = line[5:]
            elif line.startswith("new:"):
                if path not in texts:
                    with open(path, encoding="utf-8") as file:
                        texts[path] = file.read()
                if texts[path].count(old) != 1:
                    return f"its text is there {texts[path].count(old)} times, and not once: {old.strip()}"
                texts[path] = texts[path].replace(old, line[4:].removeprefix(" "))
    return None if texts else "it has no 'old:' and 'new:' pair"


def look(crates):
    """Prints which edits do not fit, and returns how many."""
    found = [(crate, edit, why) for crate in crates for edit in edits_of(crate) if (why := misfit(crate, edit))]
    for crate, edit, why in found:
        print(f"{crate}/{edit}: {BAD}: {why}")
    print(f"{sum(len(edits_of(it)) for it in crates)} edits, {len(found)} do not fit")
    return len(found)


def text_of(crate, needs, kit):
    """Returns a short checksum of the crate's edits, and of all that is proved of it and below it."""
    parts = [f"{ROOT}/crates/{it}/{part}" for it in needed_by(crate, needs) for part in ("src", "specs", "proofs")]
    files = sorted(it for part in [f"{ROOT}/edits/{crate}", *parts] for it in glob.glob(f"{part}/**", recursive=True))
    total = hashlib.sha256(kit.encode())
    for file in filter(os.path.isfile, files):
        with open(file, "rb") as text:
            total.update(f"\n{os.path.relpath(file, ROOT)}\n".encode() + text.read())
    return total.hexdigest()[:12]


def read_rows():
    """Returns the cells of each row of the page's table, by the crate."""
    with open(PAGE, encoding="utf-8") as page:
        table = page.read().partition(f"{HEAD}\n")[2].partition("\n\n")[0]
    rows = [[cell.strip() for cell in line.strip("|\n").split("|")] for line in table.split("\n")[1:]]
    return {row[0].strip("`"): row for row in rows if len(row) == 5}


def write_rows(rows, needs):
    """Writes the rows of the crates that have edits, lowest crate first, into the page's table."""
    with open(PAGE, encoding="utf-8") as page:
        before, head, rest = page.read().partition(f"{HEAD}\n")
    if not head:
        sys.exit(f"edits.py: docs/EDITS.md has no line '{HEAD}'")
    crates = [it for it in needs if edits_of(it)]
    lines = [rows.get(it) or [f"`{it}`", str(len(edits_of(it))), "", "", ""] for it in crates]
    table = "".join(f"| {' | '.join(it)} |\n" for it in lines)
    with open(f"{PAGE}.new", "w", encoding="utf-8") as page:
        page.write(f"{before}{head}|---|---|---|---|---|\n{table}\n{rest.partition(chr(10) * 2)[2]}")
    os.replace(f"{PAGE}.new", PAGE)


def link_or_copy(file, to):
    try:
        os.link(file, to)
    except OSError:
        shutil.copy2(file, to)


def make_copy(copy, needs):
    """Copies the crates without the edits of the gate, and with the libraries that are built here."""
    os.makedirs(copy)
    for file in ("crates.txt", "HANDLES"):
        shutil.copy(f"{ROOT}/{file}", copy)
    for crate in needs:
        leave = shutil.ignore_patterns("out", "must-fail")
        shutil.copytree(f"{ROOT}/crates/{crate}", f"{copy}/crates/{crate}", ignore=leave)
        built = f"{ROOT}/crates/{crate}/out/rlib"
        if os.path.isdir(built):
            shutil.copytree(built, f"{copy}/crates/{crate}/out/rlib", copy_function=link_or_copy)


def try_crate(crate, copy, verb, seconds):
    """Returns what each edit of the crate came to, by its name, and all that was said."""
    folder = f"{copy}/crates/{crate}"
    shutil.copytree(f"{ROOT}/edits/{crate}", f"{folder}/must-fail")
    how = {"stdout": subprocess.PIPE, "stderr": subprocess.STDOUT, "text": True, "start_new_session": True}
    run = subprocess.Popen(["rt", verb, crate], cwd=copy, **how)
    RUNNING.add(run.pid)
    try:
        said = run.communicate(timeout=seconds)[0]
    except subprocess.TimeoutExpired:
        os.killpg(run.pid, signal.SIGKILL)
        said = f"{run.communicate()[0]}given up after {seconds // 60} minutes\n"
    RUNNING.discard(run.pid)
    shutil.rmtree(f"{folder}/must-fail")
    shutil.rmtree(f"{folder}/out/incremental", ignore_errors=True)
    results = dict.fromkeys(edits_of(crate), NOT_TRIED)
    for line in said.split("\n"):
        if found := re.match(rf"rt: must-fail {crate}/(\S+)\.edit: ", line):
            results[found[1]] = next((result for words, result in SAID.items() if words in line), NOT_TRIED)
    return results, said


# The groups of processes that were started and have not ended.
RUNNING = set()


def stop(*_):
    for group in list(RUNNING):
        os.killpg(group, signal.SIGKILL)
    sys.exit(1)


def count_of(results):
    """Returns how many edits came to what, as text."""
    counts = collections.Counter(results)
    return ", ".join(f"{counts[it]} {it}" for it in [REFUSED, *SAID.values()][:-1] if counts[it]) or "none"


def is_well(result):
    return result.startswith(REFUSED)


class Trial:
    """The crates that are to be tried, each by one of several threads, and the results."""

    def __init__(self, crates, needs, rows, texts, choice):
        self.needs, self.rows, self.texts = needs, rows, texts
        self.verb, self.seconds = "ci" if choice.ci else "must-fail", choice.minutes * 60
        self.waiting, self.alone, self.results = queue.SimpleQueue(), threading.Lock(), []
        for crate in crates:
            self.waiting.put(crate)

    def work(self, copy):
        """Tries crates until none waits."""
        while not self.waiting.empty():
            try:
                crate = self.waiting.get_nowait()
            except queue.Empty:
                return
            results, said = try_crate(crate, copy, self.verb, self.seconds)
            with self.alone:
                self.told(crate, results, said)

    def told(self, crate, results, said):
        for edit, result in results.items():
            print(f"{crate}/{edit}: {result}", flush=True)
        if not all(map(is_well, results.values())):
            print(said, flush=True)
        self.results += results.values()
        others = ", ".join(f"`{edit}`" for edit, result in results.items() if result != REFUSED)
        result = count_of(results.values()) + (f": {others}" if others else "")
        day = datetime.date.today().isoformat()
        self.rows[crate] = [f"`{crate}`", str(len(results)), day, result, self.texts[crate]]
        write_rows(self.rows, self.needs)


def try_all(crates, needs, choice):
    """Tries the crates, and returns whether each edit was refused."""
    kit = subprocess.run(["rt", "version"], capture_output=True, text=True, check=True).stdout
    rows, texts = read_rows(), {it: text_of(it, needs, kit) for it in crates}
    done = [it for it in crates if not choice.again and it in rows and rows[it][4] == texts[it] and is_done(rows[it])]
    for crate in done:
        print(f"{crate}: {rows[crate][1]} refused on {rows[crate][2]}, and nothing changed since")
    trial = Trial([it for it in crates if it not in done], needs, rows, texts, choice)
    with tempfile.TemporaryDirectory(prefix="riemann-edits-", ignore_cleanup_errors=True) as room:
        threads = []
        for number in range(choice.jobs):
            make_copy(f"{room}/{number}", needs)
            threads.append(threading.Thread(target=trial.work, args=(f"{room}/{number}",), daemon=True))
            threads[-1].start()
        for thread in threads:
            thread.join()
    print(f"{len(trial.results)} edits: {count_of(trial.results)}")
    return all(map(is_well, trial.results))


def is_done(row):
    return bool(row[2]) and not any(it in row[3] for it in (NOT_REFUSED, BAD, NOT_TRIED))


def main(words):
    parser = argparse.ArgumentParser(usage=__doc__)
    parser.add_argument("--look", action="store_true")
    parser.add_argument("--again", action="store_true")
    parser.add_argument("--ci", action="store_true")
    parser.add_argument("--jobs", type=int, default=1)
    parser.add_argument("--minutes", type=int, default=120)
    parser.add_argument("crates", nargs="*")
    choice = parser.parse_args(words)
    needs = read_needs()
    wrong = wrong_names(choice.crates, needs)
    if wrong:
        print(*(f"edits.py: {it}" for it in wrong), sep="\n", file=sys.stderr)
        return 2
    crates = [it for it in needs if edits_of(it) and (not choice.crates or it in choice.crates)]
    if choice.look:
        return 1 if look(crates) else 0
    signal.signal(signal.SIGTERM, stop)
    signal.signal(signal.SIGINT, stop)
    return 0 if try_all(crates, needs, choice) else 1


if __name__ == "__main__":
    sys.exit(main(sys.argv[1:]))
