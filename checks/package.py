#!/usr/bin/env python3
"""package.py PROGRAM: builds the package for Debian of the program in a folder, and tries it.

It looks at what is in the package, has `lintian` look at it, and installs, removes and purges it in a folder made by
`debootstrap`, which takes one to four minutes and needs the network. It runs the program with the files that
packaging/Containerfile names, and no other. It says what it skips: what needs root, or a tool that is not installed. It
prints a line for each check, and ends with status 1 if one failed.
"""

import configparser
import os
import pathlib
import platform
import re
import shutil
import subprocess
import sys
import time

from server import Failed, Skipped, need, run_all

ROOT = pathlib.Path(__file__).resolve().parent.parent
PACKAGE = "riemann-server"
LIB = "usr/lib/riemann"
PATIENCE = 600.0
# A command has mounts of its own, so that none is left.
MOUNTS = ("unshare", "--mount", "--propagation", "private")
PATH = "/usr/sbin:/usr/bin:/sbin:/bin"
PORT = 15597
MOMENT = "1796201861"
CONFIG = f'(tcp-server {{:host "127.0.0.1" :port {PORT}}}) (streams index)'


def expect(seen, wanted, what):
    if seen != wanted:
        raise Failed(f"{what}: {seen!r} for {wanted!r}")


def need_chroot():
    need("chroot", "unshare")
    if os.geteuid() != 0:
        raise Skipped("not root")
    if subprocess.run([*MOUNTS, "true"], capture_output=True, check=False).returncode:
        raise Skipped("no mounts may be made")


def run(*words, status=0, **more):
    """What a command writes, if it ends with this status."""
    ran = subprocess.run(words, capture_output=True, text=True, timeout=PATIENCE, check=False, **more)
    if ran.returncode != status:
        raise Failed(f"{' '.join(map(str, words))}: status {ran.returncode}: {(ran.stdout + ran.stderr).strip()[-500:]}")
    return ran.stdout + ran.stderr


def build(checks, name):
    """The package, built in a folder of this name if it is not there."""
    need("dpkg-deb", "dpkg")
    folder = checks.folder / name
    if not folder.exists():
        folder.mkdir()
        run(ROOT / "packaging/deb.sh", folder, env={**os.environ, "PROGRAM": str(checks.program), "SOURCE_DATE_EPOCH": MOMENT})
    [package] = folder.iterdir()
    return package


def unpacked(checks):
    folder = checks.folder / "unpacked"
    if not folder.exists():
        run("dpkg-deb", "--raw-extract", build(checks, "first"), folder)
    return folder


# ---- checks


def is_the_same_again(checks):
    expect(build(checks, "first").read_bytes() == build(checks, "second").read_bytes(), True, "two packages of one text are the same")


def has_the_fields(checks):
    version = run(checks.program, "--version").split()[1]
    package = build(checks, "first")
    said = run("dpkg-deb", "--show", "--showformat=${Package} ${Version} ${Architecture}", package)
    expect(said, f"{PACKAGE} {version} {run('dpkg', '--print-architecture').strip()}", "the name, the version and the architecture")
    expect(package.name, "_".join(said.split()) + ".deb", "the name of the file")
    expect(run("dpkg-deb", "--field", package, "Maintainer").strip(), "Riemann server <riemann@example.org>", "the maintainer")
    copyright_file = unpacked(checks) / f"usr/share/doc/{PACKAGE}/copyright"
    expect("SPDX-License-Identifier: Apache-2.0\n" in copyright_file.read_text(), True, "the license")


def has_what_is_installed(checks):
    """All files of install.sh are there with their text, and only pages and records beside them."""
    root, installed = unpacked(checks), checks.folder / "installed"
    run(ROOT / "packaging/install.sh", "/usr", env={**os.environ, "PROGRAM": str(checks.program), "DESTDIR": str(installed)})
    wanted = {}
    for path in filter(pathlib.Path.is_file, installed.rglob("*")):
        name = re.sub(r"^usr/lib/systemd", "lib/systemd", str(path.relative_to(installed)))
        wanted[name] = (path.stat().st_mode, path.read_bytes().replace(b"#!/usr/bin/env python3", b"#!/usr/bin/python3"))
    page = "usr/share/man/man1/riemann.1"
    expect(run("gzip", "-dc", root / f"{page}.gz").encode(), wanted.pop(page)[1], "the page")
    files = {str(it.relative_to(root)): it for it in root.rglob("*") if it.is_file() and "DEBIAN" not in it.parts}
    for name, (mode, text) in wanted.items():
        expect((oct(files[name].stat().st_mode), files[name].read_bytes() == text), (oct(mode), True), name)
    tools = ("journal", "doctor", "dump", "event", "probe", "reload")
    more = [f"{page}.gz", *(f"usr/share/man/man1/riemann-{it}.1.gz" for it in tools), f"usr/share/lintian/overrides/{PACKAGE}"]
    more += [f"usr/share/doc/{PACKAGE}/{name}" for name in ("changelog.gz", "copyright")]
    expect(sorted(files), sorted([*wanted, *more]), "the files")
    expect((root / "DEBIAN/conffiles").read_text(), "/etc/riemann/notices.conf\n/etc/riemann/riemann.config\n", "the settings")


def has_units_that_call_what_is_there(checks):
    root = unpacked(checks)
    for path in (root / "lib/systemd/system").glob("*.service"):
        unit = configparser.ConfigParser(strict=False, interpolation=None)
        unit.read_string(path.read_text())
        names = re.findall(r"(?<!\S)(/(?:usr|etc)\S+)", unit["Service"]["ExecStart"] + " " + unit["Service"].get("EnvironmentFile", ""))
        if not names:
            raise Failed(f"{path.name} calls nothing")
        for name in names:
            kinds = re.findall(r"@(\w+)", (root / "etc/riemann/notices.conf").read_text().splitlines()[0])
            for kind in kinds if "%i" in name else [""]:
                expect((root / name[1:].replace("%i", kind)).is_file(), True, f"{path.name}: {name} {kind}")


def has_no_error(checks):
    need("lintian")
    said = run("lintian", "--allow-root", "--fail-on", "error", build(checks, "first"))
    if said:
        print(f"     lintian: {said.strip()}")


def chroot(folder, *words, **more):
    """A command in a folder."""
    more.setdefault("env", {"PATH": PATH, "DEBIAN_FRONTEND": "noninteractive", "LC_ALL": "C"})
    return run(*MOUNTS, "chroot", folder, *words, **more)


def runs_with_the_files_of_the_image(checks):
    need_chroot()
    text = (ROOT / "packaging/Containerfile").read_text()
    folder = checks.folder / "image"
    for source, target in re.findall(r"^COPY (?:--from=base )?(\S+) (\S+)$", text, re.MULTILINE):
        if source.startswith("/") and not os.path.exists(source):
            raise Skipped(f"no {source}")
        path = folder / target[1:]
        path.parent.mkdir(parents=True, exist_ok=True)
        shutil.copyfile(source if source.startswith("/") else checks.program, path)
        path.chmod(0o755)
    (folder / "etc/riemann").mkdir(parents=True)
    (folder / "etc/riemann/riemann.config").write_text(CONFIG)
    expect(chroot(folder, "/riemann", "--version"), run(checks.program, "--version"), "the version")
    [entry], [command] = (re.findall(rf"^{name} \[(.*)\]$", text, re.MULTILINE) for name in ("ENTRYPOINT", "CMD"))
    [user] = re.findall(r"^USER (\S+)$", text, re.MULTILINE)
    words = [it.strip('" ') for it in f"{entry}, {command}".split(",")]
    server = subprocess.Popen(["chroot", f"--userspec={user}", folder, *words], stderr=subprocess.PIPE)
    checks.processes.append(server)
    deadline = time.monotonic() + 30
    while (asked := subprocess.run([checks.program, "query", f"127.0.0.1:{PORT}", "true"], capture_output=True, check=False)).returncode:
        if time.monotonic() > deadline or server.poll() is not None:
            raise Failed(f"no reply: {asked.stderr}")
        time.sleep(0.05)
    expect(asked.stdout, b"0 ok\n", "the reply")


def is_installed_and_removed(checks):
    need("debootstrap")
    need_chroot()
    folder, package = checks.folder / "debian", build(checks, "first")
    suite = platform.freedesktop_os_release().get("VERSION_CODENAME", "stable")
    words = [*MOUNTS, "debootstrap", "--variant=minbase", "--include=adduser,python3", suite, folder]
    made = subprocess.Popen(words, stdout=subprocess.PIPE, stderr=subprocess.STDOUT, text=True, start_new_session=True)
    checks.processes.append(made)
    try:
        said = made.communicate(timeout=PATIENCE)[0]
    except subprocess.TimeoutExpired as fault:
        raise Skipped(f"debootstrap {suite} took more than {PATIENCE:.0f} seconds") from fault
    if made.returncode:
        raise Skipped(f"debootstrap {suite} failed: {said.strip()[-200:]}")
    shutil.copy(package, folder / "tmp")
    before = {str(it) for it in folder.rglob("*")}
    chroot(folder, "dpkg", "-i", f"/tmp/{package.name}")
    expect(chroot(folder, "riemann", "--version"), run(checks.program, "--version"), "the version")
    expect(chroot(folder, "riemann", "check", "/etc/riemann/riemann.config")[:1], "(", "the configuration")
    user = chroot(folder, "getent", "passwd", "riemann").strip().split(":")
    expect((user[5:], int(user[2]) < 1000), (["/var/lib/riemann", "/usr/sbin/nologin"], True), "the user")
    for name in ("mail", "slack", "pagerduty", "alertmanager"):
        expect(chroot(folder, f"/{LIB}/notices_to_{name}.py", status=78).startswith("not set: "), True, name)
    settings = folder / "etc/riemann/notices.conf"
    settings.write_text(settings.read_text() + "MAIL_FROM=me@example.org\n")
    chroot(folder, "dpkg", "-i", f"/tmp/{package.name}")
    expect("MAIL_FROM=me@" in settings.read_text(), True, "changed settings stay when it is installed again")
    chroot(folder, "dpkg", "-r", PACKAGE)
    left = sorted(str(it.relative_to(folder)) for it in folder.rglob("*") if "riemann" in it.name and "dpkg" not in it.parts and it.name != package.name)
    expect(left, ["etc/riemann", "etc/riemann/riemann.config"], "what is left after it was removed")
    expect(settings.exists(), True, "changed settings stay when it is removed")
    chroot(folder, "dpkg", "-P", PACKAGE)
    more = {str(it) for it in folder.rglob("*")} - before
    kept = [it for it in sorted(more) if not re.search(r"/run/adduser|/var/(lib/dpkg|cache|log)/|/etc/(passwd|group|g?shadow|sub[ug]id)-?$", it)]
    expect(kept, [], "what is left after it was purged")


CHECKS = {
    "the same package again": is_the_same_again,
    "the fields": has_the_fields,
    "the files, as install.sh puts them": has_what_is_installed,
    "units call what is there": has_units_that_call_what_is_there,
    "lintian finds no error": has_no_error,
    "runs with the files of the image": runs_with_the_files_of_the_image,
    "installed, removed and purged in a folder": is_installed_and_removed,
}


if __name__ == "__main__":
    sys.exit(run_all(__doc__, CHECKS, PORT))
