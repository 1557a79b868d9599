#!/usr/bin/env python3
"""pages.py [PROGRAM]: the pages name what is there, and are short. PROGRAM is not run.

- No page, no script and no comment names a file of the repository that is not there.
- No link of a page is dead, and neither is an anchor or a heading that it names of another page.
- The pages in docs/ have at most 32,000 words together, and README.md has at most 1,500.
- No line of a page has more than 120 columns, but for tables and for what is indented, such as what a program wrote.

It prints a line for each, after those that say what is wrong, and ends with status 1 if one is not as it has to be.
"""

import os
import pathlib
import re
import sys

ROOT = pathlib.Path(__file__).resolve().parent.parent
README = ROOT / "README.md"
DOCS = sorted((ROOT / "docs").glob("*.md"))
MOST_WORDS, MOST_WORDS_OF_README, MOST_COLUMNS = 32_000, 1_500, 120

# Folders that are made, and are not of the repository.
MADE = {".git", "out", "__pycache__"}
# A path from the top of the repository, in any text.
PATH = re.compile(r"(?<![\w/.$-])((?:docs|checks|tools|examples|packaging|crates|edits)/[\w./-]*\w)")
# A name in a page without a folder, such as `Limits.antt`, or from the folder of a crate, such as `specs/Limits.antt`.
NAME = re.compile(r"`((?:[\w-]+/)*[\w-]+\.(?:rt|antt|md|py|rows))`")
# What is named in this way is any crate or any file.
ANY = re.compile(r"\b(?:CRATE|NAME)\b")
LINK = re.compile(r"\[[^\]]*\]\(([^)#\s]*)(?:#([^)\s]*))?\)")
HEADING_OF = re.compile(r"`(docs/\w+\.md)`,? \(?\"([^\"]+)\"")
HEADING = re.compile(r"^#+ (.*)$", re.MULTILINE)
# What begins a comment in a file of a crate; the texts of other files there are not looked at.
COMMENTS = {".rt": "//", ".antt": "--", ".rows": "#"}


def files_there():
    """The files of the repository, by their paths from its top."""
    for folder, folders, names in os.walk(ROOT):
        folders[:] = sorted(set(folders) - MADE)
        yield from (str(pathlib.Path(folder, it).relative_to(ROOT)) for it in sorted(names))


def text_that_names(name):
    """The text of a file in which others are named: of a crate its comments alone, and of an edit nothing."""
    path = ROOT / name
    if name.startswith("edits/"):
        return ""
    if not name.startswith("crates/"):
        return path.read_text(encoding="utf-8", errors="replace")
    comment = COMMENTS.get(path.suffix)
    if comment is None:
        return ""
    return "\n".join(it for it in path.read_text(encoding="utf-8").splitlines() if comment in it)


def dead_names(files):
    """The files that are named, and are not there."""
    folders = {str(it) for name in files for it in pathlib.PurePath(name).parents}
    there = files | folders
    ends = {"/".join(pathlib.PurePath(name).parts[at:]) for name in files for at in range(name.count("/") + 1)}
    for name in files:
        text = text_that_names(name)
        said = {it for it in PATH.findall(text) if it not in there and not MADE & set(it.split("/"))}
        if name.endswith(".md"):
            said |= set(NAME.findall(text)) - ends
        for it in sorted(said):
            if not ANY.search(it):
                yield f"{name} names {it}, which is not there"


def anchor(heading):
    """The anchor of a heading, as forges make it."""
    return re.sub(r"[^\w\- ]", "", heading.lower()).replace(" ", "-")


def dead_links():
    """The links, anchors and headings in pages that are not there."""
    headings = {it: HEADING.findall(it.read_text(encoding="utf-8")) for it in [README, *DOCS]}
    for page in headings:
        text = " ".join(page.read_text(encoding="utf-8").split())
        for target, at in LINK.findall(text):
            path = (page.parent / target).resolve() if target else page
            if re.match(r"[a-z]+:", target):
                continue
            if not path.exists():
                yield f"{page.name} has a link to {target}, which is not there"
            elif at and at not in map(anchor, headings.get(path, [])):
                yield f"{page.name} has a link to #{at}, which is no heading of {path.name}"
        for target, heading in HEADING_OF.findall(text):
            if heading not in headings.get(ROOT / target, []):
                yield f'{page.name} names "{heading}", which is no heading of {target}'


def long_lines():
    for page in [README, *DOCS]:
        for number, line in enumerate(page.read_text(encoding="utf-8").splitlines(), 1):
            if len(line) > MOST_COLUMNS and not line.startswith(("|", "    ")):
                yield f"{page.name}:{number} has {len(line)} columns"


def too_many(words, most):
    return [f"{words} words are more than {most}"] if words > most else []


def words(pages):
    return sum(len(it.read_text(encoding="utf-8").split()) for it in pages)


def main():
    in_docs, in_readme = words(DOCS), words([README])
    checks = [
        ("each file that is named is there", list(dead_names(set(files_there())))),
        ("each link and heading is there", list(dead_links())),
        (f"{in_docs} words in {len(DOCS)} pages", too_many(in_docs, MOST_WORDS)),
        (f"{in_readme} words in README.md", too_many(in_readme, MOST_WORDS_OF_README)),
        (f"lines of at most {MOST_COLUMNS} columns", list(long_lines())),
    ]
    for name, wrong in checks:
        for it in wrong:
            print(f"     {it}")
        print(f"{'FAIL' if wrong else 'ok  '} {name}")
    return int(any(wrong for _, wrong in checks))


if __name__ == "__main__":
    sys.exit(main())
