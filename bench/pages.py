#!/usr/bin/env python3
"""Compares the pages with what stands in the repository. It fails where a page says something else.

    python3 bench/pages.py          at the top of the repository

- Each schedule of `examples/` that the tutorial explains is the input of a stored case, and each row of its table is what that case comes to. So are the
  records, the waits and the lines of `resolve` that it tells, and each answer of its legend (`tutorial.py`).
- The picture of each such schedule, in `docs/pictures/`, is what the stored run of `co_draw_rows` says is drawn of the transcript of that case.
- The items that a page prints together stand so, without a gap, in one stored case or transcript; a line `..` stands for those that are left out.
- The verdicts and runs that are printed, and the worked files of the formats, are stored ones (`printed.py`).
- Each transcript of `examples/` is a stored input, or is serial.
- Each command has words that its program knows, and its scripts and files exist. The words, exit codes and notes of the tables are those of the programs.
- Each word in backticks, as `serial_reads`, stands in the code, the definitions, the proofs or the scripts.
- Each file that a page names exists, each crate has a row in the map, and each one with code has wrong bodies.
- Pages that have a budget are within it, and the sentences of no page have more than 20 words in the mean.
- The README and `PROVED.md` name one toolchain. The numbers of lines, files and cases that pages say are those that are counted here and by `reading.py`.

`pages_planted.py` changes one byte after the other, and sees that each is found.
"""
import functools
import glob
import os
import re
import sys

sys.path.insert(0, os.path.dirname(os.path.abspath(__file__)))
import reading
import printed
import stored
import tutorial
from stored import text_of

PAGES = ["README.md", *sorted(glob.glob("docs/*.md"))]
MOST_BYTES = {"README.md": 6144, "docs/LIVE.md": 6144, "docs/PROVED.md": 12288, "docs/DECISIONS.md": 20480}
MOST_WORDS = 20
FILE = re.compile(r"[\w.-]+/[\w./-]*")
SPAN = re.compile(r"`([^`\n]+)`|^```(.*?)^```", re.MULTILINE | re.DOTALL)
NAME = re.compile(r"[A-Za-z_]\w*")
# names of others (XA, a mount option, a tool), a place to fill in, what a reader of the tutorial might write, how names begin, and a byte
OUTSIDE = {"xa_start", "xa_end", "xa_prepare", "xa_commit", "xa_rollback", "xa_recover", "xa_forget", "XA_OK", "XA_RB", "local_lock", "grep",
           "NameAs", "comment", "Alice", "Smith", "Alice_Smith", "Is", "is_", "a5"}


def sentences_of(page):
    """The sentences of a page, each as its words: no headings, tables, lists of lines or pictures."""
    text = re.sub(r"^```.*?^```", "", text_of(page), flags=re.MULTILINE | re.DOTALL)
    prose = "\n".join(line for line in text.splitlines() if not re.match(r"\s*(#|\||    |!\[)", line))
    for part in re.split(r"\n\s*\n|\n\s*(?:- |\d+\. )", prose):
        for sentence in re.split(r"(?<=[.!?])\W*\s", part):
            words = sentence.split()
            if words:
                yield words


def of_sentences(page):
    """Whether the sentences of a page are too long."""
    lengths = [len(words) for words in sentences_of(page)]
    if sum(lengths) > MOST_WORDS * len(lengths):
        yield f"{page}: its sentences have {sum(lengths) / len(lengths):.1f} words in the mean"


def words_of(page):
    """The words in backticks."""
    for span, _ in SPAN.findall(text_of(page)):
        yield from span.split()


def of_files(page):
    """The files that a page names and that do not exist."""
    for name in filter(FILE.fullmatch, words_of(page)):
        if re.search(r"[A-Z]{4,}/|NAME|/out/", name):  # a place to fill in; a program that is built
            continue
        if not glob.glob(name) and not glob.glob(f"crates/{name}*") and not glob.glob(f"crates/*/{name}*"):
            yield f"{page}: {name} does not exist"


def is_joined(word):
    return "_" in word.strip("_") and not word.endswith("_")


def names_of(page):
    """The names of a page: in backticks each that has small letters or is joined by `_`, and those that are joined in a drawing."""
    for _, drawing in SPAN.findall(text_of(page)):
        yield from filter(is_joined, NAME.findall(drawing))
    for word in words_of(page):
        if "/" not in word:
            yield from (name for name in NAME.findall(word) if is_joined(name) or len(name) > 1 and re.search("[a-z]", name))


def of_identifiers(page):
    """The names that stand nowhere."""
    for name in names_of(page):
        if name not in stored.names() and name not in OUTSIDE:
            yield f"{page}: nothing has the name {name}"


def of_examples():
    """Each transcript of `examples/` is a stored input; one that is stored nowhere is serial."""
    for path in sorted(glob.glob("examples/*.transcript")):
        inputs = list(stored.inputs_stored(os.path.basename(path).removesuffix(".transcript")))
        for other in inputs:
            if text_of(other) != text_of(path):
                yield f"{path} is not {other}"
        if not inputs and not stored.serial_verdict(text_of(path)):
            yield f"{path} is not serial"


def of_crates():
    """Each crate has a row in the map."""
    rows = [line.split(" | ")[0] for line in text_of("docs/ARCHITECTURE.md").splitlines() if line.startswith("| `co_")]
    for crate in sorted(map(os.path.basename, glob.glob("crates/co_*"))):
        if not any(f"`{crate}`" in row for row in rows):
            yield f"docs/ARCHITECTURE.md has no row of {crate}"


def of_wrong_bodies():
    """`PROVED.md` says that wrong bodies stand in every crate with code but the programs, the tests and the plain engine."""
    for crate in stored.without_wrong_bodies():
        if crate != "co_plain_engine":
            yield f"docs/PROVED.md: {crate} has no wrong bodies"


@functools.lru_cache(None)
def rows_to_read():
    """The rows of what is to be read, as they are counted."""
    counted = [(title, reading.reached(names)) for title, names in reading.STATEMENTS]
    return [f"| {title} | {len(files)} | {sum(map(reading.length, files)):,} |" for title, files in counted]


def of_reading():
    """The numbers of the README that are not those that are counted."""
    for row in rows_to_read():
        if row not in text_of("README.md"):
            yield f"README.md: {row!r} is what is counted"


def of_counts():
    """The numbers of lines and cases that are not those that are counted."""
    for page, words in stored.counts():
        if words not in text_of(page):
            yield f"{page}: {words!r} is what is counted"


def of_kit():
    """The toolchain that the README and `PROVED.md` name is one."""
    kits = {kit for page in ("README.md", "docs/PROVED.md") for kit in re.findall(r"rattle-kit-\w+", text_of(page))}
    if len(kits) != 1:
        yield f"README.md and docs/PROVED.md name {sorted(kits)}"


def of_budgets():
    for page, most in MOST_BYTES.items():
        if os.path.getsize(page) > most:
            yield f"{page} has {os.path.getsize(page)} bytes, and may have {most}"


def faults():
    """What is wrong with the pages."""
    yield from tutorial.of_tutorial()
    yield from printed.of_printed(PAGES)
    for page in PAGES:
        for check in (of_files, of_identifiers, of_sentences):
            yield from check(page)
    for check in (of_examples, of_crates, of_wrong_bodies, of_reading, of_counts, of_kit, of_budgets):
        yield from check()


def main():
    found = list(faults())
    for fault in found:
        print("FAIL:", fault)
    print(f"{len(PAGES)} pages, {len(found)} faults")
    return 1 if found else 0


if __name__ == "__main__":
    sys.exit(main())
