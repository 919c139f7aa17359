#!/usr/bin/env python3
"""Plants faults in a copy of the pages, one at a time, and fails unless `pages.py` finds each.

    python3 bench/pages_planted.py          at the top of the repository

The copy has the pages, the examples and all that they are compared with. First it has to be found without a fault; then each change below is made, is to be
found, and is taken back. A change is a file, a text that stands in it once or more, and what stands there in its place.
"""
import os
import shutil
import sys
import tempfile

sys.path.insert(0, os.path.dirname(os.path.abspath(__file__)))
import pages
from stored import text_of

COPIED = ["README.md", ".ci", "docs", "examples", "bench", "live"]
COPIED_CASES = ["co_conform/data", "co_judge/stdin", "co_judge/stdout", "co_order_rows/data", "co_draw_rows/stdin", "co_draw_rows/stdout"]

CHANGES = [
    ("README.md", "rt try -- why", "rt try -- whi"),
    ("README.md", "not serial 3 9", "not serial 3 8"),
    ("README.md", "serial got 1", "serial got 2"),
    ("README.md", "3 writes a := 1", "3 writes a := 2"),
    ("README.md", "    11 reply held 2", "    11 reply held 3"),
    ("README.md", "order_is_exact", "order_is_exakt"),
    ("README.md", "serial_reads", "serial_reeds"),
    ("README.md", " lines); that a file", "0 lines); that a file"),
    ("README.md", "\n    ..\n", "\n"),
    ("README.md", "| the serial run | 4 |", "| the serial run | 5 |"),
    ("README.md", "a_cycle_of_held_votes.schedule", "a_cycle_of_held_vote.schedule"),
    ("README.md", "    rt ci", "    rt ce"),
    ("docs/TUTORIAL.md", "    cycle 1 m2 2 m1", "    cycle 1 m2 2 m2"),
    ("docs/TUTORIAL.md", "Up to line 14", "Up to line 13"),
    ("docs/TUTORIAL.md", "`m2 bob 50`", "`m2 bob 51`"),
    ("docs/TUTORIAL.md", "rt try -- run ", "rt try -- rum "),
    ("docs/TUTORIAL.md", "mktemp -d", "mktemp -e"),
    ("docs/TUTORIAL.md", "`14 log m2 commit 1`", "`14 log m2 commit 2`"),
    ("docs/TUTORIAL.md", "**held 3**", "**held 2**"),
    ("docs/TUTORIAL.md", "`logs in use: m1.a`", "`logs in use: m1.c`"),
    ("docs/TUTORIAL.md", "| `installed`, `dropped` |", "| `instaled`, `dropped` |"),
    ("docs/TUTORIAL.md", "](pictures/a_transfer.svg)", "](pictures/a_transfar.svg)"),
    ("docs/pictures/a_lost_yes.svg", "waiting m1", "waiting m2"),
    ("docs/HISTORIES.md", "    6 reply rows 1 x 7", "    6 reply rows 1 x 8"),
    ("docs/HISTORIES.md", "    5 event erase 1 m2 y", "    5 event erase 1 m2 z"),
    ("docs/HISTORIES.md", "    7 reply committed\n", ""),
    ("docs/HISTORIES.md", "`m1 x 7`", "`m1 x 8`"),
    ("docs/HISTORIES.md", "rt try -- order", "rt try -- ordar"),
    ("docs/HISTORIES.md", "`told got 0`", "`told got 1`"),
    ("docs/HISTORIES.md", "co_cli run --resume DIR", "co_cli run --resum DIR"),
    ("docs/HISTORIES.md", "`limit: line 12 is long`", "`limit: line 12 is lang`"),
    ("docs/COMMANDS.md", "| `migrate DIR` |", "| `migrete DIR` |"),
    ("docs/COMMANDS.md", "`old log: m1.a`", "`old lag: m1.a`"),
    ("docs/COMMANDS.md", "| 13 | `old log", "| 12 | `old log"),
    ("docs/COMMANDS.md", "| 8 | `logs in use: m1.a` | this file has records, and the run is not resumed |\n", ""),
    ("docs/LIVE.md", " lines of\ncode", "0 lines of\ncode"),
    ("docs/LIVE.md", "    live/often.py", "    live/oftn.py"),
    ("docs/LIVE.md", "live/servers.py stop", "live/servers.py stap"),
    ("docs/PROVED.md", " stored cases of", "0 stored cases of"),
    ("docs/PROVED.md", "`rattle-kit-", "`rattle-kit-0"),
    ("docs/PROVED.md", "bench/faults.py", "bench/fault.py"),
    ("docs/PROVED.md", "`held_is_exact`, ", "`held_is_exakt`, "),
    ("docs/ARCHITECTURE.md", "| `co_world` |", "| `co_wurld` |"),
    ("docs/ARCHITECTURE.md", "| `co_resumed_rows` |", "| `co_order_rows` |"),
    ("docs/ARCHITECTURE.md", "`replay_lines`", "`replay_line`"),
    ("docs/FORMATS.md", "| 44 | `03` `00000001`", "| 44 | `03` `00000002`"),
    ("docs/FORMATS.md", "a5 00000008 03", "a5 00000009 03"),
    ("docs/HISTORIES.md", "| 17 | Nothing", "| 16 | Nothing"),
    ("docs/READING_PROOFS.md", "`crates/co_law_once/", "`crates/co_law_ance/"),
    ("README.md", "`docs/DECISIONS.md`", "`dics/DECISIONS.md`"),
    ("docs/DECISIONS.md", "refusals_come_first", "refusals_come_fist"),
    ("examples/two_servers.transcript", "9 reply got 0", "9 reply got 1"),
    ("examples/postgresql_and_mariadb.transcript", "got 0", "got 1"),
    ("examples/a_history.transcript", "6 reply rows 1 x 7", "6 reply rows 1 x 6"),
    ("examples/a_lost_yes.schedule", "write 1 m1 a 5", "write 1 m1 a 6"),
    ("README.md", "## See it", "## See it\n\n" + "word " * 400 + "."),
]


def copy_to(folder):
    """Lays the pages and what they are compared with into a folder; the sources of the crates, which no change touches, are linked."""
    for name in COPIED:
        (shutil.copytree if os.path.isdir(name) else shutil.copy)(name, f"{folder}/{name}")
    os.mkdir(f"{folder}/crates")
    for crate in os.listdir("crates"):
        os.mkdir(f"{folder}/crates/{crate}")
        for name in os.listdir(f"crates/{crate}"):
            if f"{crate}/{name}" not in COPIED_CASES:
                os.symlink(os.path.abspath(f"crates/{crate}/{name}"), f"{folder}/crates/{crate}/{name}")
    for name in COPIED_CASES:
        (shutil.copytree if os.path.isdir(f"crates/{name}") else shutil.copy)(f"crates/{name}", f"{folder}/crates/{name}")


def found_with(path, old, new):
    """The faults that are found with this change, which is taken back."""
    before = text_of(path)
    if old not in before:
        raise ValueError(f"{path} does not have {old!r}: plant something else")
    with open(path, "w", encoding="utf-8") as file:
        file.write(before.replace(old, new, 1))
    try:
        return list(pages.faults())
    finally:
        with open(path, "w", encoding="utf-8") as file:
            file.write(before)


def main():
    missed = 0
    with tempfile.TemporaryDirectory() as folder:
        copy_to(folder)
        os.chdir(folder)
        unchanged = list(pages.faults())
        for fault in unchanged:
            print("FAIL, with nothing planted:", fault)
        for path, old, new in CHANGES:
            found = [fault for fault in found_with(path, old, new) if fault not in unchanged]
            missed += not found
            print(f"{path}, {old[:40]!r}: {'found: ' + found[0][:110] if found else 'NOT FOUND'}")
    print(f"planted faults: {len(CHANGES)}, {len(CHANGES) - missed} found")
    return 1 if missed or unchanged else 0


if __name__ == "__main__":
    sys.exit(main())
