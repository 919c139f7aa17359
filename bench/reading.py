#!/usr/bin/env python3
"""Counts what has to be read to believe a statement: the definitions that it stands on, file by file.

    python3 bench/reading.py                      the table of the README
    python3 bench/reading.py co_top/specs/Headline  one statement, and each of its files

It follows the imports of `specs/` in this repository. Of each file it counts the lines but imports, comments and empty lines; declared Rust types are not counted.
"""
import os
import re
import sys

STATEMENTS = [
    ("the serial run", ["co_serial/specs/SerialRun"]),
    ("what `co_judge` judges by", ["co_check/specs/Serial", "co_check/specs/Shape"]),
    ("the promises, of the definitions", ["co_plain/specs/Promises"]),
    ("the headline of the program", ["co_top/specs/Headline"]),
]
CITED = re.compile(r"^use Rattle\.(co_\w+)\.specs\.([\w.]+)")


def path_of(name):
    """The file of a module of definitions, as `co_top/specs/Headline`."""
    return f"crates/{name}.antt"


def cited(name):
    """The modules of definitions that one imports."""
    with open(path_of(name), encoding="utf-8") as file:
        for line in file:
            found = CITED.match(line)
            if found and not found[2].startswith("declared."):
                module = f"{found[1]}/specs/{found[2].split('.{')[0].replace('.', '/').rstrip('/')}"
                if os.path.exists(path_of(module)):
                    yield module


def reached(names):
    """All modules that these stand on, and they themselves."""
    found, left = [], list(names)
    while left:
        name = left.pop()
        if name not in found:
            found.append(name)
            left += cited(name)
    return sorted(found)


def length(name):
    """The lines of a module that say something."""
    with open(path_of(name), encoding="utf-8") as file:
        return sum(1 for line in file if line.strip() and not line.lstrip().startswith("--") and not line.startswith("use "))


def main():
    if len(sys.argv) > 1:
        for name in reached(sys.argv[1:]):
            print(f"{length(name):6} {path_of(name)}")
        return
    print("| To believe | Files | Lines |\n|---|---|---|")
    for title, names in STATEMENTS:
        files = reached(names)
        print(f"| {title} | {len(files)} | {sum(map(length, files)):,} |")


if __name__ == "__main__":
    main()
