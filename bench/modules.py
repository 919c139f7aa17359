"""Checks a crate from nothing and tells what each of its modules took: `python3 bench/modules.py CRATE [SECONDS]`, at the top.

antt writes a file for each module once it has checked it, so the time between two files is what the second one took. Modules of a function
are its code (`Lts`, what the borrow checker proves of it), its goals (`Answers`, `Proof`) and others. Those that took at least so many
seconds (2 where none are given) are told, and what each function took in all. The libraries below have to be built: `rt check` in the
crate's folder builds them.
"""

import collections
import os
import re
import subprocess
import sys
import tempfile
import time


def kit():
    """The folder of the kit, in which the page to read first stands."""
    told = subprocess.run(["rt", "doc"], capture_output=True, text=True, check=True)
    return os.path.dirname(told.stdout.split()[0])


def lists():
    """What each crate lists in crates.txt."""
    with open("crates.txt") as it:
        lines = [line.partition(":") for line in it if ":" in line and not line.startswith("#")]
    return {name: words.split() for name, _, words in lines}


def below(crate, lists, seen):
    """The repository's crates that a crate stands on."""
    for name in lists[crate]:
        if name in lists and name not in seen:
            seen.append(name)
            below(name, lists, seen)
    return seen


def command(crate, kept):
    """The check of a crate from nothing, which keeps its work in a folder."""
    place, known = kit(), lists()
    root = "src/main.rt" if os.path.isfile(f"crates/{crate}/src/main.rt") else "src/lib.rt"
    words = [f"{place}/bin/rattle", "check", "--crate-name", crate, root, "-L", f"dependency={place}/rlibs"]
    for name in ["std", *known[crate]]:
        at = os.path.abspath(f"crates/{name}/out/rlib") if name in known else f"{place}/rlibs"
        words += ["--extern", f"{name}={at}/{name}.rlib"]
    for name in below(crate, known, []):
        words += ["-L", f"dependency={os.path.abspath(f'crates/{name}/out/rlib')}"]
    words += ["--antt-project", f"{place}/rattle/logic/antt-project.json", "--logic-built", f"{place}/logic_built"]
    return [*words, "--jobs", "1", "--incremental", kept]


def modules(crate, kept):
    """The modules in the order in which they were checked, each with its seconds."""
    files = [(os.stat(f"{at}/{name}").st_mtime, name) for at, _, names in os.walk(kept) for name in names]
    files.sort()
    for (before, _), (after, name) in zip(files, files[1:]):
        yield after - before, re.sub(r"(\.decls)?\.oantt$", "", name).replace(f"Rattle-{crate}-", "")


def main(crate, least=2.0):
    with tempfile.TemporaryDirectory(prefix="modules-") as kept:
        begun = time.monotonic()
        ran = subprocess.run(command(crate, kept), cwd=f"crates/{crate}", capture_output=True, text=True)
        took, found = time.monotonic() - begun, list(modules(crate, kept))
    print((ran.stdout.splitlines() or [ran.stderr.strip()])[-1])
    functions = collections.Counter()
    for seconds, name in found:
        functions[name.removeprefix("proofs.").rpartition(".")[0] or "its root"] += seconds
        if seconds >= least:
            print(f"{seconds:7.1f} s  {name}")
    print("\nin all:")
    for name, seconds in functions.most_common(20):
        print(f"{seconds:7.1f} s  {name}")
    print(f"{took:7.1f} s  the check")
    return ran.returncode


if __name__ == "__main__":
    sys.exit(main(sys.argv[1], *map(float, sys.argv[2:3])))
