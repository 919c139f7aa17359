"""How long a run over real files takes, beside a program that makes the same calls on the same files and does nothing else.

    python3 bench/syncs.py PROGRAM LINES DIRECTORY [ROUNDS] [MICROSECONDS]

The schedule has LINES lines: local transactions of one write each at members of the three kinds. Its calls are read off one run under strace (write, fsync and
ftruncate of the log files) and made again by `syncs.c`, in turn with the program, so often. DIRECTORY is on the file system that is to be measured. With MICROSECONDS each sync of both waits so long before it is made
(`slow.c`), as on a disk that is slower than this one.
"""
import os
import re
import shutil
import statistics
import subprocess
import sys
import tempfile
import time

HERE = os.path.dirname(os.path.abspath(__file__))
CALL = re.compile(r"^\d+\s+(openat|pwrite64|fsync|ftruncate|close)\((.*)\)\s*= (-?\d+)")


def schedule(lines):
    """Returns the text of a schedule of so many lines."""
    made = ["members lock occ mv coords 1"]
    for txn in range(1, 65_537):
        member = txn % 3 + 1
        for line in (f"local {txn} m{member}", f"write {txn} m{member} k{txn % 50} v{txn}", f"commit {txn}"):
            if len(made) == lines:
                return "\n".join(made) + "\n"
            made.append(line)
    while len(made) < lines:
        made.append("vote 1 m1")
    return "\n".join(made) + "\n"


def calls_of(trace):
    """Yields the calls on log files and their directory, as `syncs` reads them."""
    files, names = {}, {}
    for line in trace:
        call = CALL.match(line)
        if not call or int(call[3]) < 0:
            continue
        kind, words, result = call[1], call[2], int(call[3])
        if kind == "openat":
            name = words.split('"')[1]
            if re.search(r"[mc]\d+\.[ab]$", name):
                files[result] = names.setdefault(name, len(names))
            else:
                files[result] = None if name.startswith(("/etc/", "/lib", "/usr/")) else "d"
            continue
        at = int(words.split(",")[0])
        if kind == "close":
            files.pop(at, None)
        elif files.get(at) is None:
            continue
        elif kind == "fsync":
            yield f"sync {files[at]}"
        elif kind == "ftruncate":
            yield f"cut {files[at]} {words.split(',')[1].strip()}"
        else:
            count, place = words.rsplit(",", 2)[1:]
            yield f"write {files[at]} {place.strip()} {count.strip()}"


def main():
    program, lines, parent = os.path.abspath(sys.argv[1]), int(sys.argv[2]), sys.argv[3]
    rounds = int(sys.argv[4]) if len(sys.argv) > 4 else 3
    work = tempfile.mkdtemp(dir=parent)
    try:
        text, trace, calls, alone = (os.path.join(work, name) for name in ("schedule", "trace", "calls", "syncs"))
        with open(text, "w", encoding="ascii") as out:
            out.write(schedule(lines))
        subprocess.run(["gcc", "-O2", "-o", alone, f"{HERE}/syncs.c"], check=True)
        slow = os.path.join(work, "slow.so")
        subprocess.run(["gcc", "-O2", "-shared", "-fPIC", "-o", slow, f"{HERE}/slow.c", "-ldl"], check=True)
        slower = {**os.environ, "LD_PRELOAD": slow, "SYNC_MICROSECONDS": sys.argv[5]} if len(sys.argv) > 5 else None

        def replay(number, *before):
            with open(text, "rb") as source:
                started = time.monotonic()
                subprocess.run([*before, program, "run", os.path.join(work, f"logs{number}")], stdin=source, stdout=subprocess.DEVNULL, check=True, env=None if before else slower)
                return time.monotonic() - started

        replay(0, "strace", "-f", "-o", trace, "-e", "trace=openat,pwrite64,fsync,ftruncate,close")
        with open(trace, encoding="latin-1") as told, open(calls, "w", encoding="ascii") as out:
            listed = list(calls_of(told))
            out.write("\n".join(listed) + "\n")
        ours, theirs = [], []
        for number in range(1, rounds + 1):
            ours.append(replay(number))
            place = os.path.join(work, f"alone{number}")
            os.mkdir(place)
            started = time.monotonic()
            subprocess.run([alone, calls, place], stdout=subprocess.DEVNULL, check=True, env=slower)
            theirs.append(time.monotonic() - started)
        syncs = sum(call.startswith("sync") for call in listed)
        print(f"{lines} lines, {len(listed)} calls, {syncs} of them syncs")
        print("the run: " + ", ".join(f"{it:.2f}" for it in ours) + " s; the calls alone: " + ", ".join(f"{it:.2f}" for it in theirs) + " s")
        print(f"ratio of the medians: {statistics.median(ours) / statistics.median(theirs):.3f}")
    finally:
        shutil.rmtree(work)


if __name__ == "__main__":
    main()
