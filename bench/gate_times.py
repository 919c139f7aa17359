"""Runs `rt ci` from nothing and reads from /proc what each of its processes took.

The whole is exact: it is what the system charges the gate with at its end. What a crate took is the sum
of its processes as they were last seen, at most a quarter of a second before they ended.
"""

import collections
import os
import re
import subprocess
import sys
import time

TICKS = os.sysconf("SC_CLK_TCK")
EVERY = 0.25
PHASES = ("proof", "building", "tests", "wrong bodies")


def command():
    """The gate from nothing: a kit that keeps what has passed has a word for it."""
    told = subprocess.run(["rt", "--help"], capture_output=True, text=True)
    return ["rt", "ci"] + ["--anew"] * ("--anew" in told.stdout + told.stderr)


def processes():
    """Each process by its number: its parent, its start, and the processor time of it and its ended children."""
    found = {}
    for name in os.listdir("/proc"):
        if name.isdigit():
            try:
                with open(f"/proc/{name}/stat") as it:
                    fields = it.read().rpartition(")")[2].split()
            except OSError:
                continue
            found[int(name)] = int(fields[1]), fields[19], sum(map(int, fields[11:15])) / TICKS
    return found


def what(number):
    """The crate and the phase that a process works for, if it is one of a crate: a library is built as it is proved, a program behind its proof."""
    try:
        with open(f"/proc/{number}/cmdline", "rb") as it:
            words = it.read().decode(errors="replace").split("\0")
        place = os.readlink(f"/proc/{number}/cwd")
    except OSError:
        return None
    if "--crate-name" not in words or "-ISc" in words:
        return None
    crate = words[words.index("--crate-name") + 1]
    if re.search(r"/rt-edit-[^/]*$", place):
        return crate, "wrong bodies"
    if "--test" in words:
        return crate, "tests"
    return crate, "building" if words[1] == "build" and "src/main.rt" in words else "proof"


def of_tree(root, known, children):
    """The processor time of a process and of all that it started."""
    return known[root][2] + sum(of_tree(it, known, children) for it in children[root])


class Jobs:
    """What was seen of each process that works for a crate: crate, phase, first and last moment, processor time."""

    def __init__(self):
        self.seen = {}

    def look(self, gate):
        known, children = processes(), collections.defaultdict(list)
        for number, (parent, _, _) in known.items():
            children[parent].append(number)
        now, todo = time.monotonic(), list(children[gate])
        while todo:
            number = todo.pop()
            key = number, known[number][1]
            job = self.seen.get(key)
            if job is None:
                kind = what(number)
                if kind is None:
                    todo += children[number]
                    continue
                job = self.seen[key] = [*kind, now, now, 0.0]
            job[3], job[4] = now, max(job[4], of_tree(number, known, children))


def main(log):
    jobs, begun = Jobs(), time.monotonic()
    with open(log, "w") as out:
        gate = subprocess.Popen(command(), stdout=out, stderr=subprocess.STDOUT, stdin=subprocess.DEVNULL)
        while True:
            number, status, used = os.wait4(gate.pid, os.WNOHANG)
            if number:
                break
            jobs.look(gate.pid)
            time.sleep(EVERY)
    wall, cpu = time.monotonic() - begun, used.ru_utime + used.ru_stime
    tell(jobs.seen.values(), log)
    with open(log) as it:
        last = (it.read().splitlines() or [""])[-1]
    print(f"\nwhole gate: {wall / 60:.1f} minutes, {cpu / 60:.1f} processor minutes on {len(os.sched_getaffinity(0))} processors")
    print(f"last line: {last}")
    return os.waitstatus_to_exitcode(status)


def tell(jobs, log):
    """Prints the table, and each process into a file beside the gate's output."""
    table = collections.defaultdict(lambda: {it: [0, 0.0, 0.0] for it in PHASES})
    with open(f"{log}.jobs", "w") as out:
        for crate, phase, first, last, cpu in sorted(jobs, key=lambda it: it[2]):
            cell = table[crate][phase]
            table[crate][phase] = [cell[0] + 1, cell[1] + last - first, cell[2] + cpu]
            print(f"{crate}\t{phase}\t{last - first:.1f}\t{cpu:.1f}", file=out)
    print("| Crate | proof: wall-clock, processor s | building | tests | checks for wrong bodies | all: processor s |\n|---|---|---|---|---|---|")
    all_of = lambda cells: sum(cpu for _, _, cpu in cells.values())
    for crate, cells in sorted(table.items(), key=lambda it: -all_of(it[1])):
        shown = [f"{wall:.0f}, {cpu:.0f}" if count else "" for count, wall, cpu in (cells[it] for it in PHASES)]
        shown[-1] = f"{cells[PHASES[-1]][0]}: {shown[-1]}" if shown[-1] else ""
        print(f"| `{crate}` | {' | '.join(shown)} | {all_of(cells):.0f} |")
    for phase in PHASES:
        print(f"{phase}: {sum(cells[phase][2] for cells in table.values()) / 60:.1f} processor minutes")


if __name__ == "__main__":
    sys.exit(main(sys.argv[1]))
