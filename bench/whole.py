"""What the whole program costs: instructions, processor time and peak memory of each command, each row beside its bound.

    python3 bench/whole.py PROGRAM [GROUP ..]

The groups are `trials`, `lines`, `growth`, `check`, `records`, `resume` and `dear`; with none all are done. Instructions are counted by valgrind's callgrind, and are
the same on a busy machine; times are processor seconds of the program and the system; memory is the peak of the process. A row beyond its bound is marked, and the
script then ends with status 1. The dear loads are bound by the time of a trial in the same run. Logs lie in /dev/shm.
"""
import os
import re
import shutil
import subprocess
import sys
import tempfile

import loads

MEGABYTE = 1 << 20
TRIAL = ["trial", "7", "60000"]
LINES = {  # instructions a line, at most
    "local transactions": (loads.local, 14_500),
    "two members, one after another": (loads.two_members, 17_000),
    "two members, sixteen at a time": (loads.sixteen_at_a_time, 17_000),
    "all open": (loads.all_open, 15_000),
}
MOST_OF_SCANS, MOST_OF_CHECK, MOST_OF_TRIAL, MOST_GROWTH = 19_000, 5_000, 740_000_000, 1.2
RECORDS = {  # peak memory by the size of the log, at most
    "few keys": (loads.few_keys, 1.5),
    "large values": (loads.large_values, 2),
    "many keys": (loads.many_keys, 4),
    "a checkpoint of small rows": (loads.small_rows, 5),
    "standing votes": (loads.standing_votes, 8),
}
RESUMED = {"large values": (loads.large_values, 3), "a checkpoint of small rows": (loads.small_rows, 6)}
LOG_BYTES = 100_000_000
TIMES_OF_TRIAL, TIMES_OF_INPUT, MORE_MEMORY, MOST_SECONDS = 40, 40, 64 * MEGABYTE, 20
MOST_INPUT = MEGABYTE


class Bench:
    def __init__(self, program, work):
        self.program, self.work, self.beyond = program, work, 0

    def tell(self, name, words, value, bound, holds):
        self.beyond += not holds
        print(f"{name}: `{' '.join(words)}`: {value}; bound {bound}{'' if holds else ' BEYOND'}", flush=True)

    def fresh(self):
        directory = f"{self.work}/logs"
        shutil.rmtree(directory, ignore_errors=True)
        return directory

    def text(self, lines):
        path = f"{self.work}/input"
        with open(path, "w", encoding="utf-8") as file:
            file.writelines(f"{line}\n" for line in lines)
        return path

    def spend(self, words, source=os.devnull, sink=os.devnull):
        """Runs the program; gives its status, processor seconds and peak memory. It is stopped where it takes too long."""
        with open(source, "rb") as given, open(sink, "wb") as taken:
            limited = ["prlimit", f"--cpu={MOST_SECONDS}", self.program, *words]
            process = subprocess.Popen(limited, stdin=given, stdout=taken, stderr=subprocess.DEVNULL)
            _, status, used = os.wait4(process.pid, 0)
            process.returncode = os.waitstatus_to_exitcode(status)
        return process.returncode, used.ru_utime + used.ru_stime, used.ru_maxrss * 1024

    def instructions(self, words, source=os.devnull):
        """The instructions of a run that has to end with status 0."""
        with open(source, "rb") as given:
            counted = ["valgrind", "--tool=callgrind", "--callgrind-out-file=/dev/null", self.program, *words]
            done = subprocess.run(counted, stdin=given, stdout=subprocess.DEVNULL, stderr=subprocess.PIPE, text=True)
        if done.returncode:
            raise ValueError(f"{' '.join(words)} ended with {done.returncode}")
        return int(re.search(r"Collected : (\d+)", done.stderr)[1])

    def run_lines(self, lines):
        return self.instructions(["run", self.fresh()], self.text(lines))


def trials(bench):
    count = bench.instructions(TRIAL)
    _, seconds, peak = bench.spend(TRIAL)
    bench.tell("a trial", TRIAL, f"{count:,} instructions, {seconds:.2f} s, {peak / MEGABYTE:.1f} MiB", f"{MOST_OF_TRIAL:,}", count <= MOST_OF_TRIAL)


def lines(bench):
    for name, (load, most) in LINES.items():
        made = load(1_000)
        each = bench.run_lines(made) / len(made)
        bench.tell(f"{name}, {len(made)} lines", ["run", "DIR"], f"{each:,.0f} instructions a line", f"{most:,}", each <= most)
    before, behind = loads.scans(0), loads.scans(1_000)
    each = (bench.run_lines(behind) - bench.run_lines(before)) / (len(behind) - len(before))
    bench.tell("scans of 100 rows", ["run", "DIR"], f"{each:,.0f} instructions a line", f"{MOST_OF_SCANS:,}", each <= MOST_OF_SCANS)


def growth(bench):
    """What a line costs among many, by what it costs among few."""
    for name, load, many in (("local transactions", loads.local, 65_000), ("all open", loads.all_open, 65_000), ("two members", loads.two_members, 18_000)):
        few, most = load(1_000), load(many)
        times = (bench.run_lines(most) / len(most)) / (bench.run_lines(few) / len(few))
        bench.tell(f"{name}, a line of {many:,} by one of 1,000", ["run", "DIR"], f"{times:.2f} times", MOST_GROWTH, times <= MOST_GROWTH)


def check(bench):
    made, told = loads.local(6_000), f"{bench.work}/transcript"
    bench.spend(["run", bench.fresh()], bench.text(made), told)
    with open(told, "rb") as file:
        count = sum(1 for _ in file)
    each = bench.instructions(["check"], told) / count
    bench.tell(f"a transcript of {count} lines", ["check"], f"{each:,.0f} instructions a line", f"{MOST_OF_CHECK:,}", each <= MOST_OF_CHECK)


def by_logs(bench, rows, words, source):
    for name, (made, most) in rows.items():
        directory = bench.fresh()
        os.mkdir(directory)
        with open(f"{directory}/m1.a", "wb") as file:
            file.write(made(LOG_BYTES))
        size = os.path.getsize(f"{directory}/m1.a")
        status, seconds, peak = bench.spend([*words, directory], source)
        held = peak / size
        bench.tell(f"{name}, {size / MEGABYTE:.0f} MiB", [*words, "DIR"], f"status {status}, {seconds:.2f} s, {held:.1f} times its size", most, not status and held <= most)


def records(bench):
    by_logs(bench, RECORDS, ["records"], os.devnull)


def resume(bench):
    by_logs(bench, RESUMED, ["run", "--resume"], bench.text(["members occ coords 1"]))


def dear(bench):
    most = TIMES_OF_TRIAL * bench.spend(TRIAL)[1]
    for name, (load, *sizes) in loads.DEAR.items():
        source = bench.text(load(*sizes))
        size = os.path.getsize(source)
        status, seconds, peak = bench.spend(["run", bench.fresh()], source)
        room = TIMES_OF_INPUT * size + MORE_MEMORY
        holds = not status and seconds <= most and peak <= room and size <= MOST_INPUT
        bench.tell(name, ["run", "DIR"], f"{size:,} bytes: status {status}, {seconds:.2f} s, {peak / MEGABYTE:.0f} MiB", f"{most:.1f} s, {room / MEGABYTE:.0f} MiB", holds)


GROUPS = {it.__name__: it for it in (trials, lines, growth, check, records, resume, dear)}


def main():
    program, chosen = os.path.abspath(sys.argv[1]), sys.argv[2:] or GROUPS
    with tempfile.TemporaryDirectory(dir="/dev/shm") as work:
        bench = Bench(program, work)
        for name in chosen:
            GROUPS[name](bench)
    print(f"{bench.beyond} rows beyond their bounds")
    sys.exit(1 if bench.beyond else 0)


if __name__ == "__main__":
    main()
