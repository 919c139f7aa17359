#!/usr/bin/env python3
"""Measures the untangling of waits in one cycle, in one chain and to one transaction: what each further wait costs in instructions and in peak memory, up to 65,536.

    python3 bench/waits.py crates/co_wait_rows/out/co_wait_rows

It needs valgrind. It fails where a wait of the last ones costs more than GROWTH times as much as one of the first ones (the time is that of n log n, which from 4,096 to 65,536 is
1.33 times a wait), or where the program says something else than is to come.
"""
import re
import subprocess
import sys

SHAPES = {"ring": "cycle {n}", "line": "order {n} {last}", "star": "order {n} 1"}
COUNTS = [1024, 4096, 16384, 65536]
GROWTH = 1.4


def run(program, row, *tool):
    """What the program writes of a row, and what the tool notes of it."""
    done = subprocess.run([*tool, program], input=row.encode(), capture_output=True, check=True)
    return done.stdout.decode(), done.stderr.decode()


def instructions(program, row):
    """The instructions of a row, by callgrind."""
    wrote, noted = run(program, row, "valgrind", "--tool=callgrind", "--callgrind-out-file=/dev/null")
    return wrote, int(re.search(r"Collected : (\d+)", noted).group(1))


def peak(program, row):
    """The bytes of the heap at its peak, by massif."""
    out = "/tmp/waits.massif"
    run(program, row, "valgrind", "--tool=massif", f"--massif-out-file={out}")
    with open(out, encoding="utf-8") as file:
        return max(int(size) for size in re.findall(r"mem_heap_B=(\d+)", file.read()))


def slopes(costs):
    """What each further wait costs, between two counts."""
    pairs = list(zip(COUNTS, costs))
    return [(after - before) / (n - m) for (m, before), (n, after) in zip(pairs, pairs[1:])]


def main():
    program = sys.argv[1]
    bad = []
    print("| Waits | Instructions for each further one | Bytes for each further one |\n|---|---|---|")
    for shape, comes in SHAPES.items():
        counts, peaks = [], []
        for n in COUNTS:
            wrote, count = instructions(program, f"{shape} {n}\n")
            wanted = f"{shape} {n} => " + comes.format(n=n, last=n - 1) + "\n"
            if wrote != wanted:
                bad.append(f"{wrote!r} in place of {wanted!r}")
            counts.append(count)
            peaks.append(peak(program, f"{shape} {n}\n"))
        for n, steps, size in zip(COUNTS[1:], slopes(counts), slopes(peaks)):
            print(f"| {shape}, up to {n:,} | {steps:,.0f} | {size:,.0f} |")
        for what, costs in (("instructions", slopes(counts)), ("bytes", slopes(peaks))):
            if costs[-1] > GROWTH * costs[0]:
                bad.append(f"{shape}: {what} a wait grow from {costs[0]:,.0f} to {costs[-1]:,.0f}")
    for line in bad:
        print("FAIL:", line)
    return 1 if bad else 0


if __name__ == "__main__":
    sys.exit(main())
