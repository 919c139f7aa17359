#!/usr/bin/env python3
"""judged.py LINES > TRANSCRIPT: writes a serial transcript of about so many lines: transactions that read and write some of a thousand keys, two at a time.

    python3 bench/judged.py 10000000 > long.transcript
    time crates/co_judge/out/co_judge < long.transcript
"""
import sys


def main():
    most = int(sys.argv[1])
    out, values = sys.stdout, {}
    out.write("1 event members mv coords 1\n1 log m1 header 1\n1 log c1 header 1\n1 reply open\n")
    lines, number, txn = 4, 1, 0
    while lines + 13 <= most:
        txn += 1
        key, other = f"k{txn * 7919 % 1000}", f"k{txn * 104729 % 1000}"
        told = f"got {values[key]}" if key in values else "missing"
        n = number
        out.write(f"{n + 1} event begin {txn} c1\n{n + 1} reply begun\n{n + 2} event read {txn} m1 {key}\n{n + 2} reply {told}\n"
                  f"{n + 3} event write {txn} m1 {key} {txn}\n{n + 3} reply done\n{n + 4} event write {txn} m1 {other} {txn}\n{n + 4} reply done\n"
                  f"{n + 5} event commit {txn}\n{n + 5} log c1 commit {txn}\n{n + 5} reply committed\n")
        values[key] = values[other] = txn
        lines, number = lines + 11, n + 5


if __name__ == "__main__":
    main()
