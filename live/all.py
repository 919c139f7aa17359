#!/usr/bin/python3
"""all.py FOLDER CO_CLI CO_JUDGE [short]: all checks of the manager, over the servers of live/setup.sh FOLDER. Exits with 0 where each is right."""
import sys
import time

import bench
import breaks
import crash
import dbkill
import often
import renew
import spelling_test
import wrong

CHECKS = {  # each with what the short form gives it
    'histories without an order': (often.run, [6]),
    'levels and kinds': (bench.pairings, [2.0]),
    'kills': (crash.run, [4]),
    'crashes of databases': (dbkill.run, [('mariadb',)]),
    'what the rule costs': (bench.rates, [3.0]),
    'renewed under load': (renew.run, [10.0, 250, 30]),
    'spelling of keys': (lambda folder, programs: spelling_test.run(), []),
    'promises': (breaks.run, []),
    'wrong managers': (wrong.run, []),
}


def main():
    folder, programs, is_short = sys.argv[1], sys.argv[2:4], sys.argv[4:5] == ['short']
    ends = {}
    for name, (check, short) in CHECKS.items():
        print(f'== {name}', flush=True)
        start = time.time()
        ends[name] = check(folder, programs, *(short if is_short else []))
        print(f'-- {"right" if ends[name] else "WRONG"}, {time.time() - start:.0f} seconds', flush=True)
    print(f'{sum(ends.values())} passed, {len(ends) - sum(ends.values())} failed')
    sys.exit(not all(ends.values()))


if __name__ == '__main__':
    main()
