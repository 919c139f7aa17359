#!/usr/bin/python3
"""renew.py FOLDER CO_CLI CO_JUDGE [SECONDS]: lets clients run while the program is begun anew each 2,500 lines, and moves to a new directory each 5,000 numbers.

Right where the history is serial, the rows are the records and nothing is in doubt, and it was begun anew and moved once at least.
"""
import functools
import sys

import work
from twin import Manager


def run(folder, programs, seconds=60.0, lines=2500, numbers=5000):
    told = work.play(folder, programs, 'RC+RC lock lock', make=functools.partial(Manager, lines=lines, numbers=numbers), seconds=seconds, transcript=False, keys=50, threads=8)
    renewed, moved = (told['counts'].get(what, 0) for what in ('renewed', 'moved to a new directory'))
    print(f'{seconds:.0f} seconds: {told["committed"]} committed, {renewed} times begun anew, {moved} times moved; {told["decisions"]}, rows {"are" if told["rows are records"] else "are NOT"} the records, {told["in doubt"]} in doubt')
    return told['decisions'].startswith('serial') and told['any order'].startswith('order') and told['rows are records'] and not told['in doubt'] and renewed > 0 and moved > 0


if __name__ == '__main__':
    sys.exit(not run(sys.argv[1], sys.argv[2:4], *map(float, sys.argv[4:5])))
