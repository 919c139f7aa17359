#!/usr/bin/python3
"""bench.py pairings|rates FOLDER CO_CLI CO_JUDGE [SECONDS]: levels of isolation and kinds under the rule, and what the rule costs.

pairings: fourteen of them, some with a kind that the level does not answer like. Right where each run is serial in the order of decisions, its rows are the
records and nothing is in doubt; and where one manager that compares no answers is seen wrong over READ UNCOMMITTED, in five runs.
rates: right where READ COMMITTED told as `lock` commits at least as much on hot keys as two-phase commit alone at SERIALIZABLE, and one client waits at most
three milliseconds more for a transaction, with the twin's directory in memory.
"""
import sys
import tempfile

import work
from wrong import TrustsAnswers

PAIRINGS = ['SER+SER', 'RR+RC', 'RR+SER', 'RC+SER', 'SER+RC', 'RC+RC', 'RC+RC lock lock', 'RR+RR', 'RC+RR lock mv', 'RR+RU mv occ', 'RC+RU lock lock', 'RR+RR occ occ', 'RC+RC mv mv', 'RR+kept']


def pairings(folder, programs, seconds=5.0):
    right = True
    for pairing in PAIRINGS:
        told = work.play(folder, programs, pairing, seconds=seconds, keys=20, threads=8, erases=10)
        good = not work.faults(told)
        right &= good
        print(f'{pairing}: {told["committed"]} committed, {told["refused"]} refused ({told["counts"].get("refused: disagree", 0)} by other answers), {"serial, rows are records" if good else f"WRONG: {told}"}', flush=True)
    wrong = 0
    for _ in range(5):
        told = work.play(folder, programs, 'RC+RU occ occ', make=TrustsAnswers, seconds=seconds, keys=6, threads=8)
        wrong += work.NOT_SERIAL in work.faults(told)
    print(f'without a comparison, over READ UNCOMMITTED: {wrong} of 5 runs are wrong')
    return right and wrong > 0


def rates(folder, programs, seconds=8.0):
    hot = {'seconds': seconds, 'keys': 6, 'threads': 8, 'transcript': False}
    plain = work.play(folder, programs, 'SER+SER', is_plain=True, **hot)
    rule = work.play(folder, programs, 'RC+RC lock lock', **hot)
    print(f'eight clients, six keys: {plain["a second"]} a second by two-phase commit alone at SERIALIZABLE ({plain["any order"].split(" ")[0]}), {rule["a second"]} under the rule at READ COMMITTED ({rule["any order"].split(" ")[0]})')
    one = {'seconds': seconds, 'keys': 100, 'threads': 1, 'transcript': False}
    alone = work.play(folder, programs, 'RC+RC lock lock', is_plain=True, **one)
    with tempfile.TemporaryDirectory(dir='/dev/shm') as memory:
        ruled = work.play(folder, programs, 'RC+RC lock lock', logs=f'{memory}/logs', **one)
    more = ruled['median ms'] - alone['median ms']
    print(f'one client, a hundred keys, the directory in memory: {alone["median ms"]} ms a transaction alone, {ruled["median ms"]} ms under the rule: {more:.1f} more')
    return rule['a second'] >= plain['a second'] and more <= 3


if __name__ == '__main__':
    sys.exit(not {'pairings': pairings, 'rates': rates}[sys.argv[1]](sys.argv[2], sys.argv[3:5], *map(float, sys.argv[5:6])))
