#!/usr/bin/env python3
"""orders_scans.py: tries `co_judge order` on histories whose scans pass over many written keys.

`orders_scans.py JUDGE` makes 3,000 random histories of at most seven transactions that mostly scan, and has the built program JUDGE judge each as
`orders.py` does: against every order, each certificate checked. Then it makes two histories of 100,000 scans, of which each passes over 8,000 to
10,000 of 20,000 written keys: one that is serial in another order than it was decided in, and one with a cycle of two. It tells the seconds and
the memory of these, and fails where an answer is wrong or takes a minute. `orders_scans.py --random N --scans N --seed N JUDGE` makes so many.
"""
import argparse
import bisect
import collections
import random
import resource
import subprocess
import sys
import tempfile
import time

import orders

KEYS, KEYS_OF_ONE = 20000, 100  # the written keys of a large history, and those of one writer


# ---- small histories

def reply_of_scan(rng, look, member, low, high):
    rows = sorted((key, value) for (at, key), value in look.items() if at == member and low <= key <= high and value is not None)
    if rows and rng.random() < 0.03:
        rows.pop(rng.randrange(len(rows)))
    return ' '.join(['rows', str(len(rows))] + [f'{key} {value}' for key, value in rows])


def scanning_history(rng):
    """A history of at most seven transactions that mostly scan: serial, by snapshots or loose."""
    keys = [f'k{number:02}' for number in range(rng.choice([3, 5, 9, 17, 40]))]
    count, members, mode = rng.randint(2, 7), rng.choice([1, 1, 2]), rng.choice(['serial', 'snapshot', 'loose', 'loose'])
    erased, blind, fresh = rng.choice([0, 0, 0.1, 0.3]), rng.choice([0, 0.3, 1]), 0
    records, seen, changes, operations = {}, {}, collections.defaultdict(dict), []
    steps = [txn for txn in range(1, count + 1) for _ in range(rng.randint(1, 5))]
    if mode != 'serial':
        rng.shuffle(steps)
    last = {txn: at for at, txn in enumerate(steps)}
    for at, txn in enumerate(steps):
        member, key, kind = rng.randint(1, members), rng.choice(keys), rng.random()
        look = {**(seen.setdefault(txn, dict(records)) if mode == 'snapshot' else records), **changes[txn]}
        value = look.get((member, key))
        read = (txn, member, f'read {key}', 'missing' if value is None else f'got {value}')
        if kind < 0.35:
            fresh += 1
            changes[txn][member, key] = None if rng.random() < erased else str(fresh)
            if rng.random() >= blind:
                operations.append(read)
            operations.append((txn, member, f'erase {key}' if changes[txn][member, key] is None else f'write {key} {fresh}', 'done'))
        elif kind < 0.85:
            low, high = sorted([key, rng.choice(keys)])
            operations.append((txn, member, f'scan {low} {high}', reply_of_scan(rng, look, member, low, high)))
        else:
            operations.append(read)
        if mode == 'loose' or last[txn] == at:
            records.update(changes[txn])
    committed = [txn for txn in range(1, count + 1) if rng.random() < 0.95]
    if mode != 'serial' or rng.random() < 0.5:
        rng.shuffle(committed)
    return orders.transcript(members, operations, committed)


def small_is_wrong(judge, text):
    """The word of an answer, and what is wrong with it, or none."""
    history = orders.read_transcript(text)
    found, status = orders.judged(judge, text)
    word = (found.split() or [''])[0]
    what = orders.wrong(history, found, status)
    claims = {'order': True, 'cycle': False, 'none': False, 'unwritten': False, 'torn': False}
    if what is None and word in claims and orders.has_order(history) != claims[word]:
        what = 'that is not so'
    return word, what and f'{what}: {found.strip()!r} {status}'


def small(judge, rng, count):
    counts, bad = collections.Counter(), 0
    for number in range(count):
        word, what = small_is_wrong(judge, scanning_history(rng))
        counts[word] += 1
        if what:
            bad += 1
            print(f'{number}: {what}')
    print(f'{count} histories: ' + ', '.join(f'{word} {counts[word]}' for word in sorted(counts)) + f'; {bad} wrong')
    return bad


# ---- large histories

class Large:
    """A history of writers, which are decided first, and of scans that saw nothing of them."""
    def __init__(self, rng, scans):
        self.operations, self.spans, self.line = [], {}, 1
        self.writers = list(range(1, KEYS // KEYS_OF_ONE + 1))
        for txn in self.writers:
            for key in range((txn - 1) * KEYS_OF_ONE, txn * KEYS_OF_ONE):
                self.operations.append((txn, 1, f'write k{key:06} {txn}', 'done'))
        self.scanners = list(range(len(self.writers) + 1, len(self.writers) + scans + 1))
        for txn in self.scanners:
            low = rng.randrange(KEYS // 2)
            self.scan(txn, low, low + KEYS // 2 - 1 - rng.randrange(KEYS // 10))

    def scan(self, txn, low, high):
        self.spans[txn] = low, high
        self.operations.append((txn, 1, f'scan k{low:06} k{high:06}', 'rows 0'))

    def text(self):
        return orders.transcript(1, self.operations, sorted({each[0] for each in self.operations}))

    def is_order(self, line):
        """Whether each scan stands before all who wrote in its range."""
        word, *order = line.split(' ')
        if word != 'order' or sorted(map(int, order)) != self.writers + self.scanners:
            return False
        ran = []  # the writers so far
        for txn in map(int, order):
            if txn <= len(self.writers):
                bisect.insort(ran, txn)
                continue
            low, high = (key // KEYS_OF_ONE + 1 for key in self.spans[txn])
            at = bisect.bisect_left(ran, low)
            if at < len(ran) and ran[at] <= high:
                return False
        return True


def line_of(text, what):
    """The number of the event of these words."""
    return next(line.split(' ')[0] for line in text.splitlines() if line.endswith(' event ' + what))


def serial_in_another_order(rng, scans):
    large = Large(rng, scans)
    return large.text(), lambda found, status: status == 0 and large.is_order(found.rstrip('\n'))


def with_a_cycle(rng, scans):
    """The same with one more that passed over every key and read what the last writer left beside them."""
    large = Large(rng, scans)
    writer, reader = len(large.writers), len(large.writers) + scans + 1
    large.operations.append((writer, 1, 'write y 1', 'done'))
    large.scan(reader, 0, KEYS - 1)
    large.operations.append((reader, 1, 'read y', 'got 1'))
    text = large.text()
    wrote, read = line_of(text, f'write {writer} m1 y 1'), line_of(text, f'read {reader} m1 y')
    passed = line_of(text, f'scan {reader} m1 k000000 k{KEYS - 1:06}')
    first = line_of(text, f'write {writer} m1 k{(writer - 1) * KEYS_OF_ONE:06} {writer}')
    lines = [f'cycle {writer} {reader}', f'before {writer} {reader} {wrote} {read}', f'before {reader} {writer} {passed} {first}']
    return text, lambda found, status: status == 14 and found.splitlines() == lines


def large_is_right(judge, text, is_right):
    """Judges a large history, and tells the seconds and the most memory of all programs so far."""
    with tempfile.TemporaryFile() as file:
        file.write(text.encode())
        file.seek(0)
        began = time.monotonic()
        ran = subprocess.run([judge, 'order'], stdin=file, stdout=subprocess.PIPE, stderr=subprocess.PIPE)
        seconds = time.monotonic() - began
    right = is_right(ran.stdout.decode(), ran.returncode) and seconds < 60
    memory = resource.getrusage(resource.RUSAGE_CHILDREN).ru_maxrss // 1024
    print(f'{text.count(chr(10))} lines: {ran.stdout[:12].decode()!r}.. {ran.returncode}, {seconds:.1f} s, {memory} MiB: {"right" if right else "WRONG"}')
    return right


def main():
    parse = argparse.ArgumentParser()
    parse.add_argument('judge')
    parse.add_argument('--random', type=int, default=3000)
    parse.add_argument('--scans', type=int, default=100000)
    parse.add_argument('--seed', type=int, default=1)
    args = parse.parse_args()
    rng = random.Random(args.seed)
    bad = small(args.judge, rng, args.random)
    for make in (serial_in_another_order, with_a_cycle):
        bad += not large_is_right(args.judge, *make(rng, args.scans))
    return 1 if bad else 0


if __name__ == '__main__':
    sys.exit(main())
