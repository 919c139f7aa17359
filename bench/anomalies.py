#!/usr/bin/env python3
"""anomalies.py: writes the cases of known anomalies, each in every order of its decisions, with the verdict of a serial run of its own.

`anomalies.py DIR` writes a file for each anomaly into DIR, in the form of the cases that co_conform replays; `anomalies.py --compare DIR` tells
which file of DIR differs. The names are those of Berenson et al., A Critique of ANSI SQL Isolation Levels (SIGMOD 1995), and of Sovran
et al., Transactional Storage for Geo-Replicated Systems (SOSP 2011, the long fork). The serial run here shares nothing with the program.
"""
import itertools
import os
import sys

# Each operation: transaction, member, what it does, and what it was answered. The transactions named behind the operations commit.
ANOMALIES = {
    'a_dirty_read': (1, [(1, 1, 'write x 1', 'done'), (2, 1, 'read x', 'got 1')], [2]),
    'a_read_of_what_is_decided_later': (1, [(1, 1, 'write x 1', 'done'), (2, 1, 'read x', 'got 1')], [1, 2]),
    'a_lost_update': (1, [(1, 1, 'read x', 'missing'), (2, 1, 'read x', 'missing'), (1, 1, 'write x 1', 'done'), (2, 1, 'write x 2', 'done')], [1, 2]),
    'a_fuzzy_read': (1, [(1, 1, 'read x', 'missing'), (2, 1, 'write x 1', 'done'), (1, 1, 'read x', 'got 1')], [1, 2]),
    'a_phantom': (1, [(1, 1, 'scan a z', 'rows 0'), (2, 1, 'write k 1', 'done'), (1, 1, 'scan a z', 'rows 1 k 1')], [1, 2]),
    'a_phantom_that_leaves': (1, [(1, 1, 'write k 1', 'done'), (2, 1, 'scan a z', 'rows 1 k 1'), (3, 1, 'erase k', 'done'), (2, 1, 'scan a z', 'rows 0')], [1, 2, 3]),
    'a_write_skew': (1, [(1, 1, 'read x', 'missing'), (1, 1, 'read y', 'missing'), (2, 1, 'read x', 'missing'), (2, 1, 'read y', 'missing'),
                         (1, 1, 'write x 1', 'done'), (2, 1, 'write y 1', 'done')], [1, 2]),
    'a_long_fork': (1, [(1, 1, 'write x 1', 'done'), (2, 1, 'write y 1', 'done'), (3, 1, 'read x', 'got 1'), (3, 1, 'read y', 'missing'),
                        (4, 1, 'read x', 'missing'), (4, 1, 'read y', 'got 1')], [1, 2, 3, 4]),
    'half_a_cycle_at_each_of_two_servers': (2, [(1, 1, 'write a 0', 'done'), (1, 2, 'write b 0', 'done'), (2, 1, 'read a', 'got 0'), (3, 2, 'read b', 'got 0'),
                                                (3, 1, 'write a 1', 'done'), (2, 2, 'write b 1', 'done')], [1, 2, 3]),
    'transfers_that_are_serial': (2, [(1, 1, 'write a 9', 'done'), (1, 2, 'write b 1', 'done'), (2, 1, 'read a', 'got 9'), (2, 1, 'write a 5', 'done'),
                                      (2, 2, 'read b', 'got 1'), (2, 2, 'write b 5', 'done'), (3, 1, 'scan a z', 'rows 1 a 5'), (3, 2, 'read b', 'got 5')], [1, 2, 3]),
}


def reply_of(records, what):
    word, *rest = what.split()
    if word == 'read':
        return f'got {records[rest[0]]}' if rest[0] in records else 'missing'
    if word == 'scan':
        rows = [(key, records[key]) for key in sorted(records) if rest[0] <= key <= rest[1]]
        return ' '.join(['rows', str(len(rows))] + [f'{key} {value}' for key, value in rows])
    if word == 'write':
        records[rest[0]] = rest[1]
    else:
        records.pop(rest[0], None)
    return 'done'


def transcript(members, operations, order):
    """The lines of the transcript, and the operations of each transaction with the numbers of their events."""
    lines = ['1 event members' + ' mv' * members + ' coords 1'] + [f'1 log m{m} header 1' for m in range(1, members + 1)] + ['1 log c1 header 1', '1 reply open']
    number, told = 1, {}
    for txn in sorted({each[0] for each in operations}):
        number += 1
        lines += [f'{number} event begin {txn} c1', f'{number} reply begun']
    for txn, member, what, reply in operations:
        number += 1
        word, rest = what.split(' ', 1)
        lines += [f'{number} event {word} {txn} m{member} {rest}', f'{number} reply {reply}']
        told.setdefault(txn, []).append((number, member, what, reply))
    for txn in order:
        number += 1
        lines += [f'{number} event commit {txn}', f'{number} log c1 commit {txn}', f'{number} reply committed']
    return lines, told


def verdict(members, told, order):
    records = {m: {} for m in range(1, members + 1)}
    for txn in order:
        for number, member, what, reply in told.get(txn, []):
            if reply_of(records[member], what) != reply:
                return [f'not serial {txn} {number}', 'status 14']
    return [f'serial {len(order)}'] + [f'm{m} {key} {records[m][key]}' for m in records for key in sorted(records[m])] + ['status 0']


def case(name, members, operations, committed):
    blocks = ['# ' + name.replace('_', ' ') + ', in every order of its decisions']
    for order in itertools.permutations(committed):
        lines, told = transcript(members, operations, order)
        blocks.append('\n'.join(['$ check', *lines, '---', *verdict(members, told, order)]))
    return '\n===\n'.join(blocks) + '\n'


def main():
    compare, folder = sys.argv[1] == '--compare', sys.argv[-1]
    different = []
    for name, (members, operations, committed) in ANOMALIES.items():
        path, text = os.path.join(folder, name), case(name, members, operations, committed)
        if compare:
            if not os.path.exists(path) or open(path).read() != text:
                different.append(name)
        else:
            open(path, 'w').write(text)
    if different:
        sys.exit('differs: ' + ' '.join(different))


if __name__ == '__main__':
    main()
