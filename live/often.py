#!/usr/bin/python3
"""often.py FOLDER CO_CLI CO_JUDGE [HISTORIES]: how many histories of two databases have no serial order, by two-phase commit alone and under the rule.

Both databases are SERIALIZABLE, and eight clients work on six keys. Right where at least half of the plain histories have no order, and none of the
others, by `co_judge order`. Small histories are tried in all orders too.
"""
import itertools
import sys

import work


def is_serial(history, order):
    """Whether each transaction, run whole in this order, reads what it read."""
    state = {}
    for number in order:
        for told, answer in history.done[number]:
            word, _, member, *operands = told.split(' ')
            if word == 'write':
                state[member, operands[0]], expected = operands[1], 'done'
            elif word == 'read':
                value = state.get((member, operands[0]))
                expected = f'got {value}' if value else 'missing'
            else:
                found = sorted((key, value) for (at, key), value in state.items() if at == member and operands[0] <= key <= operands[1])
                expected = ' '.join(['rows', str(len(found)), *itertools.chain(*found)])
            if expected != answer:
                return False
    return True


def agrees_with_all_orders(said, history):
    """Whether the judge and all orders say the same of a small history. Its first transaction lays the rows, and is first in every order."""
    first, *others = history.order
    some = next((order for order in itertools.permutations(others) if is_serial(history, (first, *order))), None)
    return (some is None) == work.has_no_order(said)


def without_order(folder, programs, is_plain, histories):
    """How many of so many histories have no serial order."""
    large = {'seconds': 20.0, 'keys': 6, 'threads': 8, 'commits': 40, 'transcript': not is_plain}
    return sum(work.has_no_order(work.play(folder, programs, 'SER+SER', is_plain=is_plain, **large)['any order']) for _ in range(histories))


def agreed(folder, programs, histories):
    """Of how many small histories of two-phase commit alone the judge and all orders say the same, and how many there were."""
    small = {'seconds': 20.0, 'keys': 3, 'threads': 3, 'commits': 5, 'pause': 0.01, 'transcript': False}
    found = [work.play_with_history(folder, programs, 'SER+SER', is_plain=True, **small) for _ in range(histories)]
    return sum(agrees_with_all_orders(told['any order'], history) for told, history in found), len(found)


def run(folder, programs, histories=30):
    plain, rule = (without_order(folder, programs, is_plain, histories) for is_plain in (True, False))
    print(f'two-phase commit alone: {plain} of {histories} histories have no serial order; under the rule {rule}')
    same, small = agreed(folder, programs, histories)
    print(f'of {small} small histories {same} have the same verdict by all orders')
    return plain * 2 >= histories and not rule and same == small


if __name__ == '__main__':
    sys.exit(not run(sys.argv[1], sys.argv[2:4], *map(int, sys.argv[4:5])))
