#!/usr/bin/env python3
"""orders.py: tries `co_judge order` against every order of small histories, and checks what it writes by a program of its own.

`orders.py JUDGE` makes 10,000 random histories of at most seven transactions, and 3,000 bent copies of one that needs cases, and has the
built program JUDGE judge each with the word `order`. It fails where an answer is wrong, a certificate does not stand or an answer is
`undecided`. `orders.py --random N --cases N --seed N JUDGE` makes so many. It shares nothing with the program.

`orders.py rows` makes the stored output of `crates/co_order_rows` again, writes it, and fails where it is another one. Where the words of the page fix
an answer it is made here; another one (an order, a derived cycle, cases) is taken as it is stored where it stands, and each order is tried.
"""
import argparse
import collections
import os
import random
import subprocess
import sys
import tempfile

Operation = collections.namedtuple('Operation', 'line member word args reply')

CASES = [(1, 'write x A'), (1, 'write p A'), (2, 'write x B'), (2, 'write q B'), (3, 'write y C'), (3, 'write s C'), (4, 'write y D'), (4, 'write t D'),
         (5, 'read x A'), (5, 'read s C'), (5, 'read t D'), (6, 'read x B'), (6, 'read s C'), (6, 'read t D'),
         (7, 'read y C'), (7, 'read p A'), (7, 'read q B'), (8, 'read y D'), (8, 'read p A'), (8, 'read q B')]


# ---- histories

def read_transcript(text):
    """The committed transactions of a transcript in the order of their decisions, each with its operations."""
    told, committed, event = collections.defaultdict(list), {}, None  # the committed by number, in their order
    for line in text.splitlines():
        number, word, *rest = line.split(' ')
        if word == 'event':
            event = rest
        elif word == 'log' and rest[1] == 'commit':
            committed[int(rest[2])] = None
        elif word == 'reply' and event[0] in ('read', 'write', 'erase', 'scan') and rest[0] in ('got', 'missing', 'rows', 'done'):
            if int(event[1]) not in committed:
                told[int(event[1])].append(Operation(int(number), event[2], event[0], tuple(event[3:]), tuple(rest)))
    return [(txn, told[txn]) for txn in committed]


def transcript(members, operations, order):
    lines = ['1 event members' + ' mv' * members + ' coords 1'] + [f'1 log m{m} header 1' for m in range(1, members + 1)] + ['1 log c1 header 1', '1 reply open']
    number = 1
    for txn in sorted({each[0] for each in operations} | set(order)):
        number += 1
        lines += [f'{number} event begin {txn} c1', f'{number} reply begun']
    for txn, member, what, reply in operations:
        number += 1
        word, rest = what.split(' ', 1)
        lines += [f'{number} event {word} {txn} m{member} {rest}', f'{number} reply {reply}']
    for txn in order:
        number += 1
        lines += [f'{number} event commit {txn}', f'{number} log c1 commit {txn}', f'{number} reply committed']
    return '\n'.join(lines) + '\n'


# ---- the serial run

def answer(records, op):
    if op.word == 'read':
        value = records.get((op.member, op.args[0]))
        return ('missing',) if value is None else ('got', value)
    if op.word == 'scan':
        rows = sorted((key, value) for (member, key), value in records.items() if member == op.member and op.args[0] <= key <= op.args[1])
        return ('rows', str(len(rows))) + tuple(word for row in rows for word in row)
    if op.word == 'write':
        records[(op.member, op.args[0])] = op.args[1]
    else:
        records.pop((op.member, op.args[0]), None)
    return ('done',)


def run_one(records, ops):
    """The records behind a transaction, or none where it was answered otherwise."""
    records = dict(records)
    return records if all(answer(records, op) == op.reply for op in ops) else None


def is_serial(history, order):
    told, records = dict(history), {}
    if sorted(order) != sorted(told):
        return False
    for txn in order:
        records = run_one(records, told[txn])
        if records is None:
            return False
    return True


def has_order(history):
    """Whether some order is serial: each is tried, as far as it goes."""
    def onward(records, left):
        if not left:
            return True
        for at, (txn, ops) in enumerate(left):
            after = run_one(records, ops)
            if after is not None and onward(after, left[:at] + left[at + 1:]):
                return True
        return False
    return onward({}, history)


# ---- what two lines force, by the words of the page

class Words:
    def __init__(self, history):
        self.history = history
        self.told = dict(history)
        self.left, self.left_line = {}, {}
        for txn, ops in history:
            for op in ops:
                if op.word in ('write', 'erase'):
                    record = (op.member, op.args[0])
                    self.left[txn, record] = op.args[1] if op.word == 'write' else None
                    self.left_line.setdefault((txn, record), []).append(op.line)
        self.written = {record for _, record in self.left}
        # What is read from others: by transaction and record, the lines and the values.
        self.reads = collections.defaultdict(list)
        for txn, ops in history:
            own = set()
            for op in ops:
                if op.word in ('write', 'erase'):
                    own.add((op.member, op.args[0]))
                for record, value in self.tells(op):
                    if record not in own:
                        self.reads[txn, record].append((op.line, value))

    def tells(self, op):
        if op.word == 'read' and op.reply[0] in ('got', 'missing'):
            return [((op.member, op.args[0]), op.reply[1] if op.reply[0] == 'got' else None)]
        if op.word == 'scan' and op.reply[0] == 'rows':
            rows = dict(zip(op.reply[2::2], op.reply[3::2]))
            keys = set(rows) | {key for member, key in self.written if member == op.member and op.args[0] <= key <= op.args[1]}
            return [((op.member, key), rows.get(key)) for key in keys if op.args[0] <= key <= op.args[1]]
        return []

    def sources(self, txn, record, value):
        found = [other for other, _ in self.history if other != txn and (other, record) in self.left and self.left[other, record] == value]
        return (['start'] if value is None else []) + found

    def source(self, txn, record):
        """The one source of what a transaction reads from others in a record, else none."""
        for _, value in self.reads.get((txn, record), []):
            found = self.sources(txn, record, value)
            return found[0] if len(found) == 1 else None
        return None

    def root(self, version, record):
        seen = set()
        while version != 'start' and version not in seen:
            seen.add(version)
            behind = self.source(version, record)
            if behind is None:
                return version
            version = behind
        return 'start' if version == 'start' else 'ring'

    def stands_in(self, txn, line):
        """The blocks that a transaction stands in by a line: record and root."""
        found = set()
        for (who, record), lines in self.left_line.items():
            if who == txn and line in lines:
                found.add((record, self.root(txn, record)))
        for (who, record), reads in self.reads.items():
            if who == txn and line in [each[0] for each in reads]:
                source = self.source(txn, record)
                if source is not None:
                    found.add((record, self.root(source, record)))
        return {each for each in found if each[1] != 'ring'}

    def members(self, record, root):
        found = set()
        for txn, _ in self.history:
            if (txn, record) in self.left and self.root(txn, record) == root:
                found.add(txn)
            source = self.source(txn, record)
            if source is not None and self.root(source, record) == root:
                found.add(txn)
        return found

    def by_two_lines(self, one, other, first, second):
        if one == other:
            return False
        for (txn, record), lines in self.left_line.items():
            if txn == one and first in lines and self.source(other, record) == one and second in [line for line, _ in self.reads[other, record]]:
                return True
            if txn == other and second in lines:
                source = self.source(one, record)
                if source is not None and source == self.source(other, record) and first in [line for line, _ in self.reads[one, record]]:
                    return True
                if self.root(other, record) == other and (record, 'start') in self.stands_in(one, first):
                    return True
        return False

    def writers_of_next(self, record, source):
        """The two least transactions that read a version of a record and wrote the record."""
        return [txn for txn in sorted(self.told) if (txn, record) in self.left and self.source(txn, record) == source][:2]

    def line_left(self, txn, record):
        """The line of what a transaction left in a record."""
        return self.left_line[txn, record][-1]

    def line_read(self, txn, record):
        """The line at which a transaction read a record from others first."""
        return self.reads[txn, record][0][0]

    def pairs(self, one, other):
        """The pairs of lines that each force one transaction before another."""
        records = {record for _, record in self.left}
        for record in records:
            source = self.source(one, record)
            if self.source(other, record) == one:
                yield self.line_left(one, record), self.line_read(other, record)
            if source is not None and other in self.writers_of_next(record, source):
                yield self.line_read(one, record), self.line_left(other, record)
            if (other, record) in self.left and self.root(other, record) == other:
                if (one, record) in self.left and self.root(one, record) == 'start':
                    yield self.line_left(one, record), self.line_left(other, record)
                if source is not None and self.root(source, record) == 'start':
                    yield self.line_read(one, record), self.line_left(other, record)

    def by_others(self, one, other, first, second, known):
        for record, root in self.stands_in(one, first):
            for also, then in self.stands_in(other, second):
                if record == also and root != then and 'start' != then:
                    if any(reaches(known, x, y) for x in self.members(record, root) for y in self.members(record, then) if x != y):
                        return True
        return False


def reaches(known, one, other):
    seen, stack = set(), [one]
    while stack:
        at = stack.pop()
        for before, behind in known:
            if before == at and behind not in seen:
                if behind == other:
                    return True
                seen.add(behind)
                stack.append(behind)
    return False


def refutes(words, lines, known):
    """Takes a refutation from the front of the lines; gives what is left of them, or none where it does not stand."""
    if not lines:
        return None
    kind, *rest = lines[0].split(' ')
    if kind == 'none':
        word, one, other = lines[1].split(' ')
        if word != 'either' or one == other or int(one) not in words.told or int(other) not in words.told:
            return None
        left = refutes(words, lines[2:], known | {(int(one), int(other))})
        if not left or left[0] != f'or {other} {one}':
            return None
        return refutes(words, left[1:], known | {(int(other), int(one))})
    if kind != 'cycle' or len(rest) < 2:
        return None
    ring, known, at = [int(word) for word in rest], set(known), 1
    while at < len(lines) and lines[at].startswith('before '):
        one, other, first, second = (int(word) for word in lines[at].split(' ')[1:])
        if not words.by_two_lines(one, other, first, second) and not words.by_others(one, other, first, second, known):
            return None
        known.add((one, other))
        at += 1
    if ring[0] != min(ring) or not all((ring[i], ring[(i + 1) % len(ring)]) in known for i in range(len(ring))):
        return None
    return lines[at:]


def stands(words, lines):
    """Whether the lines are a refutation that stands."""
    try:
        return refutes(words, lines, set()) == []
    except (ValueError, IndexError):
        return False


def local_fault(words):
    """The least line at which a transaction was told what it is told in no order."""
    found = []
    for txn, ops in words.history:
        own, seen = {}, {}
        for op in ops:
            odd = None
            if (op.word, op.reply[0]) not in (('read', 'got'), ('read', 'missing'), ('scan', 'rows'), ('write', 'done'), ('erase', 'done')):
                odd = 'torn'
            if op.word == 'scan' and odd is None and any(not op.args[0] <= key <= op.args[1] for key in op.reply[2::2]):
                odd = 'torn'
            for record, value in words.tells(op):
                if record in own:
                    odd = odd or ('torn' if own[record] != value else None)
                elif not words.sources(txn, record, value):
                    odd = 'unwritten'
                elif seen.setdefault(record, value) != value:
                    odd = odd or 'torn'
            if odd:
                found.append((op.line, f'{odd} {txn} {op.line}'))
                break
            if op.word in ('write', 'erase'):
                own[(op.member, op.args[0])] = op.args[1] if op.word == 'write' else None
    return min(found)[1] if found else None


def two_line_cycle(words):
    """Whether the least transaction on a cycle of edges by two lines, and the length of a shortest one from it; else none."""
    txns = sorted(words.told)
    edges = {txn: set() for txn in txns}
    records = {record for _, record in words.left} | {record for _, record in words.reads}
    for record in records:
        for txn in txns:
            source = words.source(txn, record)
            if source is not None and source != 'start':
                edges[source].add(txn)
            if source is not None:
                edges[txn] |= {u for u in words.writers_of_next(record, source) if u != txn}
        for one in words.members(record, 'start'):
            edges[one] |= {u for u in txns if (u, record) in words.left and words.root(u, record) == u}
    for start in txns:
        paths = [[start]]
        for _ in txns:
            longer = []
            for path in paths:
                for then in sorted(edges[path[-1]]):
                    if then == start:
                        return path
                    if then not in path:
                        longer.append(path + [then])
            best = {}
            for path in longer:
                best.setdefault(path[-1], path)
            paths = [path for path in longer if best[path[-1]] == path]
    return None


def cycle_lines(words, cycle):
    """A cycle by two lines as it is written: its edges in the order of the ring, each with its least pair."""
    edges = zip(cycle, cycle[1:] + cycle[:1])
    befores = ['before {} {} {} {}'.format(one, other, *min(words.pairs(one, other))) for one, other in edges]
    return [' '.join(['cycle'] + [str(txn) for txn in cycle])] + befores


# ---- judging an answer

def fixed_answer(history, words):
    """The lines and the status, where the page fixes them; else none."""
    recorded = [txn for txn, _ in history]
    if is_serial(history, recorded):
        return [' '.join(['order'] + [str(txn) for txn in recorded])], 0
    fault = local_fault(words)
    if fault:
        return [fault], 14
    cycle = two_line_cycle(words)
    return (cycle_lines(words, cycle), 14) if cycle else None


def wrong(history, text, status):
    """What is wrong with an answer, or none."""
    lines = text.splitlines()
    if not lines:
        return 'no answer'
    words = Words(history)
    word = lines[0].split(' ')[0]
    fixed = fixed_answer(history, words)
    if fixed and (lines, status) != fixed:
        return f'wanted {fixed}'
    if word == 'order':
        return None if status == 0 and is_serial(history, [int(each) for each in lines[0].split(' ')[1:]]) else 'an order that is not serial'
    if word in ('cycle', 'none'):
        return None if status == 14 and stands(words, lines) else 'a certificate that does not stand'
    if word in ('unwritten', 'torn'):
        return None if fixed else 'there is no such line'
    if word == 'values':
        many = [(line, txn) for (txn, record), reads in words.reads.items() for line, value in reads[:1] if len(words.sources(txn, record, value)) > 1]
        return None if many and status == 16 and lines == [f'values repeat {min(many)[1]} {min(many)[0]}'] else 'no read has two sources there'
    return 'undecided'


# ---- making histories

def random_history(rng):
    """A history of at most seven transactions: serial, by snapshots or loose, then bent perhaps."""
    members, count, keys = rng.choice([1, 1, 2, 3]), rng.randint(2, 7), rng.choice(['x', 'xy', 'xyz', 'wxyz'])
    mode = rng.choice(['serial', 'snapshot', 'loose', 'loose'])
    erases, scans, repeats = rng.random() < 0.3, rng.random() < 0.4, rng.random() < 0.3
    blind = rng.random()
    records, seen, fresh, operations = {}, {}, 0, []
    versions = collections.defaultdict(lambda: [None])
    order = list(range(1, count + 1))
    steps = [(txn, at) for txn in order for at in range(rng.randint(1, 4))]
    if mode != 'serial':
        rng.shuffle(steps)
    changes = collections.defaultdict(dict)
    for txn, _ in steps:
        member = rng.randint(1, members)
        if txn not in seen:
            seen[txn] = dict(records)
        look = dict(seen[txn] if mode == 'snapshot' else records)
        look.update(changes[txn])
        kind = rng.random()
        key = rng.choice(keys)
        if kind < 0.3 + 0.4 * blind:
            fresh += 1
            value = str(rng.randint(1, 3)) if repeats else str(fresh)
            if erases and rng.random() < 0.3:
                operations.append((txn, member, f'erase {key}', 'done'))
                changes[txn][member, key] = None
                versions[member, key].append(None)
            else:
                operations.append((txn, member, f'write {key} {value}', 'done'))
                changes[txn][member, key] = value
                versions[member, key].append(value)
            if mode == 'loose':
                records[member, key] = changes[txn][member, key]
        elif scans and kind > 0.85:
            low, high = sorted([rng.choice(keys), rng.choice(keys)])
            rows = sorted((k, value) for (m, k), value in look.items() if m == member and low <= k <= high and value is not None)
            if rows and rng.random() < 0.1:
                rows.pop()
            operations.append((txn, member, f'scan {low} {high}', ' '.join(['rows', str(len(rows))] + [f'{k} {value}' for k, value in rows])))
        else:
            value = look.get((member, key))
            if mode == 'loose' and rng.random() < 0.5:
                value = rng.choice(versions[member, key])
            operations.append((txn, member, f'read {key}', 'missing' if value is None else f'got {value}'))
        if mode != 'loose' and (txn, _) == [step for step in steps if step[0] == txn][-1]:
            records.update(changes[txn])
    committed = [txn for txn in order if rng.random() < 0.93]
    if mode != 'serial' or rng.random() < 0.5:
        rng.shuffle(committed)
    return transcript(members, operations, committed)


def bent_case(rng):
    """A bent copy of the history of eight that needs cases."""
    steps, extra = list(CASES), []
    for _ in range(rng.choice([0, 0, 1, 1, 2])):
        bend = rng.randint(0, 4)
        at = rng.randrange(len(steps))
        txn, what = steps[at]
        word, key, value = what.split(' ')
        if bend == 0:
            del steps[at]
        elif bend == 1 and word == 'read':
            steps[at] = (txn, f'read {key} {rng.choice([each[1].split(" ")[2] for each in steps if each[1].startswith("write " + key)] + ["missing"])}')
        elif bend == 2 and word == 'write':
            extra.append((9, f'read {key} {value}'))
        elif bend == 3:
            steps.insert(rng.randrange(len(steps)), (txn, what))
        elif word == 'read':
            extra.append((9, f'write {key} Z'))
    steps += extra
    operations = []
    for txn, what in steps:
        word, key, value = what.split(' ')
        operations.append((txn, 1, f'write {key} {value}', 'done') if word == 'write' else (txn, 1, f'read {key}', 'missing' if value == 'missing' else f'got {value}'))
    order = sorted({txn for txn, _ in steps})
    rng.shuffle(order)
    return transcript(1, operations, order)


def judged(judge, text):
    with tempfile.TemporaryFile() as file:
        file.write(text.encode())
        file.seek(0)
        ran = subprocess.run([judge, 'order'], stdin=file, stdout=subprocess.PIPE, stderr=subprocess.PIPE, timeout=60)
    return ran.stdout.decode(), ran.returncode


# ---- the stored rows

ROWS = os.path.join(os.path.dirname(os.path.abspath(__file__)), '..', 'crates', 'co_order_rows')


def stored_answers(text):
    """The rows of a stored output: a name behind `#`, the lines of an answer, and its status."""
    for row in text.split('# ')[1:]:
        name, *lines, status = row.splitlines()
        yield name, lines, int(status)


def made_row(name, lines, status):
    """What the output has to say of a history, and whether the page fixes it. What it does not fix is taken from the stored row, where that stands and
    agrees with every order that is tried."""
    with open(os.path.join(ROWS, 'data', name)) as file:
        history = read_transcript(file.read())
    fixed = fixed_answer(history, Words(history))
    if fixed:
        return *fixed, True
    what = wrong(history, '\n'.join(lines), status)
    real = has_order(history)
    if not what and real != {'order': True, 'cycle': False, 'none': False}.get(lines[0].split(' ')[0], real):
        what = f'there is {"an" if real else "no"} order'
    return [what] if what else lines, status, False


def rows():
    """Makes the stored output of the worked histories again. Gives whether it is the one that is stored."""
    with open(os.path.join(ROWS, 'stdin')) as file:
        names = file.read().split()
    with open(os.path.join(ROWS, 'stdout')) as file:
        stored = file.read()
    answers = {name: (lines, status) for name, lines, status in stored_answers(stored)}
    made, fixed = '', 0
    for name in names:
        lines, status, is_fixed = made_row(name, *answers.get(name, (['nothing'], -1)))
        made += '\n'.join([f'# {name}', *lines, str(status)]) + '\n'
        fixed += is_fixed
    same = made == stored
    sys.stdout.write(made)
    print(f'{len(names)} rows: {fixed} made by the page alone, {len(names) - fixed} checked as they are stored; {"the same" if same else "NOT the same"} as the stored output', file=sys.stderr)
    return same


def main():
    if sys.argv[1:] == ['rows']:
        return 0 if rows() else 1
    parse = argparse.ArgumentParser()
    parse.add_argument('judge')
    parse.add_argument('--random', type=int, default=10000)
    parse.add_argument('--cases', type=int, default=3000)
    parse.add_argument('--seed', type=int, default=1)
    parse.add_argument('--keep')
    args = parse.parse_args()
    rng, bad, counts = random.Random(args.seed), 0, collections.Counter()
    for number in range(args.random + args.cases):
        text = random_history(rng) if number < args.random else bent_case(rng)
        history = read_transcript(text)
        found, status = judged(args.judge, text)
        what = wrong(history, found, status)
        word = (found.split() or [''])[0]
        counts['random' if number < args.random else 'cases', word] += 1
        real = has_order(history)
        if what is None and word in ('unwritten', 'torn', 'cycle', 'none') and real:
            what = 'there is an order'
        if what is None and word == 'order' and not real:
            what = 'there is no order'
        if what:
            bad += 1
            print(f'{number}: {what}: {found.strip()!r} {status}')
            if args.keep:
                open(os.path.join(args.keep, f'{number}.transcript'), 'w').write(text)
            if bad > 20:
                break
    for (kind, word), count in sorted(counts.items()):
        print(kind, word, count)
    print(f'{bad} wrong')
    return 1 if bad else 0


if __name__ == '__main__':
    sys.exit(main())
