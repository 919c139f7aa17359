#!/usr/bin/python3
"""breaks.py FOLDER CO_CLI CO_JUDGE: what a user has to promise, and what happens where a promise is broken. Right where each case ends as it is listed."""
import subprocess
import sys
import threading
import time

import work
from dbkill import is_free
from spelling import spell_key
from twin import Manager, Refused


class Case:
    """A manager over clean databases, in which a and b are 0 at both."""

    def __init__(self, folder, programs, pairing='RR+RC'):
        self.programs, self.folder = programs, folder
        self.databases = work.open_databases(folder, pairing)
        work.clean(self.databases, folder)
        self.manager = Manager(self.databases, programs[0], f'{folder}/logs', transcript=f'{folder}/transcript')
        first = self.manager.begin()
        for member in self.manager.databases:
            for key in 'ab':
                first.write(member, key, '0')
        first.commit()

    def close(self):
        self.manager.program.close()
        for database in self.databases:
            database.close()

    def judged(self):
        with open(f'{self.folder}/transcript') as file:
            return work.judge(self.programs[1], file.read())


def attempt(do, *operands):
    """What came of it: the answer, or why it was refused."""
    try:
        return do(*operands)
    except Refused as why:
        return f'refused: {why}'


def past_the_manager(case):
    """Somebody writes past the manager: the next read of that row is refused, and a write over it heals it."""
    case.databases[0].ask("update kv set v = '7' where k = 'a'")
    reader, writer = case.manager.begin(), case.manager.begin()
    yield attempt(reader.read, 'm1', 'a'), 'refused: disagree'
    writer.write('m1', 'a', '8')
    writer.commit()
    yield case.manager.begin().read('m1', 'a'), '8'


def rows_of_before(case):
    """A row that was there before the manager is not known to the twin: who reads it is refused."""
    case.databases[1].ask("insert into kv values ('old', '1')")
    yield attempt(case.manager.begin().read, 'm2', 'old'), 'refused: disagree'
    yield attempt(case.manager.begin().scan, 'm2', 'a', 'z'), 'refused: disagree'


def untold_reads(case):
    """b := a + 1 beside a := b + 1, each read past the manager and told as a write alone: both commit, and no order gives 1 and 1. The judge cannot know."""
    one, other = case.manager.begin(), case.manager.begin()
    read = [case.databases[0].ask(f"select v from kv where k = '{key}'")[0][0] for key in 'ab']
    one.write('m1', 'b', str(int(read[0]) + 1))
    other.write('m1', 'a', str(int(read[1]) + 1))
    one.commit()
    other.commit()
    yield case.databases[0].rows(), [('a', '1'), ('b', '1')]


def told_reads(case):
    """The same, with the reads told: one of the two is refused."""
    one, other = case.manager.begin(), case.manager.begin()
    one.write('m1', 'b', str(int(one.read('m1', 'a')) + 1))
    other.write('m1', 'a', str(int(other.read('m1', 'b')) + 1))
    ends = []
    clients = [threading.Thread(target=lambda each=each: ends.append(attempt(each.commit))) for each in (one, other)]
    for client in clients:
        client.start()
    for client in clients:
        client.join()
    yield sum(end is None for end in ends), 1
    yield case.judged().startswith('serial'), True


def any_letters(case):
    """Keys and values of any letters end no program: they are spelled before they are told. A key that is too long is refused by name."""
    odd = case.manager.begin()
    long = '\n\x01 any value ' * 100
    odd.write('m1', 'a b\n- é', long)
    yield odd.read('m1', 'a b\n- é') == long, True
    try:
        odd.read('m1', 'x' * 33)
    except ValueError as fault:
        yield str(fault).startswith('a key has 1 to 32 letters'), True
    odd.commit()
    yield [key for key, _ in case.databases[0].rows()], sorted(['a', 'b', 'a b\n- é'], key=spell_key)


def one_directory(case):
    """A directory that another program holds is a device fault at m1.a, with status 6, as a broken disk is."""
    other = subprocess.run([case.programs[0], 'run', '--resume', case.manager.directory()], input=b'members mv occ coords 1\n', capture_output=True)
    yield (other.returncode, other.stderr.decode().split('\n')[0]), (6, 'device fault: m1.a')


def lose_lock(database):
    """Ends the session that holds the manager's lock, as a database does with one that is idle for long."""
    database.ask(database.TEXTS['kill'] % database.holder)
    time.sleep(0.2)  # it ends a moment later


def a_lost_lock(case):
    """The lock of one database is lost: it is taken anew before the next branch there, and another manager stays out."""
    first, second = case.databases
    for database, other in ((first, second), (second, first)):
        lose_lock(database)
        yield (database.holds_lock(), other.holds_lock()), (False, True)
        writer = case.manager.begin()
        writer.write('m1', 'a', '1')
        writer.write('m2', 'a', '1')
        writer.commit()
        yield (database.holds_lock(), [is_free(each) for each in work.open_databases(case.folder, 'RR+RC')]), (True, [False, False])


def all_locks_lost(case):
    """All are lost at once: another manager may have been here, so this one begins no branch any more."""
    for database in case.databases:
        lose_lock(database)
    for member in case.manager.databases:
        try:
            yield case.manager.begin().read(member, 'a'), 'an end'
        except SystemExit as end:
            yield str(end), 'no lock stands any more, so another manager may have been here'


CASES = [past_the_manager, rows_of_before, untold_reads, told_reads, any_letters, one_directory, a_lost_lock, all_locks_lost]


def run(folder, programs):
    right = True
    for each in CASES:
        case = Case(folder, programs, 'RC+RC' if each is untold_reads else 'RR+RC')
        for came, expected in each(case):
            good = came == expected
            right &= good
            print(f'{each.__name__}: {came!r}{"" if good else f", and not {expected!r}"}')
        case.close()
    return right


if __name__ == '__main__':
    sys.exit(not run(sys.argv[1], sys.argv[2:4]))
