"""Clients that run random transactions over two databases, their history, and what judges it."""
import collections
import glob
import os
import random
import shutil
import subprocess
import threading
import time

from databases import MariaDB, PostgreSQL, SQLite
from servers import servers
from spelling import spell_key, spell_value
from twin import Manager, Refused, in_words

LEVELS = {'SER': 'serializable', 'RR': 'repeatable read', 'RC': 'read committed', 'RU': 'read uncommitted', 'kept': 'kept'}


def open_databases(folder, pairing):
    """The two databases of a pairing, as `SER+SER`, or `RC+RC lock lock` where their kinds are named. The second one is SQLite at the level `kept`."""
    levels, *kinds = pairing.split(' ')
    first, second = (LEVELS[level] for level in levels.split('+'))
    kinds = kinds or [None, None]
    postgresql, mariadb = servers(folder)
    return [PostgreSQL(first, kinds[0], **postgresql.where()),
            SQLite(second, kinds[1], file=f'{folder}/sqlite') if second == 'kept' else MariaDB(second, kinds[1], **mariadb.where())]


def clean(databases, folder):
    """Ends all branches in doubt, lays the tables anew, and forgets the twin's directories."""
    for database in databases:
        for name in database.in_doubt():
            database.end_later(name, False)
        database.make_table()
    for old in glob.glob(f'{folder}/logs.*'):
        shutil.rmtree(old) if os.path.isdir(old) else os.remove(old)


def spelled_rows(databases):
    """The rows of the databases, as `records` writes them."""
    return [f'm{place + 1} {spell_key(key)} {spell_value(value)}' for place, database in enumerate(databases) for key, value in database.rows()]


def records(program, directory):
    return subprocess.run([program, 'records', directory], stdout=subprocess.PIPE, check=True).stdout.decode().splitlines()


class History:
    """What committed transactions asked, and what they were answered by the databases alone."""

    def __init__(self):
        self.turn, self.done, self.order = threading.Lock(), {}, []

    def decided(self, number, operations):
        with self.turn:
            self.done[number] = operations
            self.order.append(number)

    def transcript(self, order, kinds):
        """A transcript for the judge: each transaction's operations, and then its decision, in this order."""
        lines, event = [], 0

        def group(told, reply, logs=()):
            nonlocal event
            event += 1
            lines.extend([f'{event} event {told}', *(f'{event} log {log}' for log in logs), f'{event} reply {reply}'])

        group(f'members {" ".join(kinds)} coords 1', 'open', [f'm{place + 1} header 1' for place in range(len(kinds))] + ['c1 header 1'])
        for number in order:
            group(f'begin {number} c1', 'begun')
            for told, answer in self.done[number]:
                group(told, answer)
            group(f'commit {number}', 'committed', [f'c1 commit {number}'])
        return ''.join(f'{line}\n' for line in lines)


def judge(program, text, *words):
    """The judge's first line on a transcript."""
    return subprocess.run([program, *words], input=text.encode(), stdout=subprocess.PIPE).stdout.decode().split('\n')[0]


def has_no_order(said):
    """Whether the judge has shown that the transactions run serially in no order."""
    return said.split(' ')[0] in ('cycle', 'none', 'unwritten', 'torn')


class Load:
    """Clients of one manager, each with random transactions of two to five operations, till a time or a number of commits is over."""

    def __init__(self, manager, history, keys, threads, seconds, commits=None, writes=40, scans=15, erases=0, pause=0.0):
        self.manager, self.history, self.keys, self.threads, self.commits = manager, history, [f'k{place:02}' for place in range(keys)], threads, commits
        self.writes, self.scans, self.erases, self.pause, self.counts, self.times = writes, scans, erases, pause, collections.Counter(), []
        self.seconds = seconds

    def lay_rows(self):
        """One transaction that writes each key at each database."""
        self.attempt(self.manager.begin(), [('write', member, key, f'0.{member}.{key}') for member in self.manager.databases for key in self.keys])

    def run(self):
        start = time.time()
        self.end = start + self.seconds
        clients = [threading.Thread(target=self.client, args=(f'{seed} {start}',), daemon=True) for seed in range(self.threads)]
        for client in clients:
            client.start()
        for client in clients:
            client.join()
        self.took = time.time() - start

    def is_over(self):
        return time.time() > self.end or self.commits is not None and self.counts['committed'] >= self.commits

    def client(self, seed):
        rnd = random.Random(seed)
        while not self.is_over():
            start = time.perf_counter()
            try:
                transaction = self.manager.begin()
                self.attempt(transaction, [self.operation(rnd, transaction.number, place) for place in range(rnd.randint(2, 5))], rnd)
                self.counts['committed'] += 1
                self.times.append(time.perf_counter() - start)
            except Refused:
                self.counts['refused'] += 1

    def operation(self, rnd, number, place):
        member, chance, key = rnd.choice(sorted(self.manager.databases)), rnd.randrange(100), rnd.choice(self.keys)
        if chance < self.writes:
            return 'write', member, key, f'{number}.{place}'
        if chance < self.writes + self.erases:
            return 'erase', member, key
        if chance < self.writes + self.erases + self.scans:
            return 'scan', member, *sorted((key, rnd.choice(self.keys)))
        return 'read', member, key

    def attempt(self, transaction, operations, rnd=None):
        told = []
        for word, member, *operands in operations:
            found = transaction.operate(word, member, *operands)
            spelled = [spell_key(operands[0]), spell_value(operands[1])] if word == 'write' else [spell_key(key) for key in operands]
            told.append((' '.join([word, str(transaction.number), member, *spelled]), ' '.join(in_words(word, found))))
            if rnd and self.pause:
                time.sleep(rnd.random() * self.pause)
        transaction.commit(lambda number: self.history.decided(number, told))


def play(folder, programs, pairing, **how):
    """One run of clients over clean databases. Gives what was counted and how it was judged."""
    return play_with_history(folder, programs, pairing, **how)[0]


def play_with_history(folder, programs, pairing, make=Manager, is_plain=False, seconds=10.0, transcript=True, logs=None, **load):
    """The same, with the history. make: the manager; is_plain: two-phase commit alone; logs: where the twin's directory lies; the rest is the load's."""
    co_cli, co_judge = programs
    databases = open_databases(folder, pairing)
    clean(databases, folder)
    manager = make(databases, None if is_plain else co_cli, logs or f'{folder}/logs', transcript=f'{folder}/transcript' if transcript else None)
    history = History()
    clients = Load(manager, history, seconds=seconds, **load)
    clients.lay_rows()
    clients.run()
    kinds, times = [database.kind for database in databases], sorted(clients.times)
    told = {'pairing': pairing, 'committed': clients.counts['committed'], 'refused': clients.counts['refused'], 'a second': round(clients.counts['committed'] / clients.took, 1),
            'median ms': round(times[len(times) // 2] * 1000, 1) if times else None, 'counts': dict(sorted(manager.counts.items())),
            'decisions': judge(co_judge, history.transcript(history.order, kinds))}
    if not clients.erases:
        told['any order'] = judge(co_judge, history.transcript(history.order, kinds), 'order')
    if not is_plain:
        told['exit'] = manager.program.close()
        if transcript:
            with open(f'{folder}/transcript') as file:
                told['twin'] = judge(co_judge, file.read())
        told['rows are records'] = records(co_cli, manager.directory()) == spelled_rows(databases)
    told['in doubt'] = sum(len(database.in_doubt()) for database in databases)
    for database in databases:
        database.close()
    return told, history


NOT_SERIAL, TWIN_DIFFERS, NOT_THE_RECORDS, IN_DOUBT = 'the history is not serial', 'the twin committed others', 'the rows are not the records', 'branches stay in doubt'


def failed(checks):
    """What is wrong: the names of the checks that do not hold."""
    return {name for name, holds in checks.items() if not holds}


def faults(told):
    """What is wrong with a run under the rule."""
    return failed({NOT_SERIAL: told['decisions'].startswith('serial'), TWIN_DIFFERS: told['twin'] == told['decisions'], NOT_THE_RECORDS: told['rows are records'],
                   IN_DOUBT: not told['in doubt'], 'the program ended by a fault': told['exit'] == 0})
