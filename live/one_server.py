#!/usr/bin/python3
"""one_server.py FOLDER [COMMITS] [heard]: transactions that PostgreSQL alone commits at SERIALIZABLE under eight clients, as a transcript for `co_judge order`.

It is the server of live/setup.sh FOLDER. Each value is written once. Their order is that in which they asked for COMMIT. It has the versions of each row
right, for who writes a row holds it till then; it is still a guess, for PostgreSQL may put who reads elsewhere. With the word `heard` it is the order in which
clients heard of their commits: a worse guess, since a client may hear late. The transcript goes to standard output.
"""
import itertools
import sys

import psycopg2

import work
from databases import PostgreSQL
from servers import servers
from twin import Refused

REFUSALS = (psycopg2.extensions.TransactionRollbackError, psycopg2.errors.LockNotAvailable)  # any other fault ends its client


class OneServer:
    """What clients take for a manager: one database, whose own transactions they are."""

    def __init__(self, database):
        self.databases, self.numbers, self.places, self.asked = {'m1': database}, itertools.count(1), itertools.count(), {}

    def begin(self):
        return Transaction(self, next(self.numbers))


class Transaction:
    def __init__(self, server, number):
        self.server, self.number = server, number
        self.branch = server.databases['m1'].begin(f't{number}')

    def operate(self, word, member, *operands):
        return self.attempt(self.branch.do, word, *operands)

    def commit(self, decided):
        self.server.asked[self.number] = next(self.server.places)
        self.attempt(self.branch.run, 'end')
        decided(self.number)
        self.branch.database.idle.append(self.branch.connection)

    def attempt(self, step, *operands):
        try:
            return step(*operands)
        except REFUSALS as fault:
            self.branch.end(False)
            raise Refused('database') from fault


def record(folder, commits=100_000, is_heard=False):
    database = PostgreSQL('serializable', **servers(folder)[0].where())
    database.make_table()
    server, history = OneServer(database), work.History()
    clients = work.Load(server, history, keys=200, threads=8, seconds=3600, commits=commits, scans=5)
    clients.lay_rows()
    clients.run()
    database.close()
    print(f'{len(history.order)} committed, {clients.counts["refused"]} refused, {clients.took:.0f} seconds', file=sys.stderr)
    return history.transcript(history.order if is_heard else sorted(history.order, key=server.asked.get), ['mv'])


if __name__ == '__main__':
    sys.stdout.write(record(sys.argv[1], *map(int, sys.argv[2:3]), is_heard=sys.argv[3:] == ['heard']))
