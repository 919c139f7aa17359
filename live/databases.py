"""Databases that take part: PostgreSQL by PREPARE TRANSACTION, MariaDB by XA, SQLite by a table of its own.

Each has one table `kv(k, v)`. A database is a member of the kind that its level of isolation answers like, or of the kind that it is given.
"""
import contextlib
import fcntl
import os
import sqlite3
import time

import psycopg2
import pymysql

MANAGERS_LOCK = 7_402_011


class Branch:
    """What one transaction does at one database, over one connection."""

    def __init__(self, database, connection, name):
        self.database, self.connection, self.name, self.is_prepared, self.own = database, connection, name, False, {}

    def run(self, step, *operands):
        cursor, rows = self.connection.cursor(), ()
        for text in self.database.TEXTS[step].split(';'):
            cursor.execute(text.strip().replace('{name}', self.name).replace('{level}', self.database.level), operands)
            if cursor.description:
                rows = cursor.fetchall()
        return rows

    def do(self, word, *operands):
        """Does an operation. Gives the value, the rows, or None."""
        rows = self.run(word, *operands)
        if word == 'read':
            return rows[0][0] if rows else None
        return list(rows) if word == 'scan' else None

    def prepare(self):
        self.is_prepared = True  # where the answer is lost, it may be prepared
        self.run('prepare')

    def end(self, commit):
        try:
            self.run('commit' if commit else 'forget' if self.is_prepared else 'cancel')
            self.database.idle.append(self.connection)
        except self.database.Fault:
            with contextlib.suppress(self.database.Fault):
                self.connection.close()  # a branch that is not prepared ends with its connection
            if self.is_prepared:
                self.database.end_later(self.name, commit)


class Database:
    """level: of isolation. kind: of the member that it is, by default the one that this level answers like. where: for the driver."""

    Branch = Branch

    def __init__(self, level, kind=None, **where):
        self.level, self.kind, self.where, self.idle, self.lock, self.holder = level, kind or self.KINDS[level], where, [], None, None

    def begin(self, name):
        branch = self.Branch(self, self.idle.pop() if self.idle else self.connect(), name)
        try:
            branch.run('begin')
        except self.Fault:
            branch.connection.close()
            raise
        return branch

    def ask(self, text, *operands):
        connection = self.connect()
        try:
            cursor = connection.cursor()
            cursor.execute(text, operands)
            return cursor.fetchall() if cursor.description else []
        finally:
            connection.close()

    def in_doubt(self):
        """The names of prepared branches that are not ended."""
        names = [row[self.NAME] for row in self.ask(self.TEXTS['doubts'])]
        return [name.decode() if isinstance(name, bytes) else name for name in names]

    def rows(self):
        return list(self.ask('select k, v from kv order by k'))

    def exclude(self, patience=5.0):
        """Takes the lock that one living manager holds here. It goes with the session that took it."""
        self.holder, self.lock, end = None, self.connect(), time.time() + patience
        while not self.takes_lock():
            if time.time() > end:
                raise SystemExit(f'another manager is at {self.name()}')
            time.sleep(0.05)
        self.holder = self.own_session(self.lock)

    def holds_lock(self):
        """Whether the session that took the lock is still there: it answers, and is the same one."""
        try:
            return self.holder is not None and self.own_session(self.lock) == self.holder
        except self.Fault:
            return False

    def close(self):
        """Ends all connections of this one, and lets go of the lock."""
        for connection in [self.lock, *self.idle]:
            with contextlib.suppress(self.Fault, AttributeError):
                connection.close()
        self.idle, self.lock, self.holder = [], None, None

    def takes_lock(self):
        cursor = self.lock.cursor()
        cursor.execute(self.TEXTS['lock'], (MANAGERS_LOCK,))
        return cursor.fetchone()[0] in (True, 1)

    def fence(self):
        """Ends what sessions of a killed manager may still be doing here. Their user is the manager's alone, and the lock is held."""
        mine = self.own_session(self.lock)
        while True:
            others = [row[0] for row in self.ask(self.TEXTS['sessions']) if row[0] != mine]
            if not others:
                return
            for other in others:
                with contextlib.suppress(self.Fault):
                    self.ask(self.TEXTS['kill'] % other)
            time.sleep(0.01)

    def own_session(self, connection):
        cursor = connection.cursor()
        cursor.execute(self.TEXTS['session'])
        return cursor.fetchone()[0]

    def end_later(self, name, commit):
        """Ends a branch that is prepared and has no connection any more, as soon as the database is there."""
        while True:
            try:
                self.idle.clear()
                if name not in self.in_doubt():
                    return
                branch = self.Branch(self, self.connect(), name)
                branch.run('commit' if commit else 'forget')
                branch.connection.close()
            except self.Fault:
                time.sleep(0.1)


class PostgreSQL(Database):
    Fault, NAME = psycopg2.Error, 0
    KINDS = {'serializable': 'mv', 'repeatable read': 'mv', 'read committed': 'occ'}
    TEXTS = {
        'begin': 'begin isolation level {level}',
        'snapshot': 'select 1',
        'read': 'select v from kv where k = %s',
        'scan': 'select k, v from kv where k between %s and %s order by k',
        'write': 'insert into kv values (%s, %s) on conflict (k) do update set v = excluded.v',
        # it writes first: a snapshot that lacks the row would delete nothing, and say so to nobody
        'erase': "insert into kv values (%s, '') on conflict (k) do update set v = excluded.v; delete from kv where k = %s",
        'prepare': "prepare transaction '{name}'",
        'commit': "commit prepared '{name}'",
        'forget': "rollback prepared '{name}'",
        'cancel': 'rollback',
        'end': 'commit',
        'doubts': 'select gid from pg_prepared_xacts where database = current_database()',
        'lock': 'select pg_try_advisory_lock(%s)',
        'session': 'select pg_backend_pid()',
        'sessions': "select pid from pg_stat_activity where usename = current_user and backend_type = 'client backend' and pid <> pg_backend_pid()",
        'kill': 'select pg_terminate_backend(%d)',
    }

    def connect(self):
        connection = psycopg2.connect(**self.where)
        connection.autocommit = True
        connection.cursor().execute("set lock_timeout = '1s'")
        return connection

    def name(self):
        return f'PostgreSQL, {self.where["host"]}'

    def make_table(self):
        self.ask('drop table if exists kv')
        self.ask('create table kv(k text collate "C" primary key, v text)')


class MariaDB(Database):
    Fault, NAME = pymysql.MySQLError, 3
    KINDS = {'serializable': 'lock', 'repeatable read': 'mv', 'read committed': 'occ', 'read uncommitted': 'occ'}
    TEXTS = {
        'begin': "xa start '{name}'",
        'snapshot': "select v from kv where k = ''",
        'read': 'select v from kv where k = %s',
        'scan': 'select k, v from kv where k between %s and %s order by k',
        'write': 'insert into kv values (%s, %s) on duplicate key update v = values(v)',
        'erase': 'delete from kv where k = %s',
        'prepare': "xa end '{name}'; xa prepare '{name}'",
        'commit': "xa commit '{name}'",
        'forget': "xa rollback '{name}'",
        'cancel': "xa end '{name}'; xa rollback '{name}'",
        'doubts': 'xa recover',
        'lock': "select get_lock(concat('manager ', %s), 0)",
        'session': 'select connection_id()',
        'sessions': "select id from information_schema.processlist where user = substring_index(user(), '@', 1) and id <> connection_id()",
        'kill': 'kill %d',
    }

    def connect(self):
        connection = pymysql.connect(autocommit=True, **self.where)
        cursor = connection.cursor()
        cursor.execute(f'set session transaction isolation level {self.level}')
        cursor.execute('set session innodb_lock_wait_timeout = 1')
        return connection

    def name(self):
        return f'MariaDB, {self.where["unix_socket"]}'

    def make_table(self):
        self.ask('drop table if exists kv')
        self.ask('create table kv(k varchar(64) character set utf8mb4 collate utf8mb4_nopad_bin primary key, v text character set utf8mb4) engine = innodb')


class KeptBranch(Branch):
    """A branch at a database without two-phase commit. Its writes are kept here. To prepare lays them into a table of their own, and to commit moves them
    over, each in one transaction of the database."""

    def do(self, word, *operands):
        if word in ('write', 'erase'):
            self.own[operands[0]] = operands[1] if word == 'write' else None
            return None
        first, last = operands[0], operands[-1]
        rows = dict(self.connection.execute('select k, v from kv where k between ? and ?', (first, last)).fetchall())
        rows.update((key, value) for key, value in self.own.items() if first <= key <= last)
        if word == 'read':
            return rows.get(first)
        return sorted((key, value) for key, value in rows.items() if value is not None)

    def run(self, step, *operands):
        if step not in ('prepare', 'commit', 'forget'):
            return ()
        texts = self.database.TEXTS[step].split(';')
        self.connection.execute('begin immediate')
        if step == 'prepare':
            self.connection.executemany(texts[0], [(self.name, key, value) for key, value in self.own.items()])
        else:
            for text in texts:
                self.connection.execute(text, (self.name,))
        self.connection.execute('commit')
        return ()


class SQLite(Database):
    Branch, Fault, NAME = KeptBranch, sqlite3.Error, 0
    KINDS = {'kept': 'occ'}
    TEXTS = {
        'prepare': 'insert into pending values (?, ?, ?)',
        'commit': 'delete from kv where k in (select k from pending where name = ?); insert into kv select k, v from pending where name = ? and v is not null; delete from pending where name = ?',
        'forget': 'delete from pending where name = ?',
        'doubts': 'select distinct name from pending',
    }

    def connect(self):
        connection = sqlite3.connect(self.where['file'], timeout=5, isolation_level=None, check_same_thread=False)
        connection.executescript('pragma journal_mode = wal; pragma synchronous = full; create table if not exists pending(name, k, v); create table if not exists kv(k primary key, v)')
        return connection

    def name(self):
        return f'SQLite, {self.where["file"]}'

    def takes_lock(self):
        self.lock = open(self.where['file'] + '.manager', 'w')
        try:
            fcntl.flock(self.lock, fcntl.LOCK_EX | fcntl.LOCK_NB)
        except BlockingIOError:
            return False
        return True

    def own_session(self, lock):
        """A lock of a file goes with the process alone."""
        return os.getpid()

    def fence(self):
        """A killed manager has no session left: its statements were its own."""

    def make_table(self):
        self.ask('delete from kv')
        self.ask('delete from pending')
