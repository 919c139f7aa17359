"""What recorders share: servers of the machine's packages, sessions over their own clients, and a transcript.

A server has a directory of its own and listens on a socket in it alone. A session is one client process: a line of SQL goes in, its rows come out.
Nothing here is trusted by the judge: it judges the transcript and nothing else.
"""
import shutil
import subprocess
import tempfile

from servers import MariaDBServer, PostgreSQLServer

END = 'end-of-answer'


class Session:
    """One client process. A fault of the database is raised as RuntimeError."""

    def __init__(self, words, mark):
        self.client, self.mark = subprocess.Popen(words, stdin=subprocess.PIPE, stdout=subprocess.PIPE, stderr=subprocess.STDOUT, text=True, bufsize=1), mark

    def ask(self, sql):
        self.client.stdin.write(f'{sql};\n{self.mark}\n')
        self.client.stdin.flush()
        lines = []
        for line in self.client.stdout:
            if line.strip() == END:
                break
            lines.append(line.rstrip('\n'))
        if any('ERROR' in line for line in lines):
            raise RuntimeError(' '.join(lines))
        return [line for line in lines if line]

    def close(self):
        self.client.stdin.close()
        self.client.wait()


class PostgreSQL(PostgreSQLServer):
    """A server at SERIALIZABLE that takes prepared transactions."""

    kind = 'mv'

    def __init__(self):
        super().__init__(tempfile.mkdtemp(prefix='live-'), superuser='judge')
        self.start('serializable')
        self.session().ask('create table records(k text primary key, v text)')

    def close(self):
        self.stop()
        shutil.rmtree(self.place, ignore_errors=True)

    def session(self):
        return Session(['psql', '-X', '-q', '-A', '-t', '-h', self.place, '-U', 'judge', '-d', 'postgres'], f'\\echo {END}')

    def begin(self, session, name):
        session.ask('begin')

    def write(self, session, key, value):
        session.ask(f"insert into records values ('{key}', '{value}') on conflict (k) do update set v = excluded.v")

    def prepare(self, session, name):
        session.ask(f"prepare transaction '{name}'")

    def commit(self, session, name):
        session.ask(f"commit prepared '{name}'")


class MariaDB(MariaDBServer):
    """A server at SERIALIZABLE whose transactions are XA branches."""

    kind = 'lock'

    def __init__(self):
        super().__init__(tempfile.mkdtemp(prefix='live-'))
        self.start('SERIALIZABLE')
        first = self.session()
        first.ask('create table federation.records(k varchar(32) primary key, v varchar(4096)) engine=innodb')
        first.close()

    def close(self):
        self.stop()
        shutil.rmtree(self.place, ignore_errors=True)

    def session(self):
        return Session([*self.client(), '-n', '-N', '-B', '--force'], f"select '{END}';")

    def begin(self, session, name):
        session.ask('use federation')
        session.ask(f"xa start '{name}'")

    def write(self, session, key, value):
        session.ask(f"insert into records values ('{key}', '{value}') on duplicate key update v = '{value}'")

    def prepare(self, session, name):
        session.ask(f"xa end '{name}'")
        session.ask(f"xa prepare '{name}'")

    def commit(self, session, name):
        session.ask(f"xa commit '{name}'")


class Recorder:
    """Transactions over servers, member 1 the first of them, and the transcript of what they were answered."""

    def __init__(self, servers):
        self.servers, self.number, self.sessions = servers, 1, {}
        self.lines = [' '.join(['1 event members', *(server.kind for server in servers), 'coords 1'])] + [f'1 log m{m + 1} header 1' for m in range(len(servers))]
        self.lines += ['1 log c1 header 1', '1 reply open']

    def event(self, what, *told):
        self.number += 1
        self.lines += [f'{self.number} event {what}', *(f'{self.number} {each}' for each in told)]

    def begin(self, txn):
        self.event(f'begin {txn} c1', 'reply begun')

    def at(self, txn, member):
        """The session of a transaction at a member, which begins with its first operation there."""
        if (txn, member) not in self.sessions:
            session = self.servers[member - 1].session()
            self.servers[member - 1].begin(session, f't{txn}')
            self.sessions[txn, member] = session
        return self.sessions[txn, member]

    def read(self, txn, member, key):
        rows = self.at(txn, member).ask(f"select v from records where k = '{key}'")
        self.event(f'read {txn} m{member} {key}', f'reply got {rows[0]}' if rows else 'reply missing')

    def write(self, txn, member, key, value):
        self.servers[member - 1].write(self.at(txn, member), key, value)
        self.event(f'write {txn} m{member} {key} {value}', 'reply done')

    def commit(self, txn):
        """Two-phase commit: every branch is prepared, then the decision is noted, then every branch commits."""
        branches = [(self.servers[member - 1], session) for (t, member), session in self.sessions.items() if t == txn]
        for server, session in branches:
            server.prepare(session, f't{txn}')
        self.event(f'commit {txn}', f'log c1 commit {txn}', 'reply committed')
        for server, session in branches:
            server.commit(session, f't{txn}')

    def text(self):
        return ''.join(line + '\n' for line in self.lines)
