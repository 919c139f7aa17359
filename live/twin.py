"""A transaction manager for databases as they are, which commits them together in the order of a proved program's decisions.

The program (`co_cli run DIR`, over a pipe) is a twin of the databases: it is told each operation, and answers what a member of the kind named for
that database answers. Four rules join the two; each is a function below, and nothing else decides what a client hears or a database keeps:

    agreed               a client is told only what twin and database both said
    prepare_and_vote     a database prepares between its member's yes and the delivery of that vote
    carry_out            a database commits only what is decided, and the client hears of it afterwards
    end_in_doubt         after a kill each branch in doubt is ended by the coordinator's word

One manager lives at a time: it holds a lock at each database (`Database.exclude`), for the lock of the twin's directory cannot exclude one with another
directory. No level of isolation is trusted: a database that answers otherwise than its twin has that transaction refused.
"""
import contextlib
import os
import shutil
import subprocess
import threading

from program import Program, Turns
from spelling import spell_key, spell_value

COORDINATOR = 'c1'


class Refused(Exception):
    """The transaction was ended, at each database and in the twin; it may be tried again."""


class Manager:
    """Transactions over databases, which are m1, m2 and so on.

    program: the path of co_cli, or None for two-phase commit alone. folder: where the twin's directories and the manager's file lie. patience: seconds for which a
    transaction waits for another one. lines: after so many the program is begun anew; numbers: of so many transactions a directory is left for a new one.
    """

    def __init__(self, databases, program=None, folder=None, resume=False, transcript=None, patience=1.0, lines=200_000, numbers=60_000):
        self.databases = {f'm{place + 1}': database for place, database in enumerate(databases)}
        self.path, self.folder, self.transcript, self.patience, self.most_lines, self.most_numbers = program, folder, transcript, patience, lines, numbers
        self.moved, self.counts, self.open, self.closing, self.alone = threading.Condition(), {}, set(), False, threading.Lock()
        self.stage, self.writers, self.waits, self.turns = {}, {}, {}, {m: Turns() for m in self.databases}
        for database in databases:
            self.exclude(database)
        # numbers from `session` to `limit` are on file, and may be of transactions that an earlier manager left open
        self.session, self.next, self.part, self.first = self.read_file() if resume else (1, 1, 0, 1)
        earlier, self.session, self.limit = self.session, self.next, self.next
        self.program = None
        if program:
            self.start_program(resume)
        if resume:
            for member, database in self.databases.items():
                database.fence()
                doubts = set(database.in_doubt())
                for number in sorted({int(name[1:]) for name in doubts} | set(range(earlier, self.session))):
                    self.end_in_doubt(number, member, doubts)

    def exclude(self, database):
        """Keeps other managers out of a database before each branch there, for a lock goes with its session. One that is gone is taken anew while another one
        stands, since a manager who comes in needs them all. Where none stands, one may have been here, and this manager ends."""
        with self.alone:
            if not database.holds_lock():
                if database.lock and not any(other.holds_lock() for other in self.databases.values()):
                    raise SystemExit('no lock stands any more, so another manager may have been here')
                database.exclude()

    # -- the four rules --

    def agreed(self, told, did):
        """A client is told only what twin and database both said. So what clients of committed transactions were told is the twin's transcript, which is serial by
        proof, whatever the database did; one that answers otherwise has the transaction refused."""
        return told == did

    def prepare_and_vote(self, transaction, member, vote):
        """A database prepares between its member's yes and the delivery of that vote: before it, a decision could find nothing prepared; without the yes, what is
        prepared might have to wait for a transaction that waits for it."""
        transaction.branches[member].prepare()
        transaction.votes += vote

    def carry_out(self, transaction, decisions, decided):
        """A database commits only what is decided, by the twin's word, and the client hears of it afterwards: an acknowledged commit is in the twin's log and in each
        database. The coordinator forgets when each has it (`ack`)."""
        decided(transaction.number)
        for decision in decisions:
            _, number, _, member, word = decision.split(' ')
            branch = transaction.branches.pop(member)
            # a lock is let go by the database first: who waits for it at the member then finds it free there too. Else nobody reads between the two
            first = word == 'commit' and branch.database.kind == 'lock'
            if first:
                branch.end(True)
            with self.turns[member].on(1) if word == 'commit' and not first else contextlib.nullcontext():
                answer, acks = self.program.tell(f'deliver {decision}')
                if not first:
                    branch.end(answer[0] == 'installed')
            self.come_to(transaction.number, member, None)
            for ack in acks:
                self.program.tell(f'deliver {ack}')

    def end_in_doubt(self, number, member, doubts):
        """After a kill each branch in doubt is ended by the coordinator's word: the member asks, and of what the coordinator does not know it says abort. Each number
        that may be open is asked about, since a resumed run tells nothing of what stands in its logs."""
        name, tell = f't{number}', self.program.tell
        answer, messages = tell(f'ask {number} {member}')
        if answer == ['asking']:
            _, messages = tell(f'deliver {messages[0]}')
            answer, messages = tell(f'deliver {messages[0]}')
            self.count(f'ended in the twin: {answer[0]}')
        elif answer == ['already']:
            again = tell(f'resend {number} {COORDINATOR}')[1]
            messages = [tell(f'deliver {decision}')[1][0] for decision in again if decision.split(' ')[3] == member]
        if name in doubts:
            self.databases[member].end_later(name, answer[0] in ('installed', 'already'))
            self.count(f'ended at a database: {answer[0]}')
        for ack in messages:
            tell(f'deliver {ack}')

    # -- the program, begun and begun anew --

    def start_program(self, resume):
        self.program = Program(self.path, self.directory(), resume, self.transcript)
        kinds = ' '.join(database.kind for database in self.databases.values())
        answer, _ = self.program.tell(f'members {kinds} coords 1')
        if answer != ['open']:
            raise SystemExit(f'the program did not open {self.directory()}: {answer}')

    def directory(self):
        return f'{self.folder}.{self.part}'

    def read_file(self):
        with open(f'{self.folder}.next') as file:
            return [int(word) for word in file.read().split()]

    def write_file(self):
        with open(f'{self.folder}.next~', 'w') as file:
            file.write(f'{self.session} {self.limit} {self.part} {self.first}')
            file.flush()
            os.fsync(file.fileno())
        os.replace(f'{self.folder}.next~', f'{self.folder}.next')

    def renew(self):
        """Once no transaction is open, ends the program and goes on with another: over its logs, since a run has a limit of lines; or over a new directory that
        begins with its records, since a directory has a limit of transactions."""
        self.closing = True
        self.moved.wait_for(lambda: not self.open)
        code = self.program.close()
        if code:
            raise SystemExit(f'the program ended with {code}')
        if self.next - self.first < self.most_numbers:
            self.start_program(True)
            for node in [*self.databases, COORDINATOR] * 2:
                self.program.tell(f'checkpoint {node}')  # the first one closes the spare file, the second one fills it
            self.count('renewed')
        else:
            self.move_on()
        self.closing = False
        self.moved.notify_all()

    def move_on(self):
        old = self.directory()
        listed = subprocess.run([self.path, 'records', old], stdout=subprocess.PIPE, check=True).stdout.decode()
        rows = [row.split(' ') for row in listed.splitlines()]
        self.part, self.first = self.part + 1, self.next
        shutil.rmtree(self.directory(), ignore_errors=True)
        self.start_program(False)
        for member in self.databases:
            mine = [row for row in rows if row[0] == member]
            for place in range(0, len(mine), 1000):
                self.program.tell(f'local {self.next} {member}')
                for _, key, value in mine[place:place + 1000]:
                    self.program.tell(f'write {self.next} {member} {key} {value}')
                self.program.tell(f'commit {self.next}')
                self.next += 1
        self.session = self.limit = self.next
        self.write_file()  # from here on the new directory counts
        shutil.rmtree(old)
        self.count('moved to a new directory')

    # -- transactions --

    def begin(self):
        with self.moved:
            if self.program and self.program.lines > self.most_lines and not self.closing:
                self.renew()
            self.moved.wait_for(lambda: not self.closing)
            number, self.next = self.next, self.next + 1
            if number >= self.limit:  # the numbers that may be in use are on file before one of them is
                self.limit += 200
                if self.folder:
                    self.write_file()
            self.open.add(number)
        return Transaction(self, number)

    def count(self, what, by=1):
        self.counts[what] = self.counts.get(what, 0) + by

    def come_to(self, number, member, stage):
        """The transaction has come to another stage at the member: active, voted, or None where it is gone."""
        with self.moved:
            self.stage.pop((number, member), None)
            if stage:
                self.stage[number, member] = stage
            else:
                for key in [key for key, writer in self.writers.items() if writer == number and key[0] == member]:
                    del self.writers[key]
            self.moved.notify_all()

    def wait_for(self, number, member, other, is_over=None):
        """Waits until the other transaction, which is in the way at the member, has come further. Refuses this one where it waits for itself, or too long."""
        self.count('waits')
        # a program that ended has forgotten aborts that were in no log yet, so its follower may have votes of transactions that are gone
        if not is_over and (other, member) not in self.stage:
            return self.end_in_doubt(other, member, ())
        with self.moved:
            was, self.waits[number], place = self.stage.get((other, member)), other, other
            try:
                while place in self.waits:
                    place = self.waits[place]
                    if place == number:
                        raise Refused('cycle')
                if not self.moved.wait_for(is_over or (lambda: self.stage.get((other, member)) != was), self.patience):
                    raise Refused('patience')
            finally:
                del self.waits[number]

    def claim(self, number, member, key):
        """Lets one open writer a key through, so that a wait for a lock of the database is seen here, and a cycle with it."""
        while True:
            with self.moved:
                writer = self.writers.setdefault((member, key), number)
            if writer == number:
                return
            self.wait_for(number, member, writer, lambda: self.writers.get((member, key)) != writer)


class Transaction:
    """One transaction of one client. Its operations give what the database answered; `Refused` ends it."""

    def __init__(self, manager, number):
        self.manager, self.number, self.branches, self.votes, self.decisions = manager, number, {}, [], []
        if manager.program and manager.program.tell(f'begin {number} {COORDINATOR}')[0] != ['begun']:
            self.close()
            raise Refused('number')

    def read(self, member, key):
        """The value of the key, or None."""
        return self.operate('read', member, key)

    def scan(self, member, first, last):
        """The keys from first to last, with their values."""
        return self.operate('scan', member, first, last)

    def write(self, member, key, value):
        self.operate('write', member, key, value)

    def erase(self, member, key):
        self.operate('erase', member, key)

    def operate(self, word, member, *operands):
        database = self.manager.databases[member]
        try:
            return self.at_both(word, member, database, operands)
        except database.Fault as fault:
            self.refuse('database', fault)
        except Refused as why:
            self.refuse(str(why), why)

    def at_both(self, word, member, database, operands):
        manager, is_first = self.manager, member not in self.branches
        keys = operands[:1] if word == 'write' else operands
        spelled = [spell_key(key) for key in keys] + [spell_value(value) for value in operands[1:] if word == 'write']
        if is_first:
            manager.exclude(database)
            self.branches[member] = database.begin(f't{self.number}')
            manager.come_to(self.number, member, 'active')
        branch = self.branches[member]
        if not manager.program:
            return branch.do(word, *operands)
        if word in ('write', 'erase'):
            manager.claim(self.number, member, spelled[0])
        line = ' '.join([word, str(self.number), member, *spelled])
        snapshot, reads_now = database.kind == 'mv' and is_first, database.kind == 'occ' and word in ('read', 'scan')
        # what fixes the records that are seen does not fall between an install there and the commit at the database
        with manager.turns[member].on(0) if snapshot or reads_now else contextlib.nullcontext():
            if snapshot:
                branch.run('snapshot')
            answer, _ = manager.program.tell(line)
            found = branch.do(word, *operands) if reads_now else None
        while answer[0] == 'blocked':
            manager.wait_for(self.number, member, int(answer[1]))
            answer, _ = manager.program.tell(line)
        if answer[0] not in ('got', 'missing', 'rows', 'done'):
            raise Refused(answer[0])
        if not reads_now:
            found = branch.do(word, *operands)
        if not manager.agreed(answer, in_words(word, found)):
            raise Refused('disagree')
        return found

    def commit(self, decided=lambda number: None):
        """Two-phase commit. Returns when the decision is durable, and done at each database; else `Refused`. `decided` is called at the decision."""
        manager = self.manager
        try:
            if not manager.program:
                for branch in self.branches.values():
                    branch.prepare()
                decided(self.number)
                return self.close(True)
            _, messages = manager.program.tell(f'commit {self.number}')
            for prepare in messages:
                self.ask_for_vote(prepare)
            for vote in self.votes:
                _, self.decisions = manager.program.tell(f'deliver {vote}')
        except Refused as why:
            self.refuse(str(why), why)
        except tuple({database.Fault for database in manager.databases.values()}) as fault:
            self.refuse('database at prepare', fault)
        manager.carry_out(self, self.decisions, decided)
        self.close()

    def ask_for_vote(self, prepare):
        member = prepare.split(' ')[3]
        answer, vote = self.manager.program.tell(f'deliver {prepare}')
        while answer[0] == 'held':
            self.manager.wait_for(self.number, member, int(answer[1]))
            answer, vote = self.manager.program.tell(f'vote {self.number} {member}')
        if answer[0] != 'yes':
            raise Refused(' '.join(answer[:2]))
        self.manager.come_to(self.number, member, 'voted')
        self.manager.prepare_and_vote(self, member, vote)

    def abort(self):
        with contextlib.suppress(Refused):
            self.refuse('client')

    def refuse(self, why, cause=None):
        """Ends the transaction everywhere, and raises `Refused`."""
        self.manager.count(f'refused: {why}')
        if self.manager.program:
            answer, messages = self.manager.program.tell(f'abort {self.number}')
            if answer == ['asked']:
                answer, messages = self.manager.program.tell(f'timer {self.number} {COORDINATOR}')
            self.manager.carry_out(self, messages, lambda number: None)
        self.close()
        raise Refused(why) from cause

    def close(self, commit=False):
        for member, branch in self.branches.items():
            branch.end(commit)
            self.manager.come_to(self.number, member, None)
        with self.manager.moved:
            self.manager.open.discard(self.number)
            self.manager.moved.notify_all()


def in_words(word, found):
    """What a database answered, in the words of the program."""
    if word == 'read':
        return ['missing'] if found is None else ['got', spell_value(found)]
    if word == 'scan':
        return ['rows', str(len(found))] + [letters for key, value in found for letters in (spell_key(key), spell_value(value))]
    return ['done']
