#!/usr/bin/python3
"""wrong.py FOLDER CO_CLI CO_JUDGE: six managers that each break a rule.

Right where the right manager passes each check, and each wrong one is caught within five runs by the check that is named for it, with the finding that is named.
"""
import sys
import threading

import crash
import dbkill
import work
from twin import Manager


class VotesFirst(Manager):
    """Delivers a vote before its database is prepared."""

    def prepare_and_vote(self, transaction, member, vote):
        for message in vote:
            _, transaction.decisions = self.program.tell(f'deliver {message}')
        transaction.branches[member].prepare()


class TrustsAnswers(Manager):
    """Compares no answer."""

    def agreed(self, told, did):
        return True


class CommitsAtWaiting(Manager):
    """Commits each database at its yes, while the coordinator waits for others."""

    def prepare_and_vote(self, transaction, member, vote):
        super().prepare_and_vote(transaction, member, vote)
        transaction.branches[member].end(True)


class AsksNobody(Manager):
    """Goes on after a kill as if nothing were open: what is prepared is rolled back."""

    def end_in_doubt(self, number, member, doubts):
        if f't{number}' in doubts:
            self.databases[member].end_later(f't{number}', False)


class LetsASecondIn(Manager):
    """Takes no lock at the databases, so another manager with another directory may live beside it."""

    def exclude(self, database):
        database.lock = database.lock or database.connect()


class TakesItsLockOnce(Manager):
    """Takes the lock when it begins, and does not look whether it still has it."""

    def exclude(self, database):
        if not database.lock:
            database.exclude()


def play(folder, programs, manager, pairing):
    return work.faults(work.play(folder, programs, pairing, make=manager, seconds=5.0, keys=6, threads=8))


def crashes(folder, programs, manager, pairing):
    return dbkill.findings(folder, programs, crashes=('mariadb', 'mariadb'), make=manager)


def kills(folder, programs, manager, pairing):
    return crash.run_kills(folder, programs, pairing, kills=8, manager=manager.__name__)


def two_managers(folder, programs, manager, pairing):
    return crash.run_two(folder, programs, pairing, manager.__name__)


WRONG = [  # the check that catches it, over which pairing, by what it finds
    (VotesFirst, crashes, 'RC+RC lock lock', work.TWIN_DIFFERS),
    (TrustsAnswers, play, 'RC+RU occ occ', work.NOT_SERIAL),
    (CommitsAtWaiting, play, 'RC+RC lock lock', work.NOT_THE_RECORDS),
    (AsksNobody, kills, 'RC+RC lock lock', crash.AT_ONE_ALONE),
    (LetsASecondIn, two_managers, 'RC+RC lock lock', crash.SECOND_MANAGER),
    (TakesItsLockOnce, crashes, 'RC+RC lock lock', dbkill.COULD_COME_IN),
]


def said(found):
    return ', '.join(sorted(found)) or 'nothing is wrong'


def is_passed(folder, programs, check, pairing):
    """Whether the right manager passes a check."""
    found = check(folder, programs, Manager, pairing)
    print(f'the right manager, {check.__name__}, {pairing}: {said(found)}', flush=True)
    return not found


def is_caught(folder, programs, manager, check, pairing, finding):
    """Whether the check finds in five runs what this manager does wrong. What else it finds does not count."""
    for place in range(5):
        found = check(folder, programs, manager, pairing)
        print(f'{manager.__name__}, run {place + 1}: {said(found)}', flush=True)
        if finding in found:
            return True
    print(f'{manager.__name__}: NOT CAUGHT in five runs')
    return False


def run(folder, programs):
    right = all([is_passed(folder, programs, check, pairing) for check, pairing in dict.fromkeys((check, pairing) for _, check, pairing, _ in WRONG)])
    threading.excepthook = lambda _: None  # a wrong manager's clients may end by any fault
    return right and all([is_caught(folder, programs, *wrong) for wrong in WRONG])


if __name__ == '__main__':
    sys.exit(not run(sys.argv[1], sys.argv[2:4]))
