#!/usr/bin/python3
"""crash.py FOLDER CO_CLI CO_JUDGE [KILLS]: kills the manager with its clients, the program, or both, at random moments, resumes, and compares.

Each transaction lays a row of its own at both databases, which shows what was committed where. Right where no acknowledged transaction is lost, none is at one
database alone, nothing stays in doubt, the rows are the records, and each session's transcript is serial from the records that it began with.
"""
import collections
import json
import os
import random
import signal
import subprocess
import sys
import threading
import time

import work
from twin import Refused

PAIRINGS = ['SER+SER', 'RR+RC', 'RC+RC lock lock', 'RR+kept']
NOT_AGAIN, AT_ONE_ALONE, SECOND_MANAGER = 'the manager did not begin again', 'some are at one database alone', 'a second manager came in'


def manager_of(name):
    import wrong
    return getattr(wrong, name)


def live(folder, co_cli, pairing, name, logs, resume):
    """The process that is killed: a manager with eight clients."""
    manager = manager_of(name)(work.open_databases(folder, pairing), co_cli, f'{folder}/{logs}', resume=resume, transcript=f'{folder}/{logs}.transcript')
    acknowledged = os.open(f'{folder}/acknowledged', os.O_WRONLY | os.O_APPEND | os.O_CREAT)
    print(json.dumps(manager.counts), flush=True)

    def client(seed):
        rnd, keys = random.Random(seed), [f'k{place:02}' for place in range(12)]
        while True:
            try:
                transaction = manager.begin()
                for place in range(rnd.randint(2, 4)):
                    member, key, chance = rnd.choice(['m1', 'm2']), rnd.choice(keys), rnd.randrange(10)
                    if chance < 6:
                        transaction.write(member, key, f'{transaction.number}.{place}')
                    elif chance < 7:
                        transaction.erase(member, key)
                    elif chance < 9:
                        transaction.read(member, key)
                    else:
                        transaction.scan(member, *sorted((key, rnd.choice(keys))))
                for member in ('m1', 'm2'):
                    transaction.write(member, f'x{transaction.number}', logs)
                transaction.commit()
                os.write(acknowledged, b'%d\n' % transaction.number)
            except Refused:
                pass

    for seed in range(8):
        threading.Thread(target=client, args=(time.time() + seed,), daemon=True).start()
    time.sleep(60)
    os._exit(1)


def start_live(folder, co_cli, pairing, name, logs='logs', resume=False):
    words = [sys.executable, os.path.abspath(__file__), 'live', folder, co_cli, pairing, name, logs, 'resume' if resume else 'new']
    return subprocess.Popen(words, stdout=subprocess.PIPE, stderr=subprocess.DEVNULL)


def whole_events(text):
    """A transcript that a kill cut off, without its last event where that has no reply."""
    lines = text.split('\n')[:-1]
    while lines and lines[-1].split(' ')[1] != 'reply':
        lines.pop()
    return ''.join(f'{line}\n' for line in lines)


def judge_session(folder, co_judge, before):
    """The judge's word on a killed session, behind the records with which it began."""
    with open(f'{folder}/logs.transcript', errors='replace') as file:
        transcript = whole_events(file.read())
    return work.judge(co_judge, ''.join(f'{record}\n' for record in before) + transcript, 'resumed')


def kill(child, rnd):
    """Kills the manager, its program, or both, and waits until both are gone."""
    who = rnd.choice(['manager', 'program', 'both'])
    programs = [int(number) for number in subprocess.run(['ps', '--ppid', str(child.pid), '-o', 'pid='], stdout=subprocess.PIPE).stdout.split()]
    if who != 'manager':
        for number in programs:
            os.kill(number, signal.SIGKILL)
    if who == 'program':
        time.sleep(rnd.random() * 0.05)  # the manager goes on a while without it
    child.kill()
    child.wait()
    while any(os.path.exists(f'/proc/{number}') for number in programs):
        time.sleep(0.01)  # an orphaned program ends when its input does
    return who


def laid_rows(rows):
    """Which transactions have their row at m1, and at m2."""
    return [{row.split(' ')[1] for row in rows if row.startswith(f'{member} x')} for member in ('m1', 'm2')]


def run_kills(folder, programs, pairing, kills=30, manager='Manager'):
    """Kills so often. Gives what is wrong."""
    co_cli, co_judge = programs
    databases = work.open_databases(folder, pairing)
    work.clean(databases, folder)
    if os.path.exists(f'{folder}/acknowledged'):
        os.remove(f'{folder}/acknowledged')
    counts, rnd = collections.Counter(), random.Random()
    for place in range(kills):
        before = work.records(co_cli, directory(folder)) if place else []
        child = start_live(folder, co_cli, pairing, manager, resume=place > 0)
        line = child.stdout.readline()
        if not line:
            print(f'{pairing}: the manager did not begin again after kill {place}')
            return {NOT_AGAIN}
        counts.update(json.loads(line))
        time.sleep(0.1 + rnd.random() * 1.5)
        counts[f'killed {kill(child, rnd)}'] += 1
        verdict = judge_session(folder, co_judge, before)
        counts['sessions serial' if verdict.startswith('serial') else verdict] += 1
        counts['in doubt at a kill'] += sum(len(database.in_doubt()) for database in databases)
    try:
        last = manager_of(manager)(work.open_databases(folder, pairing), co_cli, f'{folder}/logs', resume=True)
    except SystemExit as end:
        print(f'{pairing}: {end}')
        return {NOT_AGAIN}
    code = last.program.close()
    for database in last.databases.values():
        database.close()
    found, rows = work.records(co_cli, last.directory()), work.spelled_rows(databases)
    at_first, at_second = laid_rows(rows)
    with open(f'{folder}/acknowledged') as file:
        acknowledged = {f'x{number}' for number in file.read().split()}
    doubts = sum(len(database.in_doubt()) for database in databases)
    lost, alone = len(acknowledged - at_first), len(at_first ^ at_second)
    print(f'{pairing}: {kills} kills, {len(acknowledged)} acknowledged, {len(at_first)} committed, {lost} lost, {alone} at one database alone, {doubts} in doubt, '
          f'rows {"are" if found == rows else "are NOT"} the records, {counts["sessions serial"]} sessions serial, {counts["in doubt at a kill"]} in doubt at the kills', flush=True)
    return work.failed({'the program ended by a fault': code == 0, 'acknowledged ones are lost': not lost, AT_ONE_ALONE: not alone, work.IN_DOUBT: not doubts,
                        work.NOT_THE_RECORDS: found == rows, work.NOT_SERIAL: counts['sessions serial'] == kills})


def directory(folder):
    with open(f'{folder}/logs.next') as file:
        return f'{folder}/logs.{file.read().split()[2]}'


def run_two(folder, programs, pairing, name):
    """Two managers at once, with directories of their own. Gives what is wrong."""
    co_cli, _ = programs
    databases = work.open_databases(folder, pairing)
    work.clean(databases, folder)
    first = start_live(folder, co_cli, pairing, name)
    first.stdout.readline()
    second = start_live(folder, co_cli, pairing, name, logs='logs.other')
    begun = bool(second.stdout.readline())
    time.sleep(3)
    for child in (second, first):
        kill(child, random.Random(0))
    last = manager_of(name)(work.open_databases(folder, pairing), co_cli, f'{folder}/logs', resume=True)
    last.program.close()
    for database in last.databases.values():
        database.close()
    return work.failed({SECOND_MANAGER: not begun, work.NOT_THE_RECORDS: work.records(co_cli, last.directory()) == work.spelled_rows(databases)})


def run(folder, programs, kills=30):
    return not any([run_kills(folder, programs, pairing, kills) for pairing in PAIRINGS])


if __name__ == '__main__':
    if sys.argv[1] == 'live':
        live(*sys.argv[2:7], resume=sys.argv[7] == 'resume')
    sys.exit(not run(sys.argv[1], sys.argv[2:4], *map(int, sys.argv[4:5])))
