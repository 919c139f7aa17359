#!/usr/bin/python3
"""dbkill.py FOLDER CO_CLI CO_JUDGE: crashes each database under eight clients and starts it again; the manager lives on.

Right where clients go on after each crash, none is stuck, and the history is serial and what the twin committed, the rows are the records and nothing is in doubt;
and where the manager holds its lock at each database again, so that no other one could come in.
"""
import sys
import threading
import time

import work
from servers import servers
from twin import Manager


COULD_COME_IN = 'another manager could come in'


def is_free(database):
    """Whether another manager could take the lock there."""
    try:
        database.exclude(patience=0.0)
        return True
    except SystemExit:
        return False
    finally:
        database.close()


def findings(folder, programs, crashes=('mariadb', 'postgresql', 'mariadb'), make=Manager):
    """Crashes these databases, one after another. Gives what is wrong."""
    co_cli, co_judge = programs
    databases = work.open_databases(folder, 'RC+RC lock lock')
    work.clean(databases, folder)
    manager, history = make(databases, co_cli, f'{folder}/logs', transcript=f'{folder}/transcript'), work.History()
    load = work.Load(manager, history, keys=50, threads=8, seconds=600)
    load.lay_rows()
    clients = threading.Thread(target=load.run)
    clients.start()
    of_name, went_on, free = dict(zip(('postgresql', 'mariadb'), servers(folder))), [], 0
    for name in crashes:
        time.sleep(2)
        of_name[name].crash()
        of_name[name].start()
        before = load.counts['committed']
        time.sleep(4)
        went_on.append(load.counts['committed'] - before)
        free += sum(is_free(database) for database in work.open_databases(folder, 'RC+RC lock lock'))
    load.end = 0
    clients.join(30)
    is_stuck = clients.is_alive()
    code = None if is_stuck else manager.program.close()
    kinds = [database.kind for database in databases]
    decisions = work.judge(co_judge, history.transcript(history.order, kinds))
    with open(f'{folder}/transcript') as file:
        twin = work.judge(co_judge, file.read())
    same = work.records(co_cli, manager.directory()) == work.spelled_rows(databases)
    doubts = sum(len(database.in_doubt()) for database in databases)
    print(f'{len(crashes)} crashes of databases: {load.counts["committed"]} committed, {went_on} right behind each, {"a client is stuck" if is_stuck else "no client stuck"}; history {decisions}, twin {twin}, '
          f'rows {"are" if same else "are NOT"} the records, {doubts} in doubt, {free} locks free for another manager')
    for database in databases:
        database.close()
    return work.failed({'a client is stuck': not is_stuck, 'the program ended by a fault': is_stuck or code == 0, 'nobody goes on': all(went_on), work.NOT_SERIAL: decisions.startswith('serial'),
                        work.TWIN_DIFFERS: twin == decisions, work.NOT_THE_RECORDS: same, work.IN_DOUBT: not doubts, COULD_COME_IN: not free})


def run(folder, programs, crashes=('mariadb', 'postgresql', 'mariadb')):
    return not findings(folder, programs, crashes)


if __name__ == '__main__':
    sys.exit(not run(sys.argv[1], sys.argv[2:4]))
