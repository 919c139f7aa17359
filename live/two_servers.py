#!/usr/bin/env python3
"""two_servers.py postgresql|mariadb [JUDGE]: half of a cycle at each of two servers, and the judge's word on it.

The first server is PostgreSQL, the second one PostgreSQL or MariaDB, both at SERIALIZABLE, joined by `PREPARE TRANSACTION` and XA. Transaction 2
reads a and writes b, transaction 3 reads b and writes a; each server sees one half, and both transactions commit. The transcript goes to standard
output, and to the judge (a built co_judge) where it is named. The exit code is 0 where the judge says `not serial`, or where none is named.
"""
import subprocess
import sys

from recording import MariaDB, PostgreSQL, Recorder

RUN = {  # 2 reads at the first server, 3 at the second; each writes what the other read
    'postgresql': [('read', 2, 1, 'a'), ('read', 3, 2, 'b'), ('write', 3, 1, 'a', 1), ('write', 2, 2, 'b', 1), ('commit', 2), ('commit', 3)],
    # MariaDB locks what is read: 3 commits before 2 writes there
    'mariadb': [('read', 2, 1, 'a'), ('read', 3, 2, 'b'), ('write', 3, 1, 'a', 1), ('commit', 3), ('write', 2, 2, 'b', 1), ('commit', 2)],
}
START = [('begin', 1), ('write', 1, 1, 'a', 0), ('write', 1, 2, 'b', 0), ('commit', 1), ('begin', 2), ('begin', 3)]


def record(second):
    servers = []
    try:
        for kind in (PostgreSQL, PostgreSQL if second == 'postgresql' else MariaDB):
            servers.append(kind())
        recorder = Recorder(servers)
        for what, *operands in START + RUN[second]:
            getattr(recorder, what)(*operands)
        return recorder.text()
    finally:
        for server in servers:
            server.close()


def main():
    if len(sys.argv) not in (2, 3) or sys.argv[1] not in RUN:
        sys.exit('usage: two_servers.py postgresql|mariadb [JUDGE]')
    text = record(sys.argv[1])
    sys.stdout.write(text)
    if len(sys.argv) == 3:
        judged = subprocess.run([sys.argv[2], 'why'], input=text, capture_output=True, text=True)
        sys.stderr.write(judged.stdout + judged.stderr)
        sys.exit(0 if judged.returncode == 14 else 1)


if __name__ == '__main__':
    main()
