#!/usr/bin/python3
"""servers.py start|stop FOLDER: a PostgreSQL and a MariaDB of the machine's packages, with all that is theirs in the folder.

They listen on sockets in the folder alone. Stopping ends these two and no others, and leaves the folder.
"""
import glob
import os
import pathlib
import shutil
import subprocess
import sys
import time


def newest(pattern, name):
    found = sorted(glob.glob(pattern)) or [each for each in [shutil.which(name)] if each]
    if not found:
        raise SystemExit(f'{name} is not installed: see live/setup.sh')
    return found[-1]


def as_user(name, words):
    """A server refuses to run as root; so it runs as its own user there."""
    return ['setpriv', f'--reuid={name}', f'--regid={name}', '--clear-groups', *words] if os.geteuid() == 0 else words


def is_alive(number):
    """Whether the process runs: one that ended and was not waited for does not."""
    try:
        return pathlib.Path(f'/proc/{number}/stat').read_text().rpartition(')')[2].split()[0] != 'Z'
    except FileNotFoundError:
        return False


class Server:
    """A server whose place is a directory of its own."""

    def __init__(self, user, place):
        self.user, self.place = user, str(place)
        os.makedirs(self.place, exist_ok=True)
        os.chmod(self.place, 0o755)
        if os.geteuid() == 0:
            shutil.chown(self.place, user)

    def run(self, words, check=True):
        return subprocess.run(as_user(self.user, words), check=check, stdout=subprocess.DEVNULL, stderr=subprocess.DEVNULL, cwd='/').returncode


class PostgreSQLServer(Server):
    def __init__(self, place, superuser='manager'):
        super().__init__('postgres', place)
        self.tools, self.superuser = os.path.dirname(newest('/usr/lib/postgresql/*/bin/initdb', 'initdb')), superuser
        self.control = [f'{self.tools}/pg_ctl', '-D', f'{self.place}/data', '-w']

    def where(self):
        return {'host': self.place, 'user': self.superuser, 'dbname': 'postgres', 'port': 5432}

    def start(self, isolation='read committed'):
        if not os.path.exists(f'{self.place}/data'):
            self.run([f'{self.tools}/initdb', '-D', f'{self.place}/data', '-A', 'trust', '-U', self.superuser])
            with open(f'{self.place}/data/postgresql.conf', 'a') as settings:
                settings.write(f"listen_addresses = ''\nunix_socket_directories = '{self.place}'\nmax_prepared_transactions = 200\nmax_connections = 200\n")
                settings.write(f"default_transaction_isolation = '{isolation}'\n")
        self.run([*self.control, '-l', f'{self.place}/log', 'start'])

    def stop(self):
        self.run([*self.control, '-m', 'immediate', 'stop'], check=False)

    crash = stop  # every process is ended at once, and recovery follows at the next start


class MariaDBServer(Server):
    def __init__(self, place):
        super().__init__('mysql', place)

    def where(self):
        return {'unix_socket': f'{self.place}/socket', 'user': 'manager', 'password': 'manager', 'database': 'federation', 'port': 3306}

    def start(self, isolation='READ-COMMITTED'):
        is_new = not os.path.exists(f'{self.place}/data')
        if is_new:
            self.run([newest('/usr/bin/mariadb-install-db', 'mariadb-install-db'), '--no-defaults', f'--datadir={self.place}/data', '--auth-root-authentication-method=normal', '--skip-test-db'])
        words = [newest('/usr/sbin/mariadbd', 'mariadbd'), '--no-defaults', f'--datadir={self.place}/data', f'--socket={self.place}/socket', '--skip-networking', '--max-connections=300',
                 f'--transaction-isolation={isolation}', f'--pid-file={self.place}/pid', f'--log-error={self.place}/log']
        server = subprocess.Popen(as_user('mysql', words), stdout=subprocess.DEVNULL, stderr=subprocess.DEVNULL, cwd='/', start_new_session=True)
        for _ in range(600):
            if self.run([*self.client(), '-e', 'select 1'], check=False) == 0:
                break
            if server.poll() is not None:
                raise SystemExit(f'mariadbd did not start: see {self.place}/log')
            time.sleep(0.1)
        if is_new:
            self.run([*self.client(), '-e', "create database federation; create user manager@localhost identified by 'manager'; grant all on *.* to manager@localhost"])

    def client(self):
        return ['mariadb', '--no-defaults', '-u', 'root', f'--socket={self.place}/socket']

    def signal(self, name):
        pid = pathlib.Path(f'{self.place}/pid')
        if pid.exists():
            number = int(pid.read_text())
            subprocess.run(['kill', f'-{name}', str(number)], check=False, stderr=subprocess.DEVNULL)
            while is_alive(number):
                time.sleep(0.05)
            pid.unlink(missing_ok=True)

    def stop(self):
        self.signal('TERM')

    def crash(self):
        self.signal('KILL')


def servers(folder):
    place = pathlib.Path(folder).resolve()
    return PostgreSQLServer(place / 'postgresql'), MariaDBServer(place / 'mariadb')


def main():
    if len(sys.argv) != 3 or sys.argv[1] not in ('start', 'stop'):
        sys.exit(__doc__)
    os.makedirs(sys.argv[2], exist_ok=True)
    for server in servers(sys.argv[2]):
        getattr(server, sys.argv[1])()


if __name__ == '__main__':
    main()
