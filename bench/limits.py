"""The limits that a run meets as it opens its logs, and their order.

    python3 bench/limits.py PROGRAM [FOLDER]

Two logs are written with 33,000 numbers each and opened together; a file of the directory is made too long. Each run is refused with the note that is
named, and leaves every file as it was. FOLDER, where the directories are made, is best on a file system in memory.
"""
import hashlib
import os
import shutil
import subprocess
import sys
import tempfile

HEAD = 'members lock lock coords 1\n'
NUMBERS = 33_000
TOO_LONG = 268_435_457


def run(program, directory, schedule, *more):
    return subprocess.run([program, 'run', *more, directory], input=schedule.encode(), capture_output=True)


def local(member, first):
    lines = (f'local {t} m{member}\nwrite {t} m{member} a 1\ncommit {t}\n' for t in range(first, first + NUMBERS))
    return HEAD + ''.join(lines)


def sums(directory):
    def digest(name):
        with open(os.path.join(directory, name), 'rb') as file:
            return hashlib.file_digest(file, 'sha256').hexdigest()
    return {name: digest(name) for name in sorted(os.listdir(directory))}


def refused(program, directory, note, *more):
    before = sums(directory)
    said = run(program, directory, HEAD, *more).stderr.decode().strip()
    good = said == note and sums(directory) == before
    print('agrees' if good else f'differs: {said!r}', note, *more)
    return good


def main():
    program = os.path.abspath(sys.argv[1])
    top = tempfile.mkdtemp(dir=sys.argv[2] if len(sys.argv) > 2 else None)
    first, second = os.path.join(top, 'first'), os.path.join(top, 'second')
    try:
        for directory, member, number in ((first, 1, 1), (second, 2, NUMBERS + 1)):
            run(program, directory, local(member, number)).check_returncode()
        for part in 'ab':
            if os.path.exists(os.path.join(second, 'm2.' + part)):
                shutil.copy(os.path.join(second, 'm2.' + part), first)
        good = [refused(program, first, 'limit: transactions', '--resume'), refused(program, first, 'logs in use: m1.a')]
        os.truncate(os.path.join(first, 'm2.a'), TOO_LONG)
        good.append(refused(program, first, 'limit: log m2.a', '--resume'))
        sys.exit(0 if all(good) else 1)
    finally:
        shutil.rmtree(top)


main()
