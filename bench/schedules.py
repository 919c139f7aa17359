"""Random schedules with damage, through the built program, beside a second reading of what it tells.

    python3 bench/schedules.py PROGRAM EVENTS [SEED]       runs and resumed runs, crashes and stops inside log writes
    python3 bench/schedules.py PROGRAM kills COUNT [SEED]  the program itself is killed at a random moment, so often, and its files are resumed
    python3 bench/schedules.py PROGRAM open COUNT ROUNDS   so many transactions stay open at one coordinator while others are carried to their end

Each random line is made from what the program has told so far, so that most messages that are delivered were sent. What is compared stands in `promises.py`: serial
reads, decisions, acknowledgements, agreement, and the records that the files give. A directory in memory (/dev/shm) is used where there is one.
"""
import os
import random
import shutil
import signal
import subprocess
import sys
import tempfile
import time

from promises import Reading, records_of, serve

KINDS = ("lock", "occ", "mv")
ENOUGH = 10  # differences, behind which no further series is played


class Maker:
    """Makes the lines of one run."""

    def __init__(self, chance, members, coords, fresh):
        self.chance, self.members, self.coords, self.fresh = chance, members, coords, fresh
        self.first, self.window = fresh, []

    def member(self):
        return f"m{self.chance.randint(1, self.members)}"

    def coord(self):
        return f"c{self.chance.randint(1, self.coords)}"

    def node(self):
        return self.chance.choice((self.member, self.member, self.coord))()

    def recent(self):
        return self.chance.randint(max(0, self.fresh - 12), self.fresh)

    def key(self):
        return f"k{self.chance.randint(0, 9)}"

    def begin(self):
        self.window.append(self.fresh)
        self.fresh += 1
        where = self.member() if self.chance.random() < 0.15 else self.coord()
        return f"{'local' if where[0] == 'm' else 'begin'} {self.fresh - 1} {where}"

    def operation(self):
        if not self.window:
            return self.begin()
        number, form = self.chance.choice(self.window), self.chance.random()
        at = f"{number} {self.member()} {self.key()}"
        if form < 0.45:
            return f"read {at}"
        if form < 0.8:
            return f"write {at} v{self.chance.randint(0, 999)}"
        return f"erase {at}" if form < 0.9 else f"scan {at} k9"

    def ask(self, form):
        if not self.window:
            return self.begin()
        return f"{form} {self.window.pop(self.chance.randrange(len(self.window)))}"

    def leaves(self):
        return self.chance.choice(("old", "new", "x", "xa5", "x7f", f"x{self.chance.randint(0, 255):02x}{self.chance.randint(0, 65535):04x}"))

    def line(self, sent):
        which = self.chance.random()
        if which < 0.1 and len(self.window) < 8:
            return self.begin()
        if which < 0.4:
            return self.operation()
        if which < 0.5:
            return self.ask("commit")
        if which < 0.52:
            return self.ask("abort")
        if which < 0.83 and sent:
            late = sent[-16:] if self.chance.random() < 0.7 else sent
            return f"deliver {self.chance.choice(late)}"
        if which < 0.88:
            return f"vote {self.recent()} {self.member()}"
        if which < 0.9:
            return f"timer {self.recent()} {self.node()}"
        if which < 0.92:
            return f"ask {self.recent()} {self.member()}"
        if which < 0.94:
            return f"resend {self.recent()} {self.coord()}"
        if which < 0.95:
            return f"crash {self.node()}"
        if which < 0.98:
            return f"restart {self.node()}"
        if which < 0.99:
            return f"checkpoint {self.node()}"
        return f"arm {self.node()} {self.chance.randint(1, 4)} {self.leaves()}"


def started(program, directory, resume):
    words = [program, "run", *(["--resume"] if resume else []), directory]
    return subprocess.Popen(words, stdin=subprocess.PIPE, stdout=subprocess.PIPE, stderr=subprocess.PIPE, text=True)


def told(process, reading):
    """Reads up to the next answer; gives whether there was one."""
    while True:
        line = process.stdout.readline()
        if not line.endswith("\n"):
            return False
        if reading.line(line[:-1]):
            return True


def say(process, line):
    """Writes a line; gives whether the program was there to read it."""
    try:
        process.stdin.write(line + "\n")
        process.stdin.flush()
        return True
    except BrokenPipeError:
        return False


def records(program, directory):
    done = subprocess.run([program, "records", directory], stdout=subprocess.PIPE, stderr=subprocess.PIPE, text=True)
    if done.returncode:
        return None, f"records ended with {done.returncode}: {done.stderr.strip()}"
    return records_of(done.stdout), None


def run(program, directory, head, maker, start, resume, events):
    """One run to its end, and what does not hold of it. Each line has an answer, the head too."""
    process, reading = started(program, directory, resume), Reading(start)
    say(process, head)
    unanswered = [] if told(process, reading) else ["the head has no answer"]
    for number in range(2, 2 if unanswered else events + 2):
        if not say(process, maker.line(reading.sent)) or not told(process, reading):
            unanswered = [f"line {number} has no answer"]
            break
    process.stdin.close()
    rest, note = process.stdout.read(), process.stderr.read()
    code = process.wait()
    found, fault = records(program, directory)
    faults = [f"the run ended with {code}: {note.strip()}"] * (code != 0) + [f"behind the last answer: {rest}"] * bool(rest) + [fault] * bool(fault)
    return found, reading, unanswered + faults + ([] if fault else reading.end(found))


def killed(program, directory, head, maker, start, resume, chance):
    """One run that is killed; what does not hold of what it told and left. The event that it was at may count or not. A run that ends before it is killed is a fault."""
    process, reading = started(program, directory, resume), Reading(start)
    say(process, head)
    if told(process, reading):
        for _ in range(chance.randint(1, 400)):
            if not say(process, maker.line(reading.sent)) or not told(process, reading):
                break
        for _ in range(chance.randint(0, 3)):
            say(process, maker.line(reading.sent))
    process.kill()
    for line in process.stdout.read().splitlines(True):
        if line.endswith("\n"):
            reading.line(line[:-1])
    note, code = process.stderr.read(), process.wait()
    ended = [] if code == -signal.SIGKILL else [f"the run ended with {code} before it was killed: {note.strip()}"]
    found, fault = records(program, directory)
    if fault:
        return None, reading, [*ended, fault]
    return found, reading, ended + may_be_left(reading, found)


def may_be_left(reading, found):
    """The files give the records of what was told as decided, or with one transaction more, which was not told yet."""
    if found == reading.records:
        return reading.end(found)
    for number, operations in reading.operations.items():
        if number not in reading.decided:
            with_it = dict(reading.records)
            for event, _answer in operations:
                serve(with_it, event)
            if with_it == found:
                reading.records = with_it
                return reading.end(found)
    return reading.end(found)


def beside_open(count, rounds):
    """A schedule in which so many transactions are asked for their commit and stay open, and so many others are carried to their end beside them."""
    yield "members occ lock coords 1"
    for number in range(count + rounds):
        yield f"begin {number} c1"
    for number in range(count):
        yield from (f"read {number} m1 a", f"commit {number}")
    for number in range(count, count + rounds):
        yield from (f"write {number} {member} b 1" for member in ("m1", "m2"))
        yield f"commit {number}"
        yield from (f"deliver prepare {number} c1 {member} 1" for member in ("m1", "m2"))
        yield from (f"deliver vote {number} {member} c1 yes" for member in ("m1", "m2"))
        yield from (f"deliver decide {number} c1 {member} commit" for member in ("m1", "m2"))
        yield from (f"deliver ack {number} {member} c1" for member in ("m1", "m2"))


def time_beside_open(program, count, rounds):
    """The time of such a schedule, and how many transactions ended."""
    work = tempfile.mkdtemp(dir="/dev/shm" if os.path.isdir("/dev/shm") else None)
    try:
        text = "".join(line + "\n" for line in beside_open(count, rounds))
        start = time.perf_counter()
        done = subprocess.run([program, "run", f"{work}/logs"], input=text, stdout=subprocess.PIPE, text=True, check=True)
        took = time.perf_counter() - start
    finally:
        shutil.rmtree(work)
    return took, sum(line.endswith(" reply ended") for line in done.stdout.splitlines())


def tell_beside_open(program, count, rounds):
    """Tells the time of a round beside so many open transactions: the difference to a run without rounds, of the shortest of three runs each."""
    without, none = min(time_beside_open(program, count, 0) for _ in range(3))
    whole, ended = min(time_beside_open(program, count, rounds) for _ in range(3))
    print(f"{count} open: {without:.2f} s without rounds, {whole:.2f} s with {rounds}, {(whole - without) / rounds * 1e6:.0f} microseconds each; {ended} ended")
    return none == 0 and ended == rounds


def series(program, chance, play):
    """Runs over one directory, the later ones resumed; gives the events and what does not hold."""
    memory = "/dev/shm" if os.path.isdir("/dev/shm") else None
    work = tempfile.mkdtemp(dir=memory)
    members, coords = chance.randint(1, 5), chance.randint(1, 3)
    start, fresh, events, faults = {}, 1, 0, []
    try:
        for turn in range(chance.randint(1, 4)):
            head = f"members {' '.join(chance.choice(KINDS) for _ in range(members))} coords {coords}"
            maker = Maker(chance, members, coords, fresh)
            start, reading, wrong = play(program, f"{work}/logs", head, maker, start, turn > 0, chance)
            events, fresh, faults = events + reading.events, maker.fresh, faults + wrong
            if wrong:
                break
    finally:
        shutil.rmtree(work)
    return events, faults


def main():
    program, kills = os.path.abspath(sys.argv[1]), sys.argv[2] == "kills"
    if sys.argv[2] == "open":
        sys.exit(0 if tell_beside_open(program, int(sys.argv[3]), int(sys.argv[4])) else 1)
    count = int(sys.argv[3 if kills else 2])
    words = sys.argv[4:] if kills else sys.argv[3:]
    seed = int(words[0]) if words else 1
    to_the_end = lambda program, directory, head, maker, start, resume, chance: run(program, directory, head, maker, start, resume, chance.randint(1, 800))
    runs = events = wrong = 0
    while (runs if kills else events) < count and wrong < ENOUGH:
        chance = random.Random(seed * 1_000_000 + runs)
        done, faults = series(program, chance, killed if kills else to_the_end)
        runs, events = runs + 1, events + done
        for fault in faults:
            wrong += 1
            print(f"series {runs - 1} of seed {seed}: {fault}")
    print(f"{runs} series, {events} events, {wrong} differences")
    sys.exit(1 if wrong else 0)


if __name__ == "__main__":
    main()
