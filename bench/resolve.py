#!/usr/bin/env python3
"""Random schedules that end in doubt, resolved by the built program, beside a second reading of what each member tells.

    python3 bench/resolve.py PROGRAM COUNT [SEED]          so many schedules; fails where one differs, or where two members decide one transaction differently
    python3 bench/resolve.py PROGRAM COUNT [SEED] --plant  the same with one line of each resolution changed, which the reading has to find

The reading shares nothing with the program. It takes the lines up to the last one of the schedule as they are told, keeps of them which member is up, what stands voted, active and installed there
and of how many operations the client was told, and says from that alone which events are to follow, how they are answered and which doubts remain.
"""
import os
import random
import shutil
import subprocess
import sys
import tempfile

from promises import Reading, records_of

KINDS = ("lock", "occ", "mv")
ANSWERED = ("got", "missing", "rows", "done")


class Schedule:
    """A random schedule: some transactions are carried a random part of their way, nodes crash and start again, and coordinators crash at the end."""

    def __init__(self, chance):
        self.chance = chance
        self.members, self.coords = chance.randint(1, 4), chance.randint(1, 2)
        self.lines = [f"members {' '.join(chance.choice(KINDS) for _ in range(self.members))} coords {self.coords}"]
        self.told = {}
        work = [self.transaction(number) for number in range(1, chance.randint(2, 8))]
        while any(work):
            steps = chance.choice([steps for steps in work if steps])
            self.lines += steps.pop(0)
            if chance.random() < 0.02:
                self.lines += self.disturbed()
        for member in range(1, self.members + 1):
            if chance.random() < 0.15:
                self.lines.append(f"arm m{member} {chance.randint(1, 4)} {chance.choice(('old', 'new', 'x', 'x7f'))}")
        for coord in range(1, self.coords + 1):
            if chance.random() < 0.8:
                self.lines.append(f"crash c{coord}")

    def disturbed(self):
        node = f"m{self.chance.randint(1, self.members)}"
        if self.chance.random() < 0.2:
            return [f"crash {node}"]
        return [f"crash {node}", f"restart {node}"]

    def operation(self, number, member):
        at = f"{number} m{member} k{self.chance.randint(0, 4)}"
        form = self.chance.random()
        if form < 0.4:
            return f"read {at}"
        return f"write {at} v{number}" if form < 0.85 else f"erase {at}"

    def transaction(self, number):
        """The lines of one transaction, in steps that stay together."""
        chance, coord = self.chance, f"c{self.chance.randint(1, self.coords)}"
        if chance.random() < 0.1:
            at = chance.randint(1, self.members)
            return [[f"local {number} m{at}"], [self.operation(number, at)], [f"commit {number}"]][: chance.randint(1, 3)]
        at = [member for member in range(1, self.members + 1) if chance.random() < 0.75]
        operations = {member: chance.randint(1, 2) for member in at}
        steps = [[f"begin {number} {coord}"]]
        steps += [[self.operation(number, member)] for member in at for _ in range(operations[member])]
        steps.append([f"commit {number}" if chance.random() < 0.97 else f"abort {number}"])
        asked = [[f"deliver prepare {number} {coord} m{member} {count}"] for member in at for count in range(1, operations[member] + 1) if count == operations[member] or chance.random() < 0.2]
        chance.shuffle(asked)
        steps += asked[: len(asked) if chance.random() < 0.5 else chance.randint(0, len(asked))]
        steps += [[f"deliver vote {number} m{member} {coord} {chance.choice(('yes', 'yes', 'yes', 'no'))}"] for member in at] if chance.random() < 0.6 else []
        verdict = chance.choice(("commit", "commit", "abort"))
        steps += [[f"deliver decide {number} {coord} m{member} {verdict}"] for member in at if chance.random() < 0.4]
        if chance.random() < 0.1:
            steps.insert(chance.randint(1, len(steps)), [f"timer {number} {chance.choice([coord, *(f'm{member}' for member in at)])}"])
        return steps

    def text(self):
        return "".join(line + "\n" for line in self.lines)


class Members:
    """What the members have, read off the lines of a transcript."""

    def __init__(self, head):
        words = head.split(" ")
        self.members = [f"m{n + 1}" for n in range(words.index("coords") - 1)]
        self.up = {node: True for node in [*self.members, *(f"c{n + 1}" for n in range(int(words[-1])))]}
        self.homes, self.counts, self.armed = {}, {}, set()
        self.active, self.voted, self.installed = ({member: set() for member in self.members} for _ in range(3))
        self.stable = {member: {} for member in self.members}
        self.committed, self.aborted = {}, {}

    def group(self, event, logged, answer):
        """One event, the records that it made stable and its answer."""
        for node, kind, number in logged:
            if node in self.stable and kind in ("prepare", "commit", "abort"):
                self.stable[node][number] = kind
                if kind == "commit":
                    self.committed.setdefault(number, set()).add(node)
        form = event[0]
        if form in ("begin", "local") and answer == ["begun"]:
            self.homes[int(event[1])] = event[2]
        elif form in ("read", "write", "erase", "scan") and answer[0] in ANSWERED:
            at = int(event[1]), event[2]
            self.counts[at] = self.counts.get(at, 0) + 1
            self.active[at[1]].add(at[0])
        elif answer[0] in ("crashed", "stopped"):
            self.down(self.node_of(event))
        elif answer == ["up"]:
            self.start(event[1])
        elif answer == ["armed"]:
            self.armed.add(event[1])
        elif form not in ("crash", "restart", "arm"):
            self.at_member(event, answer)

    def node_of(self, event):
        if event[0] == "deliver":
            return event[4]
        if event[0] in ("commit", "abort"):
            return self.homes.get(int(event[1]))
        return event[1] if event[0] in ("crash", "restart", "arm") else event[2]

    def down(self, node):
        self.up[node] = False
        self.armed.discard(node)
        if node in self.active:
            for number in self.active[node]:
                self.aborted.setdefault(number, set()).add(node)
            for having in (self.active, self.voted, self.installed):
                having[node] = set()

    def start(self, node):
        self.up[node] = True
        if node in self.stable:
            self.voted[node] = {number for number, kind in self.stable[node].items() if kind == "prepare"}
            self.installed[node] = {number for number, kind in self.stable[node].items() if kind == "commit"}

    def at_member(self, event, answer):
        """A vote, a verdict, a timer, and the end of a local transaction."""
        node = self.node_of(event)
        if node not in self.active:
            return
        number = int(event[2] if event[0] == "deliver" else event[1])
        if answer == ["yes"] and event[0] != "resend":
            self.active[node].discard(number)
            self.voted[node].add(number)
        elif answer[0] in ("installed", "committed"):
            self.active[node].discard(number)
            self.voted[node].discard(number)
            self.installed[node].add(number)
        elif answer[0] in ("no", "dropped", "aborted"):
            if number in self.active[node] | self.voted[node]:
                self.aborted.setdefault(number, set()).add(node)
            self.active[node].discard(number)
            self.voted[node].discard(number)

    def doubts(self):
        return sorted((number, self.members.index(member)) for member in self.members if self.up[member] for number in self.voted[member])

    def told(self, number, asker, other):
        """What another member tells the one in doubt: the first of these that applies."""
        if not self.up[asker] or number not in self.voted[asker]:
            return "settled"
        if not self.up[other]:
            return "down"
        if number in self.installed[other]:
            return "commit"
        if number in self.voted[other]:
            return "in doubt"
        if not self.counts.get((number, other)):
            return "stranger"
        return "reachable" if self.up[self.homes[number]] else "abort"

    def resolution(self):
        """The events that are to follow, each with its answer, and the lines of the doubts that remain."""
        events = []
        for number, place in self.doubts():
            asker = self.members[place]
            for other in self.members:
                verdict = self.told(number, asker, other) if other != asker else "own"
                if verdict in ("commit", "abort"):
                    events += self.handed(number, asker, other, verdict)
                    break
        return events, [f"doubt {number} {self.members[place]}" for number, place in self.doubts()]

    def handed(self, number, asker, other, verdict):
        if verdict == "abort" and number in self.active[other]:
            yield from self.done(["timer", str(number), other], ["dropped"])
        answer = ["dropped"]
        if verdict == "commit":
            answer = ["stopped"] if asker in self.armed else ["installed"]
        yield from self.done(["deliver", "decide", str(number), self.homes[number], asker, verdict], answer)

    def done(self, event, answer):
        self.group(event, [(self.node_of(event), "commit", int(event[2]))] if answer == ["installed"] else [], answer)
        yield event, answer

    def faults(self):
        """Transactions that two members decided differently."""
        for number, nodes in self.committed.items():
            for other in self.aborted.get(number, ()):
                yield f"{number} is committed at {', '.join(sorted(nodes))} and aborted at {other}"


def groups(lines):
    """The groups of a transcript: the number, the event, the records, the messages and the answer."""
    found = []
    for line in lines:
        number, kind, *words = line.split(" ")
        if kind == "event":
            found.append([int(number), words, [], [], None])
        elif kind == "log":
            if words[1] != "header":
                found[-1][2].append((words[0], words[1], int(words[2])))
        elif kind == "send":
            found[-1][3].append(words)
        else:
            found[-1][4] = words
    return found


def compared(schedule, lines):
    """What does not hold of the transcript of a resolved schedule."""
    marks = [line for line in lines if line.startswith("doubt ")]
    items = lines[: len(lines) - len(marks)]
    all_groups = groups(items)
    if [group[0] for group in all_groups] != list(range(1, len(all_groups) + 1)):
        return ["the numbers do not follow one another"], None
    if not all(answer for *_rest, answer in all_groups):
        return ["an event has no answer"], None
    members = Members(schedule.lines[0])
    for _number, event, logged, _sent, answer in all_groups[1 : len(schedule.lines)]:
        members.group(event, logged, answer)
    told = [(event, answer[:1]) for _n, event, _l, _s, answer in all_groups[len(schedule.lines) :]]
    doubted = len(members.doubts())
    events, remaining = members.resolution()
    faults = []
    if told != [(event, answer) for event, answer in events]:
        faults.append(f"these follow: {told}; and by the reading these: {list(events)}")
    if marks != remaining:
        faults.append(f"these remain: {marks}; and by the reading these: {remaining}")
    for _n, event, logged, sent, answer in all_groups[len(schedule.lines) :]:
        if event[0] == "deliver" and answer == ["installed"] and ((event[4], "commit", int(event[2])) not in logged or ["ack", event[2], event[4], event[3]] not in sent):
            faults.append(f"{' '.join(event)} has no record or no acknowledgement")
    return faults + list(members.faults()), doubted


def planted(chance, lines, behind):
    """The lines with an event, an answer or a doubt behind the schedule changed or left out; None where there is none."""
    kinds = ("event", "reply")
    places = [place for place, line in enumerate(lines) if line.startswith("doubt ") or int(line.split(" ")[0]) > behind and line.split(" ")[1] in kinds]
    if not places:
        return None
    place = chance.choice(places)
    line = lines[place]
    for old, new in ((" commit", " abort"), (" abort", " commit"), ("installed", "dropped"), ("dropped", "installed"), (" m1", " m2"), (" m2", " m1")):
        if old in line and chance.random() < 0.6:
            return lines[:place] + [line.replace(old, new)] + lines[place + 1 :]
    return lines[:place] + lines[place + 1 :]


def play(program, schedule):
    """The transcript of a schedule that the program resolves, and what does not hold of its end and of its files."""
    work = tempfile.mkdtemp(dir="/dev/shm" if os.path.isdir("/dev/shm") else None)
    try:
        done = subprocess.run([program, "resolve", f"{work}/logs"], input=schedule.text(), stdout=subprocess.PIPE, stderr=subprocess.PIPE, text=True)
        left = subprocess.run([program, "records", f"{work}/logs"], stdout=subprocess.PIPE, stderr=subprocess.PIPE, text=True)
    finally:
        shutil.rmtree(work)
    lines, faults = done.stdout.splitlines(), []
    if done.returncode or left.returncode:
        return lines, [f"resolve ended with {done.returncode}: {done.stderr.strip()}, records with {left.returncode}"]
    reading = Reading({})
    for line in lines:
        if not line.startswith("doubt "):
            reading.line(line)
    return lines, faults + reading.end(records_of(left.stdout))


def main():
    plant = "--plant" in sys.argv
    words = [word for word in sys.argv[1:] if word != "--plant"]
    program, count, seed = os.path.abspath(words[0]), int(words[1]), int(words[2]) if len(words) > 2 else 1
    runs = doubts = resolved = wrong = missed = tried = 0
    while runs < count:
        chance = random.Random(seed * 1_000_000 + tried)
        tried += 1
        schedule = Schedule(chance)
        lines, faults = play(program, schedule)
        more, doubted = compared(schedule, lines) if not faults else ([], None)
        if doubted == 0:
            continue
        runs, doubts = runs + 1, doubts + (doubted or 0)
        resolved += (doubted or 0) - sum(line.startswith("doubt ") for line in lines)
        if plant:
            changed = planted(chance, lines, len(schedule.lines))
            missed += changed is not None and changed != lines and not compared(schedule, changed)[0]
        for fault in faults + more:
            wrong += 1
            print(f"schedule {tried - 1} of seed {seed}: {fault}")
    print(f"{runs} schedules that end in doubt, {doubts} doubts, {resolved} of them resolved, {wrong} differences" + (f", {missed} planted faults missed" if plant else ""))
    sys.exit(1 if wrong or missed else 0)


if __name__ == "__main__":
    main()
