"""Faults of the disk: each sync, each write and each cut fails, one in each run; then calls that are short or interrupted.

    python3 bench/faults.py PROGRAM          the files are read again at once
    python3 bench/faults.py PROGRAM power    and once more behind a power cut

A run in which one fails ends with status 6, or as it does without; what it told is a front of the whole text. Right behind it `records` gives the records of what was
told as decided, or with one transaction more, and a resumed run opens the files. Short and interrupted calls change nothing. `bench/memory.py` does the same with want
of memory, and has the runs.

With `power`, `bench/faults.c` keeps a second copy of each file, which stands for the disk: after a sync that failed the system still gives what the disk has not. The
power is then cut behind `records`, and it has to give the same once more. The program as it is fails so in five places, since std has no call that drops the system's
copies of a file; `docs/FORMATS.md` says what its users do instead.
"""
import os
import shutil
import subprocess
import sys
import tempfile

from memory import CHECKPOINT, RESUMED, STOPPED, TRANSFER
from promises import Reading, records_of
from schedules import may_be_left

HERE = os.path.dirname(os.path.abspath(__file__))
KINDS = (("fsync", "error"), ("pwrite", "error"), ("pwrite", "space"), ("pwrite", "torn"), ("ftruncate", "error"))


class Place:
    """A directory of logs, the disk below it, and the program with the faulty calls."""

    def __init__(self, program, work, loses_power):
        self.program, self.shim, self.loses_power = program, f"{work}/faults.so", loses_power
        self.logs, self.disk, self.counted = f"{work}/logs", f"{work}/disk", f"{work}/count"
        subprocess.run(["cc", "-shared", "-fPIC", "-O2", "-o", self.shim, f"{HERE}/faults.c"], check=True)

    def begin(self, before):
        for directory in (self.logs, self.disk):
            shutil.rmtree(directory, ignore_errors=True)
            if before:
                shutil.copytree(before, directory)
        os.makedirs(self.disk, exist_ok=True)

    def play(self, words, text, **faults):
        env = {**os.environ, "LD_PRELOAD": self.shim, "FAULT_DISK": self.disk, "FAULT_COUNT": self.counted, **faults}
        text = "".join(line + "\n" for line in text)
        done = subprocess.run([self.program, *words, self.logs], input=text, stdout=subprocess.PIPE, stderr=subprocess.PIPE, text=True, env=env)
        return done.returncode, done.stdout, done.stderr.strip()

    def counts(self):
        with open(self.counted) as it:
            return {kind: int(count) for kind, count in map(str.split, it)}

    def cut_power(self):
        """The files are then what the disk has of them."""
        for name in os.listdir(self.logs):
            if os.path.exists(f"{self.disk}/{name}"):
                shutil.copyfile(f"{self.disk}/{name}", f"{self.logs}/{name}")
            else:
                open(f"{self.logs}/{name}", "w").close()
        for name in os.listdir(self.disk):
            if name.endswith(".lost"):
                os.remove(f"{self.disk}/{name}")

    def records(self, when):
        code, out, note = self.play(["records"], [])
        return (records_of(out), []) if code == 0 else (None, [f"records {when} ended with {code}: {note}"])

    def behind_power_cut(self, found):
        """What does not hold of the files that the disk has, where `records` gave these before."""
        self.cut_power()
        again, faults = self.records("behind a power cut")
        return faults if again is None or again == found else [f"records gave {sorted(found.items())}, and behind a power cut {sorted(again.items())}"]

    def left(self, head, start, out):
        """What does not hold of the files behind a run that told this."""
        if not os.path.isdir(self.logs):
            return []
        reading = Reading(start)
        for line in out.splitlines(True):
            if line.endswith("\n"):
                reading.line(line[:-1])
        found, faults = self.records("at once")
        if faults:
            return faults
        faults = may_be_left(reading, found) + (self.behind_power_cut(found) if self.loses_power else [])
        code, _, note = self.play(["run", "--resume"], [head])
        return faults + [f"the resumed run ended with {code}: {note}"] * (code != 0)


def sweep(name, place, words, text, before):
    """Fails each call of each kind in turn, and gives what does not hold."""
    place.begin(before)
    start = place.records("before")[0] if before else {}
    place.begin(before)
    whole, counts, faults, ended, same = place.play(words, text), place.counts(), [], 0, 0
    for kind, how in KINDS:
        for number in range(1, counts[kind] + 1):
            place.begin(before)
            answer = place.play(words, text, FAULT_CALL=kind, FAULT_HOW=how, FAULT_NUMBER=str(number))
            ended, same = ended + (answer[0] == 6), same + (answer == whole)
            found = place.left(text[0], start, answer[1])
            if answer != whole and (answer[0] != 6 or not answer[2].startswith("device fault")):
                found.append(f"ended with {answer[0]}: {answer[2]}")
            if not whole[1].startswith(answer[1]):
                found.append("told another text")
            faults += [f"{name}, {kind} {number} ({how}): {it}" for it in found]
    told = ", ".join(f"{count} {kind}" for kind, count in counts.items())
    print(f"{name}: {told}; {ended} runs ended with status 6, {same} as without a fault; {len(faults)} faults")
    return faults + slow(name, place, words, text, before, whole)


def slow(name, place, words, text, before, whole):
    """Short and interrupted calls change neither the text nor the files."""
    faults = []
    for how in ({"FAULT_SHORT": "1"}, {"FAULT_BREAK": "1"}, {"FAULT_SHORT": "1", "FAULT_BREAK": "1"}):
        place.begin(before)
        if place.play(words, text) != whole:
            faults.append(f"{name}: two runs differ")
        files = {it: open(f"{place.logs}/{it}", "rb").read() for it in os.listdir(place.logs)}
        place.begin(before)
        if place.play(words, text, **how) != whole:
            faults.append(f"{name}, {' '.join(how)}: told another text")
        if files != {it: open(f"{place.logs}/{it}", "rb").read() for it in os.listdir(place.logs)}:
            faults.append(f"{name}, {' '.join(how)}: left other files")
    return faults


def main():
    program, work, faults = os.path.abspath(sys.argv[1]), tempfile.mkdtemp(dir="/dev/shm" if os.path.isdir("/dev/shm") else None), []
    try:
        place = Place(program, work, sys.argv[2:] == ["power"])
        for name, text in (("a transfer", TRANSFER), ("a stopped decision", STOPPED), ("a checkpoint and a restart", CHECKPOINT)):
            faults += sweep(name, place, ["run"], text, None)
        before = f"{work}/before"
        subprocess.run([program, "run", before], input="".join(line + "\n" for line in TRANSFER), stdout=subprocess.PIPE, text=True, check=True)
        faults += sweep("a resumed run", place, ["run", "--resume"], RESUMED, before)
    finally:
        shutil.rmtree(work)
    for fault in faults[:40]:
        print(fault)
    sys.exit(1 if faults else 0)


if __name__ == "__main__":
    main()
