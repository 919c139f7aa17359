"""Want of memory: each request for memory of a command is refused, one in each run.

    python3 bench/memory.py PROGRAM

Each run ends with `want of memory` or as it does with all its memory. What it told is a front of the whole text, and the files give the records of what was told
as decided, or with one transaction more; a run over them that is resumed opens them. `bench/refuse.c` refuses the requests, by the C library's own allocator.
"""
import os
import shutil
import subprocess
import sys
import tempfile

from promises import Reading
from schedules import may_be_left, records

HERE = os.path.dirname(os.path.abspath(__file__))
TRANSFER = [
    "members lock lock coords 1", "begin 1 c1", "write 1 m1 a 5", "read 1 m2 b", "write 1 m2 b 6", "read 1 m1 a", "commit 1",
    "deliver prepare 1 c1 m1 2", "deliver prepare 1 c1 m2 2", "deliver vote 1 m1 c1 yes", "deliver vote 1 m2 c1 yes",
    "deliver decide 1 c1 m1 commit", "deliver decide 1 c1 m2 commit", "deliver ack 1 m1 c1", "deliver ack 1 m2 c1",
]
STOPPED = [
    "members lock coords 1", "begin 1 c1", "write 1 m1 a 1", "commit 1", "deliver prepare 1 c1 m1 1", "arm c1 3 xa5", "deliver vote 1 m1 c1 yes",
    "deliver vote 1 m1 c1 yes", "restart c1", "resend 1 c1", "deliver decide 1 c1 m1 commit",
]
CHECKPOINT = TRANSFER + ["begin 2 c1", "write 2 m1 a 9", "checkpoint m1", "checkpoint m1", "crash m1", "restart m1", "begin 3 c1", "read 3 m1 a"]
RESUMED = [
    "members occ mv coords 1", "begin 2 c1", "read 2 m1 a", "write 2 m2 b 7", "commit 2", "deliver prepare 2 c1 m1 1", "deliver prepare 2 c1 m2 1",
    "deliver vote 2 m1 c1 yes", "deliver vote 2 m2 c1 yes", "local 3 m1", "scan 3 m1 a z", "erase 3 m1 a", "deliver decide 2 c1 m1 commit", "commit 3",
]


def built(work):
    shim = f"{work}/refuse.so"
    subprocess.run(["cc", "-shared", "-fPIC", "-O2", "-o", shim, f"{HERE}/refuse.c"], check=True)
    return shim


def play(program, words, text, shim, number, counted):
    env = {**os.environ, "LD_PRELOAD": shim, "REFUSE": str(number), "REFUSE_COUNT": counted}
    done = subprocess.run([program, *words], input="\n".join(text) + "\n", stdout=subprocess.PIPE, stderr=subprocess.PIPE, text=True, env=env)
    with open(counted) as it:
        return done.returncode, done.stdout, done.stderr.strip(), int(it.read())


def sweep(name, program, words, text, before, shim, work):
    """Refuses each request in turn; gives how often the run ended for want of memory, and how often as ever."""
    counted, wanting, same, faults = f"{work}/count", 0, 0, []
    whole, number, all_requests = None, 0, 0
    while number <= all_requests:
        directory = f"{work}/logs"
        shutil.rmtree(directory, ignore_errors=True)
        if before:
            shutil.copytree(before, directory)
        start = records(program, directory)[0] if before else {}
        code, out, note, requests = play(program, [directory if it == "DIR" else it for it in words], text, shim, number, counted)
        if number == 0:
            whole, all_requests = (code, out, note), requests
        elif (code, out, note) == whole:
            same += 1
        else:
            wanting += 1
            if code != 11 or note not in ("want of memory", ""):
                faults.append(f"request {number}: ended with {code} {note}")
            if not whole[1].startswith(out):
                faults.append(f"request {number}: told another text")
        if number and words[0] == "run" and os.path.isdir(directory):
            faults += [f"request {number}: {it}" for it in left(program, directory, text[0], out, start)]
        number += 1
    print(f"{name}: {all_requests} requests; {wanting} runs ended for want of memory, {same} as with all of it; {len(faults)} faults")
    return faults


def left(program, directory, head, out, start):
    """What does not hold of the files of a run: they give the records of what was told, and a run that is resumed opens them."""
    reading = Reading(start)
    for line in out.splitlines(True):
        if line.endswith("\n"):
            reading.line(line[:-1])
    found, fault = records(program, directory)
    return [fault] if fault else may_be_left(reading, found) + resumed(program, directory, head)


def resumed(program, directory, head):
    """What does not hold of a run that goes on over the files, with its head alone."""
    done = subprocess.run([program, "run", "--resume", directory], input=f"{head}\n", stdout=subprocess.PIPE, stderr=subprocess.PIPE, text=True)
    if done.returncode or not done.stdout.endswith(" reply open\n"):
        return [f"a resumed run ended with {done.returncode}: {done.stderr.strip()}"]
    return []


def main():
    program, work, faults = os.path.abspath(sys.argv[1]), tempfile.mkdtemp(dir="/dev/shm" if os.path.isdir("/dev/shm") else None), []
    try:
        shim = built(work)
        for name, text in (("a transfer", TRANSFER), ("a stopped decision", STOPPED), ("a checkpoint and a restart", CHECKPOINT)):
            faults += sweep(name, program, ["run", "DIR"], text, None, shim, work)
        before = f"{work}/before"
        subprocess.run([program, "run", before], input="\n".join(TRANSFER) + "\n", stdout=subprocess.PIPE, text=True, check=True)
        faults += sweep("a resumed run", program, ["run", "--resume", "DIR"], RESUMED, before, shim, work)
        faults += sweep("records", program, ["records", "DIR"], [], before, shim, work)
        transcript = subprocess.run([program, "run", f"{work}/again"], input="\n".join(TRANSFER) + "\n", stdout=subprocess.PIPE, text=True, check=True).stdout
        faults += sweep("a trial", program, ["trial", "3281911331042271238", "20"], [], None, shim, work)
        faults += sweep("check", program, ["check"], transcript.splitlines(), None, shim, work)
    finally:
        shutil.rmtree(work)
    for fault in faults[:40]:
        print(fault)
    sys.exit(1 if faults else 0)


if __name__ == "__main__":
    main()
