"""Plays loads on the proved engines and on the plain ones of `engines.rs`, and tells the instructions of an operation of each, and their ratio.

    python3 bench/engines.py CO_ENGINE_ROWS PLAIN [WORDS]

Instructions are counted by callgrind in the play alone, at two sizes of each load; a figure is the slope, so that what is loaded at the start is out. The
digests of both programs must be the same. With WORDS only loads whose names have them are played.
"""

import os
import re
import subprocess
import sys
import tempfile

KINDS = {"lock": "locking", "occ": "validating", "mv": "multiversion"}

# what a load is for, and operations and transactions of the lesser size, keys, keys of a scan, transactions at a time
TURNS = [
    ("the first load", 10_000, 100, 10_000, 10, 10),
    ("scans of one key", 10_000, 100, 10_000, 1, 10),
    ("scans of 100 keys", 10_000, 100, 10_000, 100, 10),
    ("1,000 keys", 10_000, 100, 1_000, 10, 10),
    ("100,000 keys", 10_000, 100, 100_000, 10, 10),
    ("100 keys", 10_000, 100, 100, 10, 10),
    ("1,000 operations a transaction", 20_000, 20, 10_000, 10, 10),
    ("10 operations a transaction", 10_000, 1_000, 10_000, 10, 10),
    ("one at a time", 10_000, 100, 10_000, 10, 1),
    ("100 at a time", 20_000, 200, 10_000, 10, 100),
    ("10 at a time, 10 operations each, 100,000 keys", 20_000, 2_000, 100_000, 10, 10),
    ("1,000 at a time, 10 operations each, 100,000 keys", 20_000, 2_000, 100_000, 10, 1_000),
]
# the same, where the figure is of one ballot
BALLOTS = [
    ("a ballot, 10 at a time", 10_000, 100, 10_000, 10, 10),
    ("a ballot, 100 at a time", 20_000, 200, 10_000, 10, 100),
    ("a ballot, 1,000 operations a transaction", 20_000, 20, 10_000, 10, 10),
]
# how many readers of one key have snapshots of their own; the figure is of one reader with its writer
STAGGERED = [50, 100, 200, 400]
# how many records there are; the figure is of one record
RECORDS = 20_000


def play(program, words, count):
    """Runs a load once and returns what it came to, and the instructions of the play, where they are counted."""
    is_proved = program.endswith("co_engine_rows")
    line = " ".join(map(str, words))
    command = [program] if is_proved else [program, *line.split()]
    text = f"# a load\nload {line}\n" if is_proved else None
    if not count:
        return subprocess.run(command, input=text, capture_output=True, text=True, check=True).stdout.splitlines()[-1], 0
    with tempfile.TemporaryDirectory() as place:
        tool = ["valgrind", "--tool=callgrind", "--toggle-collect=*played*", f"--callgrind-out-file={place}/out"]
        done = subprocess.run([*tool, *command], input=text, capture_output=True, text=True, check=True)
        return done.stdout.splitlines()[-1], int(re.search(r"Collected : (\d+)", done.stderr)[1])


def slope(program, engine, one, other):
    """What two loads came to, and the instructions that the second one takes more."""
    once, small = play(program, (KINDS[engine], *one), True)
    twice, large = play(program, (KINDS[engine], *other), True)
    return [once, twice], large - small


def of_operation(program, engine, shape, load):
    operations, transactions, *rest = load
    came, more = slope(program, engine, (shape, *load), (shape, 2 * operations, 2 * transactions, *rest))
    return came, more / operations


def of_ballot(program, engine, load):
    """What one ballot takes: the load with ballots takes so much more than the one without."""
    came, without = of_operation(program, engine, "turns", load)
    more, asked = of_operation(program, engine, "ballots", load)
    return came + more, (asked - without) * load[0] / load[1]


def of_reader(program, engine, readers):
    came, more = slope(program, engine, ("staggered", readers, readers, 100, 1, readers), ("staggered", 2 * readers, 2 * readers, 100, 1, readers))
    return came, more / readers


def of_record(program, engine, shape):
    """What one record takes: restored and dropped, and dumped where the shape says so."""
    came, more = slope(program, engine, (shape, 1, 1, RECORDS, 1, 1), (shape, 1, 1, 2 * RECORDS, 1, 1))
    return came, more / RECORDS


def of_dumped(program, engine):
    came, without = of_record(program, engine, "turns")
    more, dumped = of_record(program, engine, "dumps")
    return came + more, dumped - without


def figures():
    """Each load's name, the engines that it is for, and what measures it. A locking engine has no overwritten read to look for."""
    for name, *load in TURNS:
        yield name, KINDS, lambda program, engine, load=load: of_operation(program, engine, "turns", load)
    for name, *load in BALLOTS:
        yield name, ("occ", "mv"), lambda program, engine, load=load: of_ballot(program, engine, load)
    for readers in STAGGERED:
        yield f"a reader of a written key, {readers} at a time", KINDS, lambda program, engine, readers=readers: of_reader(program, engine, readers)
    yield "a record restored and dropped", KINDS, lambda program, engine: of_record(program, engine, "turns")
    yield "a record dumped", KINDS, of_dumped


def main():
    proved, plain = map(os.path.abspath, sys.argv[1:3])
    wanted = sys.argv[3:]
    print("| Load | Engine | proved | plain | ratio | digests |")
    print("|---|---|---|---|---|---|")
    for name, engines, measured in figures():
        if not all(word in name for word in wanted):
            continue
        for engine in engines:
            ours, own = measured(proved, engine)
            theirs, other = measured(plain, engine)
            ratio = f"{own / other:.2f}" if other > 0 else ""
            print(f"| {name} | {engine} | {own:,.0f} | {other:,.0f} | {ratio} | {'the same' if ours == theirs else 'DIFFER'} |", flush=True)


if __name__ == "__main__":
    main()
