"""Loads for `whole.py`: schedules and logs, each made by a function of a few lines.

A plain load is what a program does all day. A dear one is small, at most 1 MB, and asks for much: many open transactions, many that meet, many restarts.
"""
WIDE = "! ~"


def ended(number, member, lines):
    """A local transaction with these operations."""
    return [f"local {number} {member}", *(line.replace("T", str(number), 1) for line in lines), f"commit {number}"]


def voted(number, operations, lines):
    """A transaction that was asked for its vote at the first member."""
    return [f"begin {number} c1", *lines, f"commit {number}", f"deliver prepare {number} c1 m1 {operations}"]


# ---- plain loads

def local(count):
    lines = ["members lock occ mv coords 1"]
    for t in range(1, count + 1):
        m = f"m{t % 3 + 1}"
        lines += ended(t, m, [f"read T {m} k{t % 50}", f"write T {m} k{t % 50} v{t}"])
    return lines


def transfer(number, first, second):
    """The fourteen lines of a transaction of two members, from its begin to the last acknowledgement."""
    t = number
    return [
        f"begin {t} c1", f"read {t} {first} k{t % 50}", f"write {t} {first} k{t % 50} v{t}", f"write {t} {second} k{t % 50} v{t}", f"commit {t}",
        f"deliver prepare {t} c1 {first} 2", f"deliver prepare {t} c1 {second} 1", f"deliver vote {t} {first} c1 yes", f"deliver vote {t} {second} c1 yes",
        f"deliver decide {t} c1 {first} commit", f"deliver decide {t} c1 {second} commit", f"deliver ack {t} {first} c1", f"deliver ack {t} {second} c1",
        f"vote {t} {first}",
    ]


def two_members(count):
    return ["members lock occ coords 1", *(line for t in range(1, count + 1) for line in transfer(t, "m1", "m2"))]


def sixteen_at_a_time(count):
    lines = ["members occ mv coords 1"]
    for start in range(1, count + 1, 16):
        rows = [transfer(t, "m1", "m2") for t in range(start, min(start + 16, count + 1))]
        lines += [line for turn in zip(*rows) for line in turn]
    return lines


def all_open(count):
    lines = ["members occ mv coords 1"]
    for t in range(1, count + 1):
        m = f"m{t % 2 + 1}"
        lines += [f"begin {t} c1", f"read {t} {m} a{t}", f"write {t} {m} b{t} 1"]
    return lines


def laid(kind, rows, first=1):
    """So many records at one member, by transactions of a thousand writes."""
    lines = [f"members {kind} coords 1"]
    for t, at in enumerate(range(0, rows, 1_000), first):
        lines += ended(t, "m1", [f"write T m1 k{k:05d} 1" for k in range(at, min(at + 1_000, rows))])
    return lines


def scans(count, rows=30_000):
    """Scans of a hundred rows, of records that are laid before; with no scans, what is laid alone."""
    lines = laid("occ", rows)
    for t in range(1_000, 1_000 + count):
        at = t * 97 % (rows - 100)
        lines += ended(t, "m1", [f"scan T m1 k{at:05d} k{at + 99:05d}"])
    return lines


# ---- small loads that are dear

def readers_and_writers(kind, readers, writers):
    """Open transactions that scanned all keys, and open ones that write one."""
    lines = [f"members {kind} coords 1"]
    for t in range(readers):
        lines += [f"local {t} m1", f"scan {t} m1 {WIDE}"]
    for t in range(readers, readers + writers):
        lines += [f"local {t} m1", f"write {t} m1 k 1"]
    return lines


def few_writers(kind, readers, writers, writes):
    """Open transactions that scanned all keys, and a few that write many times."""
    lines = [f"members {kind} coords 1"]
    for t in range(readers):
        lines += [f"local {t} m1", f"scan {t} m1 {WIDE}"]
    for t in range(readers, readers + writers):
        lines += [f"local {t} m1", *(f"write {t} m1 {chr(97 + n % 26)} 1" for n in range(writes))]
    return lines


def narrow_readers(kind, readers, writers, writes):
    """The same, where each of the readers scanned a range of its own."""
    lines = [f"members {kind} coords 1"]
    for t in range(readers):
        lines += [f"local {t} m1", f"scan {t} m1 k{t:05d} k{t:05d}~"]
    for t in range(readers, readers + writers):
        lines += [f"local {t} m1", *(f"write {t} m1 {chr(97 + n % 10)} 1" for n in range(writes))]
    return lines


def voted_readers(readers, writers, writes):
    """Voted transactions that scanned all keys, and a few that write beside them."""
    lines = ["members lock coords 1"]
    for t in range(readers):
        lines += voted(t, 1, [f"scan {t} m1 {WIDE}"])
    for t in range(readers, readers + writers):
        lines += [f"local {t} m1", *(f"write {t} m1 {chr(97 + n % 26)}{t} 1" for n in range(writes))]
    return lines


def blocked_writers(readers, writers):
    """Writes that wait for one of many scans, which begin at as many keys."""
    lines = ["members lock coords 1"]
    for t in range(readers):
        lines += [f"local {t} m1", f"scan {t} m1 k{t:05d} ~"]
    for t in range(readers, readers + writers):
        lines += [f"local {t} m1", f"write {t} m1 z 1"]
    return lines


def blocked_scan(writers, scans_made):
    """A scan that waits for one of many writes, again and again."""
    lines = ["members lock coords 1"]
    for t in range(writers):
        lines += [f"local {t} m1", f"write {t} m1 k{t} 1"]
    return [*lines, "local 99999 m1", *[f"scan 99999 m1 {WIDE}"] * scans_made]


def scans_of_open_writes(kind, writers, readers, scans_made):
    """Scans of all keys beside many open writes."""
    lines = [f"members {kind} coords 1"]
    for t in range(writers):
        lines += [f"local {t} m1", f"write {t} m1 k{t} 1"]
    for t in range(writers, writers + readers):
        lines += [f"local {t} m1", *[f"scan {t} m1 {WIDE}"] * scans_made]
    return lines


def many_writes_scanned(kind, writers, readers):
    """A few open transactions with a thousand writes each, and many that scan them."""
    lines = [f"members {kind} coords 1"]
    for t in range(writers):
        lines += [f"local {t} m1", *(f"write {t} m1 {chr(97 + t)}{n:03d} 1" for n in range(1_000))]
    for t in range(100, 100 + readers):
        lines += [f"local {t} m1", f"scan {t} m1 {WIDE}"]
    return lines


def asked_again(kind, votes, installs, scanned):
    """A transaction with 1,024 operations whose vote is held, asked for again and again, behind so many installs."""
    lines = [f"members {kind} coords 1", "local 9 m1", "read 9 m1 x", "begin 1 c1", "write 1 m1 x 1"]
    lines += [f"scan 1 m1 k{n:04d} z" if scanned else f"read 1 m1 k{n:04d}" for n in range(1_023)]
    for t in range(10, 10 + installs):
        lines += ended(t, "m1", [f"write T m1 a{t} 1"])
    return [*lines, "commit 1", "deliver prepare 1 c1 m1 1024", *["vote 1 m1"] * votes]


def chain(kind, count):
    """Votes of which each is held by the one before it."""
    lines = [f"members {kind} coords 1"]
    for t in range(count):
        lines += [f"begin {t} c1", f"read {t} m1 k{t}"]
    for t in range(count):
        lines += [f"write {t} m1 k{(t + 1) % count} 1", f"commit {t}", f"deliver prepare {t} c1 m1 2"]
    return lines + [f"vote {t} m1" for t in range(count)]


def pinned(count, order):
    """Readers that each see another version of one key, and go in an order."""
    lines, readers = ["members mv coords 1"], [2 * n for n in range(count)]
    for t in readers:
        lines += [f"local {t} m1", f"read {t} m1 q", *ended(t + 1, "m1", [f"write T m1 x {t}"])]
    readers = readers[::order]
    return lines + [f"read {t} m1 x" for t in readers] + [f"abort {t}" for t in readers]


def scans_of_the_past(rows, readers):
    """Readers of an early snapshot, which scan all that was written since."""
    lines = ["members mv coords 1"]
    for t in range(readers):
        lines += [f"local {t} m1", f"read {t} m1 q"]
    lines += laid("mv", rows, 100)[1:]
    return lines + [f"scan {t} m1 {WIDE}" for t in range(readers) for _ in range(1_000)]


def scans_of_the_erased(rows, readers):
    """Readers that scan keys that were written and erased beside an early reader."""
    lines = [*laid("mv", 0), "local 99 m1", "read 99 m1 q"]
    for t, at in enumerate(range(0, rows, 1_000), 100):
        keys = [f"{at // 1_000}{n}" for n in range(1_000)]
        lines += ended(t, "m1", [f"write T m1 {key} 1" for key in keys]) + ended(t + 200, "m1", [f"erase T m1 {key}" for key in keys])
    for t in range(readers):
        lines += [f"local {t} m1", *[f"scan {t} m1 {WIDE}"] * 1_000]
    return lines


def many_scans(kind, count):
    """A few open transactions with a thousand wide scans each, and as many with a thousand writes."""
    lines = [f"members {kind} coords 1"]
    for t in range(count):
        lines += [f"local {t} m1", *(f"scan {t} m1 !{n:03d} ~" for n in range(1_000))]
    for t in range(100, 100 + count):
        lines += [f"local {t} m1", *(f"write {t} m1 k{n} 1" for n in range(1_000))]
    return lines


def restarts_of_votes(count, restarts):
    """Votes that a member keeps over many restarts."""
    lines = ["members occ coords 1"]
    for t in range(count):
        lines += voted(t, 1, [f"write {t} m1 a{t} 1"])
    return lines + ["crash m1", "restart m1"] * restarts


def checkpoints(rows, count):
    return laid("occ", rows) + ["checkpoint m1"] * count


def asked_of_all(count):
    """Prepares sent again to sixteen members."""
    lines = ["members " + " ".join(["occ"] * 16) + " coords 1", "begin 1 c1", *(f"write 1 m{m} a 1" for m in range(1, 17)), "commit 1"]
    return lines + ["resend 1 c1"] * count


DEAR = {
    **{f"readers and writers, {kind} {n}": (readers_and_writers, kind, n, n) for kind in ("occ", "mv") for n in (2_000, 4_000)},
    **{f"few writers, {kind} {n}": (few_writers, kind, n, t, 1_000) for kind in ("occ", "mv") for n, t in ((3_000, 3), (12_000, 28))},
    **{f"narrow readers, {kind}": (narrow_readers, kind, 10_000, 27, 1_000) for kind in ("occ", "mv", "lock")},
    "voted readers": (voted_readers, 7_000, 24, 1_000),
    "blocked writers": (blocked_writers, 12_000, 15_000),
    "a blocked scan": (blocked_scan, 15_000, 25_000),
    **{f"scans of open writes, {kind}": (scans_of_open_writes, kind, 12_000, 28, 1_000) for kind in ("occ", "mv")},
    **{f"many writes scanned, {kind}": (many_writes_scanned, kind, 20, 15_000) for kind in ("occ", "mv", "lock")},
    **{f"asked again, {kind}, {'scans' if s else 'reads'}": (asked_again, kind, 98_000, 0, s) for kind in ("occ", "mv", "lock") for s in (False, True)},
    **{f"asked again behind installs, {kind}": (asked_again, kind, 50_000, 8_000, True) for kind in ("occ", "mv")},
    **{f"a chain of held votes, {kind}": (chain, kind, 8_500) for kind in ("occ", "mv")},
    "readers of versions, oldest first": (pinned, 9_500, 1),
    "readers of versions, newest first": (pinned, 9_500, -1),
    "scans of the past": (scans_of_the_past, 15_000, 30),
    "scans of the erased": (scans_of_the_erased, 12_000, 28),
    **{f"many scans, {kind}": (many_scans, kind, 23) for kind in ("occ", "mv", "lock")},
    "asked of all": (asked_of_all, 85_000),
}


# ---- logs

def number(value, size):
    return value.to_bytes(size, "big")


def key_bytes(key):
    return number(len(key), 1) + key.encode()


def change_bytes(key, value):
    return key_bytes(key) + b"\1" + number(len(value), 2) + value.encode()


def prepare_bytes(txn, changes):
    """The vote of a transaction that wrote and read nothing."""
    return b"\2" + number(txn, 4) + b"\1" + number(len(changes), 2) + number(0, 2) + number(len(changes), 2) + b"".join(change_bytes(*it) for it in changes)


def commit_bytes(txn):
    return b"\3" + number(txn, 4) + b"\0"


def checkpoint_bytes(rows):
    return b"\6" + number(len(rows), 4) + b"".join(key_bytes(key) + number(len(value), 2) + value.encode() for key, value in rows) + number(0, 4) + number(0, 4)


def log(batches):
    """The bytes of the file of the first member with these batches of records."""
    header = b"\1\2\1" + number(1, 4)
    return b"".join(b"\xa5" + number(len(batch), 4) + batch for batch in (header, *batches)) + b"\0"


def few_keys(size):
    made = ([prepare_bytes(t, [(f"k{t % 100}", "v" * 20)]), commit_bytes(t)] for t in range(1, size // 59 + 1))
    return log(batch for pair in made for batch in pair)


def many_keys(size):
    made = ([prepare_bytes(t, [(f"k{t:08d}", "v" * 20)]), commit_bytes(t)] for t in range(1, size // 66 + 1))
    return log(batch for pair in made for batch in pair)


def large_values(size):
    count = size // 269_000
    return log(prepare_bytes(t, [(f"k{n:04d}", "v" * 256) for n in range(1_000)]) + commit_bytes(t) for t in range(1, count + 1))


def small_rows(size):
    return log([checkpoint_bytes([(f"k{n:08d}", "v" * 23) for n in range(size // 35)])])


def standing_votes(size):
    return log(prepare_bytes(t, [(f"k{t:08d}", "v" * 20)]) for t in range(1, size // 49 + 1))
