"""Programs with a planted fault each, that the scripts beside this one have to find.

    python3 bench/planted.py PROGRAM
    python3 bench/planted.py order JUDGE

Each is the program behind some lines of Python or C. A check has to pass with the program itself and to fail with each of its planted faults. The second
line plants faults in what `co_judge order` writes.
"""
import os
import stat
import subprocess
import sys
import tempfile

HERE = os.path.dirname(os.path.abspath(__file__))

# A run of which only the first lines are handed on: it ends early, with 0.
ENDS_EARLY = """
if words[:1] == ["run"]:
    child = subprocess.Popen([PROGRAM, *words], stdin=subprocess.PIPE)
    for _ in range(12):
        line = sys.stdin.buffer.readline()
        child.stdin.write(line)
        child.stdin.flush()
        if not line:
            break
    child.stdin.close()
    sys.exit(child.wait())
"""
# A resumed run is refused.
REFUSES_TO_RESUME = """
if "--resume" in words:
    print("bad log: m1.a at 0", file=sys.stderr)
    sys.exit(9)
"""
# The words of a run are answered by nothing.
DOES_NOTHING = """
if words[:1] == ["run"]:
    sys.exit(0)
"""
# A committed transaction is told with another number.
TELLS_ANOTHER_COMMIT = """
if words[:1] == ["run"]:
    child = subprocess.Popen([PROGRAM, *words], stdout=subprocess.PIPE, text=True)
    for line in child.stdout:
        parts = line.split(" ")
        if parts[1:2] == ["log"] and parts[3] == "commit":
            parts[4] = str(int(parts[4]) + 1) + "\\n"
        sys.stdout.write(" ".join(parts))
        sys.stdout.flush()
    sys.exit(child.wait())
"""
# A run without memory leaves logs of version 1, which `records` reads and a run refuses. This one is in C, for it must want no memory itself.
LEAVES_OLD_LOGS = r"""
#include <fcntl.h>
#include <stdio.h>
#include <sys/wait.h>
#include <unistd.h>

static void make_old(const char *directory, char kind, int number, char part) {
    char name[4096], front[8];
    snprintf(name, sizeof name, "%s/%c%d.%c", directory, kind, number, part);
    int file = open(name, O_RDWR);
    if (file >= 0 && pread(file, front, 8, 0) == 8 && front[5] == 1 && front[6] == 2 && pwrite(file, "\001", 1, 6) != 1)
        _exit(99);
    close(file);
}

int main(int count, char **words) {
    int child = fork(), ended;
    if (child == 0)
        execv(PROGRAM, words);
    waitpid(child, &ended, 0);
    if (WEXITSTATUS(ended) == 11)
        for (int number = 1; number <= 16; number++)
            for (const char *kind = "mc"; *kind; kind++) {
                make_old(words[count - 1], *kind, number, 'a');
                make_old(words[count - 1], *kind, number, 'b');
            }
    _exit(WEXITSTATUS(ended));
}
"""
# What `records` writes lacks its last line.
LOSES_A_RECORD = """
if words[:1] == ["records"]:
    done = subprocess.run([PROGRAM, *words], stdout=subprocess.PIPE)
    sys.stdout.buffer.write(b"".join(done.stdout.splitlines(True)[:-1]))
    sys.exit(done.returncode)
"""

# The edges of a cycle by two lines come in another order.
TURNS_THE_EDGES = """
done = subprocess.run([PROGRAM, *words], stdout=subprocess.PIPE, text=True)
first, *edges = done.stdout.splitlines(True) or [""]
if first.startswith("cycle"):
    edges.reverse()
sys.stdout.write(first + "".join(edges))
sys.exit(done.returncode)
"""
# An edge of a cycle has the greatest pair of lines that forces it, in place of the least.
TAKES_THE_GREATEST_PAIR = f"""
sys.path.insert(0, {HERE!r})
import orders
text = sys.stdin.read()
done = subprocess.run([PROGRAM, *words], input=text, stdout=subprocess.PIPE, text=True)
first, *edges = done.stdout.splitlines(True) or [""]
if first.startswith("cycle"):
    known = orders.Words(orders.read_transcript(text))
    for place, edge in enumerate(edges):
        one, other = map(int, edge.split(" ")[1:3])
        pairs = list(known.pairs(one, other))
        if pairs:
            edges[place] = "before %d %d %d %d\\n" % (one, other, *max(pairs))
sys.stdout.write(first + "".join(edges))
sys.exit(done.returncode)
"""
# A case is left out of a refutation by cases.
LEAVES_A_CASE_OUT = """
done = subprocess.run([PROGRAM, *words], stdout=subprocess.PIPE, text=True)
sys.stdout.write(done.stdout.split("or ")[0] if done.stdout.startswith("none") else done.stdout)
sys.exit(done.returncode)
"""
# An order is the recorded one, whether that is serial or not.
TAKES_THE_RECORDED_ORDER = f"""
sys.path.insert(0, {HERE!r})
import orders
text = sys.stdin.read()
done = subprocess.run([PROGRAM, *words], input=text, stdout=subprocess.PIPE, text=True)
recorded = [str(txn) for txn, _ in orders.read_transcript(text)]
sys.stdout.write(" ".join(["order", *recorded]) + "\\n" if done.stdout.startswith("order") else done.stdout)
sys.exit(done.returncode)
"""

ORDER_CHECKS = [
    (["orders.py", "--random", "200", "--cases", "20", "{}"], [TURNS_THE_EDGES, TAKES_THE_GREATEST_PAIR, LEAVES_A_CASE_OUT, TAKES_THE_RECORDED_ORDER]),
    (["orders_scans.py", "--random", "150", "--scans", "300", "{}"], [TURNS_THE_EDGES, TAKES_THE_GREATEST_PAIR, TAKES_THE_RECORDED_ORDER]),
]
CHECKS = [
    (["schedules.py", "{}", "8000", "7"], [ENDS_EARLY, DOES_NOTHING, TELLS_ANOTHER_COMMIT, LOSES_A_RECORD]),
    (["schedules.py", "{}", "kills", "12", "7"], [REFUSES_TO_RESUME, DOES_NOTHING, LOSES_A_RECORD]),
    (["memory.py", "{}"], [LEAVES_OLD_LOGS]),
    (["faults.py", "{}"], [REFUSES_TO_RESUME, LOSES_A_RECORD]),
]


def planted(program, fault, work):
    """A program that is the given one but for the fault."""
    path = f"{work}/planted"
    if "#include" in fault:
        subprocess.run(["cc", "-x", "c", "-O1", f'-DPROGRAM="{program}"', "-o", path, "-"], input=fault, text=True, check=True)
        return path
    with open(path, "w") as file:
        file.write(f"#!{sys.executable}\nimport os, subprocess, sys\nPROGRAM, words = {program!r}, sys.argv[1:]\n{fault}\nos.execv(PROGRAM, [PROGRAM, *words])\n")
    os.chmod(path, os.stat(path).st_mode | stat.S_IXUSR)
    return path


def passes(words, program):
    """Whether a check passes with the program, and what it said last."""
    done = subprocess.run([sys.executable, f"{HERE}/{words[0]}", *(program if it == "{}" else it for it in words[1:])], stdout=subprocess.PIPE, stderr=subprocess.STDOUT, text=True)
    return done.returncode == 0, (done.stdout.splitlines() or ["nothing"])[0][:100]


def main():
    program, wrong = os.path.abspath(sys.argv[-1]), 0
    names = {id(value): name.lower().replace("_", " ") for name, value in globals().items() if name.isupper() and isinstance(value, str)}
    with tempfile.TemporaryDirectory() as work:
        for words, faults in ORDER_CHECKS if sys.argv[1] == "order" else CHECKS:
            check = " ".join(words).replace("{}", "PROGRAM")
            good, said = passes(words, program)
            wrong += not good
            print(f"{check}: {'passes' if good else 'FAILS: ' + said}")
            for fault in faults:
                good, said = passes(words, planted(program, fault, work))
                wrong += good
                print(f"    {names[id(fault)]}: {'NOT FOUND' if good else 'found: ' + said}")
    sys.exit(1 if wrong else 0)


if __name__ == "__main__":
    main()
