"""Refuses each allocation of a run in turn: the output and the status are the usual ones, or a front of them and status 5.
And looks whether a session that goes on and on keeps what it no longer needs.

    python3 tests/memory.py PROGRAM [SCRIPT [WORDS ..]]    each allocation refused by itself, and with all behind it

It needs a C compiler, for `refuse.c`, and a program that takes its memory from the C library's malloc.
"""

import os
import random
import shutil
import subprocess
import sys
import tempfile
from concurrent.futures import ThreadPoolExecutor

HERE = os.path.dirname(os.path.abspath(__file__))
# So that no test fails on a machine that has much else to do.
SECONDS = 900
MOST_GROWTH = 1000


def compiler():
    return next((found for found in map(shutil.which, ("cc", "gcc", "clang")) if found), None)


def script(n=16, seed=1):
    """Stars of all vertices, edges that change, and a question of each kind."""
    rng = random.Random(seed)

    def edges():
        return " ".join("%d:%d" % (u, rng.randrange(60)) for u in range(n) if u != v and rng.randrange(2))

    lines = ["vertices %d" % n]
    for v in range(n):
        lines += ["star %d out %s in %s" % (v, edges(), edges()), "path %d %d" % (v, rng.randrange(n))]
    for _ in range(n):
        v, u = rng.sample(range(n), 2)
        lines += [rng.choice(["edge %d %d 7", "cut %d %d"]) % (v, u), "age %d %d" % (u, v), "row %d" % v]
    return "\n".join(lines + ["stats", "cert"]).encode() + b"\n"


def cycles(count, n=12):
    """So many times the stars of all vertices with edges to all others, and then without any."""
    lines = ["vertices %d" % n]
    for number in range(count):
        for v in range(n):
            edges = " ".join("%d:%d" % (u, 1 + number % 3) for u in range(n) if u != v)
            lines.append("star %d out %s" % (v, edges))
        lines += ["star %d" % v for v in range(n)]
    return "\n".join(lines + ["stats"]).encode() + b"\n"


def peak(program, data):
    """The most memory, in KB, that a session had when it answered its last line, which alone has a reply."""
    with subprocess.Popen([program, "run"], stdin=subprocess.PIPE, stdout=subprocess.PIPE) as child:
        child.stdin.write(data)
        child.stdin.flush()
        child.stdout.readline()
        with open(f"/proc/{child.pid}/status", encoding="ascii") as file:
            return next(int(line.split()[1]) for line in file if line.startswith("VmHWM"))


def growth(program):
    """By how many KB the peak of many cycles is above that of few, in which as many paths are kept. Processes alike
    differ by up to 250 KB; where a list that shrinks to three ids does not give its block back, it is 3,200 KB."""
    return peak(program, cycles(1000)) - peak(program, cycles(20))


class Refuser:
    """Runs of a program in which allocations are refused."""

    def __init__(self, program, folder):
        self.program = program
        self.folder = folder
        self.library = os.path.join(folder, "refuse.so")
        subprocess.run([compiler(), "-O2", "-shared", "-fPIC", "-o", self.library, os.path.join(HERE, "refuse.c"), "-ldl"], check=True)

    def run(self, words, data, **settings):
        env = dict(os.environ, LD_PRELOAD=self.library, **settings)
        done = subprocess.run([self.program] + words, input=data, stdout=subprocess.PIPE, timeout=SECONDS, env=env)
        return done.stdout, done.returncode

    def count(self, words, data):
        """The output and the status, the number of allocations, and the bytes that they asked for."""
        path = os.path.join(self.folder, "count")
        usual = self.run(words, data, REFUSED_COUNT=path)
        with open(path, encoding="ascii") as file:
            count, asked = map(int, file.read().split())
        return usual, count, asked


def faults(program, words, data):
    """What went wrong in each run with a refused allocation; the number of runs comes first."""
    with tempfile.TemporaryDirectory() as folder:
        refuser = Refuser(program, folder)
        (text, status), count, _ = refuser.count(words, data)
        settings = [dict(REFUSED_ALLOCATION=str(number), **more) for number in range(1, count + 1)
                    for more in ({}, {"REFUSED_FROM_THERE": "1"})]
        with ThreadPoolExecutor(4) as pool:
            ends = list(pool.map(lambda setting: refuser.run(words, data, **setting), settings))
    yield len(settings), sum(end == 5 for _, end in ends)
    for setting, (got, end) in zip(settings, ends):
        if (got, end) != (text, status) and not (end == 5 and text.startswith(got)):
            yield f"{' '.join(words)} with {setting}: status {end}, output {got[-200:]!r}"


def asked(program, words, texts):
    """For each text the number of allocations of a run, and the bytes that they asked for."""
    with tempfile.TemporaryDirectory() as folder:
        refuser = Refuser(program, folder)
        return [refuser.count(words, text)[1:] for text in texts]


def main():
    program, words, data = sys.argv[1], sys.argv[3:] or ["run"], script()
    if len(sys.argv) > 2:
        with open(sys.argv[2], "rb") as file:
            data = file.read()
    (runs, short), *missed = faults(program, words, data)
    for fault in missed[:5]:
        print(fault)
    print(f"{runs} runs with a refused allocation, {short} ended with status 5, {len(missed)} wrong")
    return 1 if missed else 0


if __name__ == "__main__":
    sys.exit(main())
