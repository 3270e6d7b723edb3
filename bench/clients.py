"""Measures calls of the clients, many written before the first reply is waited for beside one by one, and prints a table in
Markdown. See README.md.

Both ends of the pipes run on two processors, and the processor time is that of both. By the clock each lot of calls is timed
by itself; the least of its runs counts, and the mean of all lots is shown, so that other work on the machine tells little.
APSP_PROGRAM names another program to measure.
"""

import argparse
import os
import random
import resource
import shutil
import subprocess
import sys
import tempfile
import time

import run

sys.path.insert(0, os.path.join(run.TOP, "clients", "python"))
import apsp

SIZES = (16, 60, 128)
UPDATES = 1000
LOT = 50


def streets(n):
    """The edges of a grid of streets, and so many changes of their weights."""
    rows, columns = run.GRIDS[n]
    chance = random.Random(n)
    pairs = [(v, u) for v in range(n) for u, there in ((v + 1, (v + 1) % columns), (v + columns, v + columns < n)) if there]
    edges = [(u, v, 100 + chance.randrange(50)) for pair in pairs for u, v in (pair, pair[::-1])]
    changes = [(u, v, max(1, w + chance.randint(-60, 60))) for u, v, w in (chance.choice(edges) for _ in range(UPDATES))]
    return edges, changes


def lots(items):
    return [items[begun:begun + LOT] for begun in range(0, len(items), LOT)]


class Found:
    """Processor seconds of runs, less those of what came before, and seconds by the clock of each lot of each run."""

    def __init__(self):
        self.spent, self.clock = [], []

    def add(self, spent, clock):
        self.spent.append(spent)
        self.clock.append(clock)

    def per_call(self, count):
        """Microseconds of processor time and by the clock."""
        return min(self.spent) * 1e6 / count, sum(map(min, zip(*self.clock))) * 1e6 / count


def of_both(network):
    """Processor seconds so far of this process and of the network's program."""
    with open(f"/proc/{network._program.child.pid}/schedstat", encoding="ascii") as spent:
        return time.process_time() + int(spent.read().split()[0]) / 1e9


def timed(network, calls, found):
    """Makes the calls, one a lot, and adds what they took."""
    before, clock = of_both(network), []
    for call in calls:
        start = time.perf_counter()
        call()
        clock.append(time.perf_counter() - start)
    found.add(of_both(network) - before, clock)


def by_python(n, edges, changes, found):
    """The changes one by one and at once, and all rows one by one and at once, each way in a network of its own."""
    for many in (False, True):
        with apsp.Network.from_edges(edges, names=range(n), program=run.PROGRAM) as network:
            if many:
                timed(network, [lambda lot=lot: network.set_edges(lot) for lot in lots(changes)], found["edges", many])
                timed(network, [network.matrix], found["rows", many])
            else:
                timed(network, [lambda lot=lot: [network.edge(*change) for change in lot] for lot in lots(changes)],
                      found["edges", many])
                timed(network, [lambda: [network.row(x) for x in range(n)]], found["rows", many])


def by_c(client, n, edges, changes, found):
    """The same of the changes, by the client in C, whose processor time has that of its program."""
    for many in (False, True):
        spent = []
        for timed_edges in ([], changes):
            text = "".join("%d %d %d\n" % edge for edge in edges) + "-\n" + "".join("%d %d %d\n" % edge for edge in timed_edges)
            before = resource.getrusage(resource.RUSAGE_CHILDREN)
            told = subprocess.run([client, run.PROGRAM, str(n), "many" if many else "one", str(LOT)], input=text,
                                  stdout=subprocess.PIPE, check=True, text=True).stdout
            after = resource.getrusage(resource.RUSAGE_CHILDREN)
            spent.append(after.ru_utime + after.ru_stime - before.ru_utime - before.ru_stime)
        found[many].add(spent[1] - spent[0], [float(line) for line in told.split()])


def built_client(folder):
    compiler = os.environ.get("CC") or shutil.which("cc") or shutil.which("gcc") or shutil.which("clang")
    if not compiler:
        return None
    built, of_c = os.path.join(folder, "clients"), os.path.join(run.TOP, "clients", "c")
    sources = [os.path.join(run.TOP, "bench", "clients.c"), os.path.join(of_c, "apsp.c")]
    subprocess.run([compiler, "-O2", "-std=c11", f"-I{of_c}", "-o", built, *sources], check=True)
    return built


def main():
    given = argparse.ArgumentParser(description=__doc__, formatter_class=argparse.RawTextHelpFormatter)
    given.add_argument("--runs", type=int, default=7, help="runs of each, of which the least counts; else 7")
    given.add_argument("--vertices", type=int, nargs="*", choices=sorted(run.GRIDS), default=SIZES, help="sizes of grids; else 16 60 128")
    given = given.parse_args()
    run.stop_unless_ready([])
    os.sched_setaffinity(0, sorted(os.sched_getaffinity(0))[:2])
    print("| client | vertices | calls | one by one, µs of processor time a call | at once | ratio "
          "| one by one, µs by the clock | at once | ratio |")
    print("|---|---|---|---|---|---|---|---|---|")
    with tempfile.TemporaryDirectory() as folder:
        client = built_client(folder)
        for n in given.vertices:
            edges, changes = streets(n)
            python = {(what, many): Found() for what in ("edges", "rows") for many in (False, True)}
            of_c = {many: Found() for many in (False, True)}
            for _ in range(given.runs):
                by_python(n, edges, changes, python)
                if client:
                    by_c(client, n, edges, changes, of_c)
            show("Python", n, len(changes), "edges", python["edges", False], python["edges", True])
            if client:
                show("C", n, len(changes), "edges", of_c[False], of_c[True])
            show("Python", n, n, "rows", python["rows", False], python["rows", True])
    if not client:
        print("\nThe client in C was left out, since there is no C compiler.")


def show(client, n, count, what, one, many):
    cells = []
    for alone, together in zip(one.per_call(count), many.per_call(count)):
        cells += [f"{alone:.1f}", f"{together:.1f}", f"{alone / together:.1f}"]
    print(f"| {client} | {n} | {count} {what} | {' | '.join(cells)} |", flush=True)


if __name__ == "__main__":
    main()
