"""Runs generated scripts through the built program and prints processor time, kept paths and memory. See README.md."""

import argparse
import os
import random
import subprocess
import sys
import threading
import time

TOP = os.path.dirname(os.path.dirname(os.path.abspath(__file__)))
PROGRAM = os.environ.get("APSP_PROGRAM") or os.path.join(TOP, "crates", "apsp", "out", "apsp")
GRIDS = {16: (4, 4), 60: (6, 10), 128: (8, 16), 256: (16, 16), 512: (16, 32)}
CHANGES = 200
QUESTIONS = 5
AGAIN = 16


def group(word, edges):
    return f" {word} " + " ".join(f"{u}:{w}" for u, w in edges) if edges else ""


def star(v, out, into):
    return f"star {v}{group('out', out)}{group('in', into)}"


def questions(chance, n):
    return [f"dist {chance.randrange(n)} {chance.randrange(n)}" for _ in range(QUESTIONS)]


def dense(n):
    chance = random.Random(n)
    lines = [f"vertices {n}"]
    for _ in range(2 * n):
        v = chance.randrange(n)
        sides = [[(u, chance.randint(1, 1000)) for u in range(n) if u != v and chance.random() < 0.5] for _ in "oi"]
        lines.append(star(v, *sides))
        lines += questions(chance, n)
    return lines, 2 * n


def changed(n, edges, chance, weight):
    """The stars one by one, and then changes of single edges; one in eight takes the edge away until its next change."""
    lines = [f"vertices {n}"]
    for v in range(n):
        out = sorted((u, w) for (x, u), w in edges.items() if x == v)
        into = sorted((x, w) for (x, u), w in edges.items() if u == v)
        lines.append(star(v, out, into))
    names = sorted(edges)
    for _ in range(CHANGES):
        u, v = chance.choice(names)
        lines.append(f"cut {u} {v}" if chance.randrange(8) == 0 else f"edge {u} {v} {weight(edges[u, v])}")
        lines += questions(chance, n)
    return lines, n + CHANGES


def road(n):
    rows, columns = GRIDS[n]
    chance = random.Random(n)
    edges = {}
    for v in range(n):
        row, column = divmod(v, columns)
        for u, there, length in ((v + 1, column + 1 < columns, 100), (v + columns, row + 1 < rows, 150)):
            if there:
                edges[v, u] = length + chance.randrange(20)
                edges[u, v] = length + chance.randrange(20)
    return changed(n, edges, chance, lambda w: max(1, w + chance.randint(-60, 60)))


def sparse(n):
    chance = random.Random(n)
    edges = {(v, u): chance.randint(1, 1000) for v in range(n) for u in chance.sample([x for x in range(n) if x != v], 4)}
    return changed(n, edges, chance, lambda w: chance.randint(1, 1000))


def complete(n):
    """Every edge has weight 1, so every simple path of two edges is kept, which is the most that are kept."""
    everyone = lambda v: [(u, 1) for u in range(n) if u != v]
    stars = [star(v % n, everyone(v % n), everyone(v % n)) for v in range(n + AGAIN)]
    return [f"vertices {n}"] + stars, n + AGAIN


SCRIPTS = {f"{kind.__name__}{n}": (kind, n)
           for kind, sizes in ((dense, (16, 32, 64, 128)), (road, (16, 60, 128)), (sparse, (16, 64, 128)))
           for n in sizes}
NAMED = {f"complete{n}": (complete, n) for n in (16, 32, 64, 128)}
NAMED.update({f"{kind.__name__}{n}": (kind, n) for kind in (dense, road, sparse) for n in (256, 512)})


def text_of(lines):
    return ("\n".join(lines + ["stats"]) + "\n").encode()


def measured(text, command, replies=None):
    """Seconds by the clock, processor seconds of the first thread, peak kilobytes and kept paths. The input is closed only once
    these were read, behind the last reply. The replies but that of stats go into a hash, where one is given."""
    start = time.perf_counter()
    with subprocess.Popen(command, stdin=subprocess.PIPE, stdout=subprocess.PIPE, bufsize=-1) as child:
        writer = threading.Thread(target=lambda: (child.stdin.write(text), child.stdin.flush()))
        writer.start()
        for line in child.stdout:
            if line.startswith(b"stats"):
                break
            if replies is not None:
                replies.update(line)
        seconds = time.perf_counter() - start
        writer.join()
        with open(f"/proc/{child.pid}/status", encoding="ascii") as status:
            memory = next(int(entry.split()[1]) for entry in status if entry.startswith("VmHWM"))
        with open(f"/proc/{child.pid}/schedstat", encoding="ascii") as spent:
            processor = int(spent.read().split()[0]) / 1e9
        child.stdin.close()
    return seconds, processor, memory, int(line.split()[6])


def named(told):
    """The words of the command: names of scripts."""
    given = argparse.ArgumentParser(description=told, epilog="APSP_PROGRAM names another program to measure.")
    given.add_argument("names", nargs="*", metavar="NAME", help=f"one of {' '.join([*SCRIPTS, *NAMED])}; else the usual ones")
    return given.parse_args()


def stop_unless_ready(names):
    """Says what is missing, and ends, where the program is not built, a script has no such name or the system has no /proc."""
    if not os.access(PROGRAM, os.X_OK):
        sys.exit(f"bench: {PROGRAM} is not built: run ./apsp < /dev/null first, or name another program in APSP_PROGRAM")
    unknown = [name for name in names if name not in SCRIPTS and name not in NAMED]
    if unknown:
        sys.exit(f"bench: there is no script {' '.join(unknown)}; there are {' '.join([*SCRIPTS, *NAMED])}")
    if not os.path.exists("/proc/self/schedstat"):
        sys.exit("bench: this system has no /proc/PID/schedstat, where time and memory are read")


def main():
    names = named(__doc__).names or list(SCRIPTS)
    stop_unless_ready(names)
    print(f"{'script':<12}{'smooth':<8}{'updates':>8}{'cpu s':>9}{'ms/update':>11}{'paths':>9}{'peak MB':>9}")
    for name in names:
        kind, n = SCRIPTS.get(name) or NAMED[name]
        lines, updates = kind(n)
        text = text_of(lines)
        for words in ([], ["--smooth"]):
            _, seconds, memory, paths = min((measured(text, [PROGRAM, "run"] + words) for _ in range(3)), key=lambda one: one[1])
            print(f"{name:<12}{'on' if words else 'off':<8}{updates:>8}{seconds:>9.3f}{1000 * seconds / updates:>11.3f}"
                  f"{paths:>9}{memory / 1024:>9.1f}", flush=True)


if __name__ == "__main__":
    main()
