"""Compares the replies of random scripts at several numbers of workers, byte for byte.

    python3 tests/workers.py COUNT PROGRAM [SEED]    COUNT small scripts, and a few with classes and victims by the thousand
"""

import random
import subprocess
import sys
from concurrent.futures import ThreadPoolExecutor

import blocks

WORKERS = (1, 2, 7, 64)


def small(rng):
    """Updates and questions of every kind over few vertices and few weights."""
    n = rng.randrange(2, 9)
    most = rng.choice([2, 4, 12])
    lines = [f"vertices {n}"]
    for _ in range(rng.randrange(3, 24)):
        lines += [blocks.update(rng, n, most), "stats", f"row {rng.randrange(n)}"]
        lines += [f"{word} {rng.randrange(n)} {rng.randrange(n)}" for word in ("path", "age")]
    return lines


def large(n):
    """Edges of one weight between all vertices: a class has thousands of joins, and a vertex thousands of victims."""
    star = lambda v: " ".join(f"{u}:1" for u in range(n) if u != v)
    lines = [f"vertices {n}"] + [f"star {v} out {star(v)} in {star(v)}" for v in range(n)]
    return lines + ["star 0", "stats", "star 1 out 0:1", "stats", "path 1 0", "age 2 3 4", "cert"]


def faults(program, count, seed=1, sizes=(48,)):
    """What is not the same at all numbers of workers."""
    rng = random.Random(seed)
    texts = [small(rng) for _ in range(count)] + [large(n) for n in sizes]

    def replies(item):
        place, lines = item
        text = "\n".join(lines).encode() + b"\n"
        smooth = ["--smooth"] if place % 2 else []
        return [subprocess.run([program, "run", "--workers", str(workers)] + smooth, input=text, stdout=subprocess.PIPE,
                               timeout=900).stdout for workers in WORKERS]

    with ThreadPoolExecutor(4) as pool:
        for (place, lines), found in zip(enumerate(texts), pool.map(replies, enumerate(texts))):
            if any(other != found[0] for other in found) or not found[0]:
                yield f"script {place} of seed {seed}: not the same at {WORKERS} workers\n" + "\n".join(lines)[:2000]


def main():
    missed = list(faults(sys.argv[2], int(sys.argv[1]), int(sys.argv[3]) if len(sys.argv) > 3 else 1, (48, 64, 80)))
    for fault in missed[:3]:
        print(fault)
    print(f"{int(sys.argv[1]) + 3 - len(missed)} scripts with the same bytes at {WORKERS} workers, {len(missed)} not")
    return 1 if missed else 0


if __name__ == "__main__":
    sys.exit(main())
