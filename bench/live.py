"""Times a block of 64 updates without asks and with readers beside it, and prints answers per second. See README.md."""

import argparse
import random
import subprocess
import threading
import time

from run import PROGRAM, road, stop_unless_ready

UPDATES = 64
ASKS = 4096
READERS = (1, 4, 8)
SIZES = (60, 128)
RUNS = 5


def opening(n):
    """The lines that make the grid of streets."""
    return [line for line in road(n)[0] if line.startswith(("vertices", "star"))]


def block(n, asks):
    chance = random.Random(n)
    updates = [line for line in road(n)[0] if line.startswith(("edge", "cut"))][:UPDATES]
    places = sorted(chance.randrange(UPDATES + 1) for _ in range(asks))
    lines = ["block"]
    for k in range(UPDATES + 1):
        lines += [f"ask {chance.randrange(n)} {chance.randrange(n)}" for place in places if place == k]
        lines += updates[k:k + 1]
    return lines + ["end", "dist 0 0"]


def bytes_of(lines):
    return ("\n".join(lines) + "\n").encode()


def timed(n, asks, words):
    """Seconds from the first byte of the block to its last reply, behind an opening that was answered."""
    with subprocess.Popen([PROGRAM, "live"] + words, stdin=subprocess.PIPE, stdout=subprocess.PIPE, bufsize=-1) as child:
        child.stdin.write(bytes_of(opening(n) + ["dist 0 0"]))
        child.stdin.flush()
        child.stdout.readline()
        text = bytes_of(block(n, asks))
        writer = threading.Thread(target=lambda: (child.stdin.write(text), child.stdin.flush()))
        start = time.perf_counter()
        writer.start()
        for line in child.stdout:
            if line.startswith(b"dist"):
                break
        seconds = time.perf_counter() - start
        writer.join()
        child.stdin.close()
    return seconds


def main():
    given = argparse.ArgumentParser(description=__doc__, epilog="Other options are the program's, as --workers W and --slots K.")
    _, options = given.parse_known_args()
    stop_unless_ready([])
    print(f"{'vertices':<10}{'readers':>8}{'asks':>8}{'ms/block':>10}{'answers/s':>12}")
    for n in SIZES:
        for readers, asks in [(0, 0)] + [(readers, ASKS) for readers in READERS]:
            words = ["--readers", str(max(readers, 1))] + options
            seconds = min(timed(n, asks, words) for _ in range(RUNS))
            rate = f"{asks / seconds:>12.0f}" if asks else f"{'':>12}"
            print(f"{n:<10}{readers:>8}{asks:>8}{1000 * seconds:>10.1f}{rate}", flush=True)


if __name__ == "__main__":
    main()
