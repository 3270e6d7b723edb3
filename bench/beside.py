"""Prints the table of README: an update of this program beside a recomputation of all pairs. See README.md."""

import os
import shutil
import subprocess
import sys
import tempfile

import run

RUNS = 3
NAMES = ["dense16", "dense64", "dense128", "road16", "road60", "road128", "sparse64", "sparse128"]


def recomputation(folder, n):
    """Builds recompute.c for n vertices."""
    compiler = os.environ.get("CC") or shutil.which("cc") or shutil.which("gcc") or shutil.which("clang")
    if not compiler:
        sys.exit("bench: there is no C compiler, which the recomputation needs")
    built = os.path.join(folder, "recompute")
    source = os.path.join(run.TOP, "bench", "recompute.c")
    words = ["-O3", "-march=native", "-std=c11", f"-DMOST={(n + 7) // 8 * 8}"]
    subprocess.run([compiler, *words, "-o", built, source], check=True)
    return built


def distances(text, command):
    done = subprocess.run(command, input=text, stdout=subprocess.PIPE, check=True)
    return [line for line in done.stdout.splitlines() if not line.startswith(b"stats")]


def least(text, updates, command):
    """Processor milliseconds per update and peak megabytes, of the run with the least time."""
    _, processor, memory, _ = min((run.measured(text, command) for _ in range(RUNS)), key=lambda one: one[1])
    return 1000 * processor / updates, memory / 1024


def main():
    names = run.named(__doc__).names or NAMES
    run.stop_unless_ready(names)
    print("| script | this program | with `--smooth` | Floyd-Warshall | Dijkstra | MB, this program | MB, recomputing |")
    print("|---|---|---|---|---|---|---|")
    with tempfile.TemporaryDirectory() as folder:
        for name in names:
            kind, n = run.SCRIPTS.get(name) or run.NAMED[name]
            anew = recomputation(folder, n)
            lines, updates = kind(n)
            text = run.text_of(lines)
            commands = [[run.PROGRAM, "run"], [run.PROGRAM, "run", "--smooth"], [anew, "floyd"], [anew, "dijkstra"]]
            if any(distances(text, command) != distances(text, commands[0]) for command in commands[1:]):
                sys.exit(f"bench: the replies to {name} differ")
            found = [least(text, updates, command) for command in commands]
            times = " | ".join(f"{ms:.3f}" for ms, _ in found)
            print(f"| {name} | {times} | {found[0][1]:.1f} | {found[2][1]:.1f} |", flush=True)


if __name__ == "__main__":
    main()
