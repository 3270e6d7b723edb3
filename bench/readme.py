"""Measures all rows of the table of README in one go and prints it in Markdown. See README.md.

Beside the program, with and without smoothing, stand three ways to do without it (recompute.c). Time is processor time, user
and system seconds of one core, in milliseconds per update, questions included: the least of several runs, or that of one run
where it takes more than a few seconds. All replies are compared. The whole takes some four minutes where the machine has
nothing else to do, which it should have. APSP_PROGRAM names another program to measure.
"""

import argparse
import hashlib
import os
import re
import shutil
import subprocess
import sys
import tempfile
import time

import beside
import run

NAMES = ["dense16", "dense64", "dense128", "dense256", "road16", "road60", "road128", "road256", "road512", "sparse64", "sparse128",
         "sparse256", "sparse512", "complete16", "complete32", "complete64"]
# A cell is measured so often, but for its first run no longer than so many processor seconds in all.
RUNS, SECONDS_A_CELL = 5, 3
HEAD = ["this program", "with `--smooth`", "Floyd-Warshall", "Dijkstra", "Dijkstra, asked"]
PEERS = [("tuned peer", ["lhp_tuned"]), ("tuned peer, smoothed", ["lhp_tuned", "--smooth"]), ("best peer", ["lhp_best"])]
START, END = "<!-- measured by bench/readme.py -->\n", "<!-- end of what is measured -->\n"


def measured(text, command):
    """Processor seconds, peak kilobytes and the hash of the replies."""
    replies = hashlib.sha256()
    _, processor, memory, _ = run.measured(text, command, replies)
    return processor, memory, replies.digest()


def measured_to_the_end(text, command):
    """The same of a peer, which reads its input to the end first. Its own timer, which is small, runs it, so that the peak of
    memory is not that of this process."""
    timer = os.path.join(os.path.dirname(command[0]), "timer")
    with tempfile.NamedTemporaryFile() as script, tempfile.NamedTemporaryFile() as told:
        script.write(text)
        script.flush()
        done = subprocess.run([timer, script.name, told.name, "300", *command], stdout=subprocess.PIPE, check=True, text=True)
        status, _, user, system, memory = map(int, done.stdout.split())
        if status:
            sys.exit(f"bench: {' '.join(command)} ended with status {status}")
        replies = b"".join(line for line in told if not line.startswith(b"stats"))
    return (user + system) / 1e6, memory, hashlib.sha256(replies).digest()


def cell(name, text, command, wanted, how):
    """The least processor seconds and the peak kilobytes of some runs. Their replies have to be what is wanted, if it is known."""
    found, spent = [], 0
    while not found or (len(found) < RUNS and spent + found[-1][0] <= SECONDS_A_CELL):
        processor, memory, replies = how(text, command)
        if wanted.setdefault(name, replies) != replies:
            sys.exit(f"bench: the replies of {' '.join(command)} to {name} differ")
        found.append((processor, memory))
        spent += processor
    return min(one[0] for one in found), min(one[1] for one in found)


def built_peers(source, folder):
    """Copies a folder of peers, which has a Makefile, and builds those of the same method there."""
    copy = os.path.join(folder, "peers")
    shutil.copytree(source, copy, ignore=shutil.ignore_patterns("build", "results"))
    subprocess.run(["make", "-s", "-C", copy, "build/timer", "build/lhp_tuned", "build/lhp_best"], check=True)
    return [(told, [os.path.join(copy, "build", words[0]), *words[1:]]) for told, words in PEERS]


def machine():
    """The machine in words."""
    with open("/proc/cpuinfo", encoding="utf-8", errors="replace") as file:
        model = re.search(r"^model name\s*: (.*)$", file.read(), re.M)
    cores, busy = os.cpu_count(), os.getloadavg()[0]
    return f"{cores} processors, {model[1].strip() if model else 'of no known model'}, a load of {busy:.1f} when it began"


def rows(names, folder, peers):
    head = ["script"] + HEAD + [told for told, _ in peers] + ["MB, this program", "MB, recomputing"]
    yield "| " + " | ".join(head) + " |"
    yield "|---" * len(head) + "|"
    wanted = {}
    for name in names:
        kind, n = run.SCRIPTS.get(name) or run.NAMED[name]
        anew = beside.recomputation(folder, n)
        lines, updates = kind(n)
        text = run.text_of(lines)
        commands = [[run.PROGRAM, "run"], [run.PROGRAM, "run", "--smooth"], [anew, "floyd"], [anew, "dijkstra"], [anew, "asked"]]
        found = [cell(name, text, command, wanted, measured) for command in commands]
        found += [cell(name, text, command, wanted, measured_to_the_end) for _, command in peers]
        times = [f"{1000 * seconds / updates:.3f}" for seconds, _ in found]
        yield "| " + " | ".join([name, *times, f"{found[0][1] / 1024:.1f}", f"{found[2][1] / 1024:.1f}"]) + " |"


def main():
    given = argparse.ArgumentParser(description=__doc__, formatter_class=argparse.RawTextHelpFormatter)
    given.add_argument("names", nargs="*", metavar="NAME", help="scripts of bench/run.py; else all that README has")
    given.add_argument("--peers", metavar="FOLDER", help="also peers of the same method, built by make in a copy of this folder")
    given.add_argument("--write", action="store_true", help="puts the table into README, in place of what was measured before")
    given = given.parse_args()
    names = given.names or NAMES
    run.stop_unless_ready(names)
    begun, told = time.monotonic(), [machine()]
    with tempfile.TemporaryDirectory() as folder:
        peers = built_peers(given.peers, folder) if given.peers else []
        for row in rows(names, folder, peers):
            told.append(row)
            print(row, flush=True)
    told.append(f"\nThe machine: {told.pop(0)}. Each cell is the least of up to {RUNS} runs.")
    print(told[-1])
    print(f"bench: that took {time.monotonic() - begun:.0f} seconds", file=sys.stderr)
    if given.write:
        page = os.path.join(run.TOP, "README.md")
        with open(page, encoding="utf-8") as file:
            front, between, rest = file.read().partition(START)
        behind = rest.partition(END)
        if not between or not behind[1]:
            sys.exit(f"bench: {page} has no place for the table")
        with open(page, "w", encoding="utf-8") as file:
            file.write(front + START + "\n" + "\n".join(told) + "\n\n" + END + behind[2])


if __name__ == "__main__":
    main()
