"""Runs the cases of tests/cases against the program, and compares output and status byte for byte.

    tests/run [NAME ..]        all cases, or these

A case is a folder with
    input       standard input; or `parts`, whose lines `COUNT TEXT` stand for TEXT so often, \\n in it for a newline
    expected    standard output (missing: nothing)
    words       the program's words, separated by spaces (missing: none)
    status      the exit status (missing: 0)
    fault       `read K`: reading fails behind the first K bytes; `write K`: writing fails behind them
The scripts of examples are cases too: examples/NAME.txt with NAME.out, run with the words in NAME.words, if any.
users.py has further checks, of the wrapper, the documents, the clients and the examples.
The certificate that each script leads to is checked by the program itself and by a second checker, and both are tried
on two small certificates with each byte changed, and on texts that mean harm. What a script with blocks may be answered is judged by a referee
(blocks.py), random scripts are answered from the definitions (oracle.py), replies are compared at several numbers of workers (workers.py), the memory of a long session is compared
with that of a short one, and each allocation of some runs is refused (memory.py; the latter where there is a C compiler).
"""

import blocks
import certificates
import memory
import oracle
import os
import pty
import resource
import signal
import subprocess
import sys
import tempfile
import tty
from concurrent.futures import ThreadPoolExecutor

import users
import workers

HERE = os.path.dirname(os.path.abspath(__file__))
TOP = os.path.dirname(HERE)
PROGRAM = os.path.join(TOP, "crates", "apsp", "out", "apsp")
# So that no test fails on a machine that has much else to do.
SECONDS = 900
# Examples whose answers leave a choice: a referee judges them.
JUDGED = ("closures",)


def read(folder, name, default=b""):
    path = os.path.join(folder, name)
    if not os.path.exists(path):
        return default
    with open(path, "rb") as file:
        return file.read()


def input_of(folder):
    parts = read(folder, "parts", None)
    if parts is None:
        return read(folder, "input")
    pairs = (line.split(b" ", 1) for line in parts.splitlines())
    return b"".join(text.replace(b"\\n", b"\n") * int(count) for count, text in pairs)


def run_failing_read(command, data):
    """Standard input is a terminal whose other side is closed behind the bytes, so that the next read fails."""
    near, other = pty.openpty()
    tty.setraw(other)
    if data:
        os.write(other, data)
    with subprocess.Popen(command, stdin=near, stdout=subprocess.PIPE, stderr=subprocess.PIPE) as child:
        os.close(other)
        os.close(near)
        output = child.communicate(timeout=SECONDS)[0]
        return output, child.returncode


def run_failing_write(command, data, most):
    """Standard output is a file of a limited size."""
    def limit():
        signal.signal(signal.SIGXFSZ, signal.SIG_IGN)
        resource.setrlimit(resource.RLIMIT_FSIZE, (most, most))
    with tempfile.TemporaryFile() as sink:
        status = subprocess.run(command, input=data, stdout=sink, stderr=subprocess.PIPE, timeout=SECONDS,
                                preexec_fn=limit, restore_signals=False).returncode
        sink.seek(0)
        return sink.read(), status


def run(words, data, fault):
    command = [PROGRAM] + words
    if not fault:
        done = subprocess.run(command, input=data, stdout=subprocess.PIPE, stderr=subprocess.PIPE, timeout=SECONDS)
        return done.stdout, done.returncode
    kind, count = fault[0], int(fault[1])
    if kind == "read":
        return run_failing_read(command, data[:count])
    return run_failing_write(command, data, count)


def cases():
    folder = os.path.join(HERE, "cases")
    for name in sorted(os.listdir(folder)):
        case = os.path.join(folder, name)
        yield (name, read(case, "words").decode().split(), input_of(case), read(case, "expected"),
               int(read(case, "status", b"0")), read(case, "fault").decode().split())
    folder = os.path.join(TOP, "examples")
    for file in sorted(os.listdir(folder)):
        name, ending = os.path.splitext(file)
        if ending == ".txt" and name not in JUDGED:
            yield ("examples/" + name, read(folder, name + ".words").decode().split(), read(folder, file),
                   read(folder, name + ".out"), int(read(folder, name + ".status", b"0")), [])


def certificates_of_scripts():
    """The name of each case that is a script, and the certificate of the version that it ends with."""
    for name, words, data, _, status, fault in cases():
        if words and words[0] != "run" or status > 1 or fault:
            continue
        output, _ = run(words, data + b"\ncert\n", [])
        found = output.rfind(b"apsp certificate 2\n")
        if found >= 0:
            yield name, output[found:]


def check_certificates():
    """Whether each certificate is lawful, and its mutants are judged as the second checker judges them."""
    texts = []
    for name, text in certificates_of_scripts():
        texts.append(("the certificate of " + name, text))
        if not certificates.judge(text)[0].startswith(b"certificate yes"):
            yield f"the certificate of {name}: it is not lawful\n  {short(text)}"
    small = [certificates.joined(certificates.SMALL), certificates.joined(certificates.GROUPED)]
    for name in "certificate-check.txt", "certificate.out":
        with open(os.path.join(TOP, "examples", name), "rb") as file:
            small.append(file.read())
    texts += [("a changed certificate", mutant) for text in small for mutant in certificates.mutants(text)]
    with ThreadPoolExecutor(4) as pool:
        answers = list(pool.map(lambda item: run(["check"], item[1], []), texts))
    for (name, text), answer in zip(texts, answers):
        if answer != certificates.judge(text):
            yield f"{name}: wanted {certificates.judge(text)}, got {answer}\n  {short(text)}"
    hostile = 0
    for name, text in certificates.hostile():
        hostile += 1
        answer = run(["check"], text, [])
        if answer != certificates.judge(text):
            yield f"{name}: wanted {certificates.judge(text)}, got {answer}\n  {short(text)}"
    print(f"{len(texts)} certificates and {hostile} texts that mean harm checked")


def check_blocks():
    """Whether what random scripts with blocks are answered is allowed, and the referee refuses what is not."""
    yield from blocks.faults(PROGRAM, 40)
    yield from blocks.wrongly_judged()
    for name in JUDGED:
        text = read(os.path.join(TOP, "examples"), name + ".txt")
        words = read(os.path.join(TOP, "examples"), name + ".words").decode().split()
        output, status = run(words, text, [])
        fault = blocks.judge(text, output, status, int(words[words.index("--readers") + 1]), lambda data: [])
        if fault:
            yield f"examples/{name}: {fault.decode()}"


def check_workers():
    """Whether the number of workers changes no byte."""
    yield from workers.faults(PROGRAM, 40)


def check_memory():
    """Whether a session keeps nothing that it no longer needs, and a run in which an allocation is refused gives a
    front of the usual output."""
    grown = memory.growth(PROGRAM)
    if grown > memory.MOST_GROWTH:
        yield f"a session that goes on takes {grown} KB more than a short one"
    if not memory.compiler():
        print("memory: skipped, since there is no C compiler")
        return
    with open(os.path.join(TOP, "examples", "certificate.txt"), "rb") as file:
        certificate = run(["run"], file.read(), [])[0]
    for words, data in ((["run"], memory.script(12)), (["run", "--smooth"], memory.script(8)), (["check"], certificate),
                        (["load", "8", "3"], b"")):
        (runs, short_of), *faults = memory.faults(PROGRAM, words, data)
        if not runs or not short_of:
            faults.append(f"{' '.join(words)}: no allocation was refused")
        yield from faults


def check_tables():
    """Whether the mode check takes nothing for tables where a fault is in the first three lines of a certificate, and
    later as much as the number of vertices asks for, whatever else the text says."""
    if not memory.compiler():
        print("tables: skipped, since there is no C compiler")
        return
    found = certificates.tables()
    taken = {n: set(memory.asked(PROGRAM, ["check"], texts)) for n, texts in found.items()}
    for n, kinds in taken.items():
        if len(kinds) != 1:
            yield f"certificates of {n} vertices take {sorted(kinds)} (allocations, bytes)"
    if not any(len(kinds) != 1 for kinds in taken.values()):
        (base, held), = taken[0]
        for n in sorted(set(taken) - {0}):
            (count, asked), = taken[n]
            if count - base != 2 or (asked - held) % (n * n):
                yield f"the tables of {n} vertices take {count - base} allocations of {asked - held} bytes"


def check_definitions():
    """Whether random scripts have the replies that the definitions give."""
    passed, failed = oracle.tried(PROGRAM, 1, 120, 3)
    if failed:
        yield f"{failed} of {passed + failed} random scripts have other replies than the definitions"


CHECKS = {"certificates": check_certificates, "definitions": check_definitions, "blocks": check_blocks, "workers": check_workers, "memory": check_memory, "tables": check_tables}


def short(data):
    return repr(data) if len(data) <= 600 else f"{data[:600]!r}... ({len(data)} bytes)"


def main():
    if not os.access(PROGRAM, os.X_OK):
        print(f"tests/run: {PROGRAM} is not built: run 'rt ci' or './apsp' first")
        print("0 passed, 1 failed")
        return 1
    wanted = sys.argv[1:]
    passed = failed = 0
    for name, words, data, expected, status, fault in cases():
        if wanted and name not in wanted:
            continue
        try:
            got, end = run(words, data, fault)
        except subprocess.TimeoutExpired:
            got, end = b"", f"no end after {SECONDS} s"
        if (got, end) == (expected, status):
            passed += 1
            continue
        failed += 1
        print(f"{name}: words {words}\n  wanted {status} {short(expected)}\n  got    {end} {short(got)}")
    more, missed = users.checks(PROGRAM, wanted)
    passed, failed = passed + more, failed + missed
    for name, check in CHECKS.items():
        if wanted and name not in wanted:
            continue
        faults = list(check())
        for fault in faults:
            print(fault)
        if faults:
            failed += 1
        else:
            passed += 1
    print(f"{passed} passed, {failed} failed")
    return 1 if failed or not passed else 0


if __name__ == "__main__":
    sys.exit(main())
