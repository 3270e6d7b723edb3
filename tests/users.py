"""What a user meets beside the program: the wrapper, the documents' commands, the clients and the examples."""

import os
import pty
import re
import shlex
import shutil
import subprocess
import sys
import tempfile

HERE = os.path.dirname(os.path.abspath(__file__))
TOP = os.path.dirname(HERE)
# So that no test fails on a machine that has much else to do.
SECONDS = 900

FAKE_RT = """#!/bin/sh
# Stands for the prover: leaves what it would leave of a library, and then of the program.
mkdir -p ../low/out/rlib && touch ../low/out/rlib/stamp
sleep 0.7
%s
"""


class Skip(Exception):
    """A check that cannot be made here, and why."""


def same(got, wanted, what):
    if got != wanted:
        raise AssertionError(f"{what}\n  wanted {wanted!r}\n  got    {got!r}")


def text_of(*names):
    with open(os.path.join(TOP, *names), encoding="utf-8") as file:
        return file.read()


def run(words, **how):
    return subprocess.run(words, stdout=subprocess.PIPE, stderr=subprocess.PIPE, timeout=SECONDS, text=True, **how)


def on_a_terminal(words, **how):
    """What is written on standard error where that is a terminal."""
    near, other = pty.openpty()
    with subprocess.Popen(words, stdout=subprocess.DEVNULL, stderr=other, **how):
        os.close(other)
        told = b""
        try:
            while piece := os.read(near, 65536):
                told += piece
        except OSError:
            # The other side was closed.
            pass
        os.close(near)
    return told.decode()


class Checkout:
    """A copy of what a user sees of a checkout, with the program or without it, and no crate's sources."""

    def __init__(self, program=None):
        self.folder = tempfile.TemporaryDirectory()
        self.top = self.folder.name
        for name in ("docs", "examples", "wrapper", "clients"):
            shutil.copytree(os.path.join(TOP, name), os.path.join(self.top, name))
        for name in ("apsp", "VERSION"):
            shutil.copy2(os.path.join(TOP, name), self.top)
        with open(os.path.join(self.top, "crates.txt"), "w", encoding="ascii") as file:
            file.write("low:\naside: low\napsp: low\n")
        for folder in ("src", "specs", "proofs"):
            os.makedirs(os.path.join(self.top, "crates", "apsp", folder))
        if program:
            os.makedirs(os.path.join(self.top, "crates", "apsp", "out"))
            self.program = os.path.join(self.top, "crates", "apsp", "out", "apsp")
            shutil.copy(program, self.program)

    def __enter__(self):
        return self

    def __exit__(self, *_):
        self.folder.cleanup()

    def apsp(self, *words, **how):
        return run([os.path.join(self.top, "apsp"), *words], **how)

    def with_rt(self, leaves):
        """The environment with a prover that is none, or with none at all."""
        folder = os.path.join(self.top, "bin")
        os.makedirs(folder, exist_ok=True)
        rt = os.path.join(folder, "rt")
        with open(rt, "w", encoding="ascii") as file:
            file.write(FAKE_RT % leaves)
        os.chmod(rt, 0o755)
        return dict(os.environ, PATH=f"{folder}:/usr/bin:/bin", TMPDIR=self.top)


def help_builds_nothing(_program):
    with Checkout() as here:
        usage, version = text_of("wrapper", "usage.txt"), text_of("VERSION")
        for words, wanted in ([["help"], usage], [["--help"], usage], [["-h"], usage], [["--version"], version], [["-V"], version]):
            done = here.apsp(*words, env={"PATH": "/usr/bin:/bin"})
            same((done.returncode, done.stdout, done.stderr), (0, wanted, ""), words)
        done = here.apsp(env={"PATH": "/usr/bin:/bin"})
        same((done.returncode, done.stdout), (127, ""), "neither the program nor rt is there")


def words_that_are_none_get_the_usage(program):
    with Checkout(program) as here:
        for words in (["runs"], ["run", "--smooth", "--smooth"]):
            done = here.apsp(*words, input="")
            told, _, usage = done.stderr.partition("\n")
            same((done.returncode, done.stdout, usage, told[:6]), (2, "", text_of("wrapper", "usage.txt"), "apsp: "), words)


def a_link_leads_to_the_program(program):
    with Checkout(program) as here:
        os.makedirs(os.path.join(here.top, "elsewhere"))
        link = os.path.join(here.top, "elsewhere", "shortest")
        os.symlink("../apsp", link)
        done = run([link, "run"], input="vertices 2\ndist 0 1\nfoo\n")
        same((done.returncode, done.stdout), (1, "dist 0 1 none\nline 3 error 3 at 1\n"), "through a link")


def a_build_names_each_crate(program):
    with Checkout() as here:
        leaves = f"mkdir -p out && cp {shlex.quote(program)} out/apsp"
        done = here.apsp(input="vertices 2\ndist 0 1\n", env=here.with_rt(leaves))
        same((done.returncode, done.stdout), (0, "dist 0 1 none\n"), "what is built runs")
        told = done.stderr.splitlines()
        same(told[1:], ["apsp: low is proved (1 of 2)", "apsp: apsp is proved (2 of 2)"], "the crates")
        log = told[0].split()[-1]
        same((log.startswith(here.top), os.path.exists(log)), (True, False), "the log is named, and removed at the end")


def a_build_that_fails_says_where_the_log_is(_program):
    with Checkout() as here:
        done = here.apsp(input="vertices 2\n", env=here.with_rt("echo not proved; exit 1"))
        same((done.returncode, done.stdout), (127, ""), "no program")
        last = done.stderr.splitlines()[-1]
        log = last.split()[-1]
        same((last, os.path.exists(log)), (f"apsp: the build failed; the log is {log}", True), "the log stays")
        same(done.stderr.splitlines()[-3:-1], ["apsp: low is proved (1 of 2)", "not proved"], "what was proved, and the log's end")


SECTIONS = ["NAME", "SYNOPSIS", "DESCRIPTION", "OPTIONS", "LINES OF A SCRIPT", "EXIT STATUS", "ENVIRONMENT", "EXAMPLES"]


def the_manual_has_the_usage(program):
    lines = text_of("docs", "apsp.1").replace("\\-", "-").replace("\\e", "\\").splitlines()
    same([line[4:] for line in lines if line.startswith(".SH ")], SECTIONS, "the sections of docs/apsp.1")
    title, *groups = [group.splitlines() for group in text_of("wrapper", "usage.txt").split("\n\n")]
    same([line for line in title if line not in lines], [], "the line of NAME")
    for group in groups:
        usage = [line for line in group if line.startswith("  ") or not group[-1].startswith("  ")]
        rest = iter(lines)
        same([line for line in usage if line not in rest], [], "lines of wrapper/usage.txt that docs/apsp.1 has not, or not in their order")
    examples = lines[lines.index(".SH EXAMPLES") + 2:lines.index(".fi", lines.index(".SH EXAMPLES"))]
    with Checkout(program) as here:
        for command, shown in zip(examples[::2], examples[1::2]):
            done = run(["bash", "-c", command[2:]], cwd=here.top)
            same((done.returncode, done.stdout, done.stderr), (0, shown + "\n", ""), command)


def the_reading_list_is_that_of_the_sources(_program):
    done = run([sys.executable, "-B", os.path.join(HERE, "reading_list.py"), "--check"])
    same((done.returncode, done.stderr), (0, ""), "CONTRIBUTING.md")


def the_picture_is_that_of_the_crates(_program):
    done = run([sys.executable, "-B", os.path.join(HERE, "crate_graph.py"), "--check"])
    same((done.returncode, done.stderr), (0, ""), "docs/ARCHITECTURE.md")


def wrong_lines():
    """The rows of FORMATS that have a wrong line: the code, the mode, the script, the line, its reply and what is expected."""
    row = re.compile(r"^\| (\d+) \| (.*) \| `(line .*)` \| (.*) \|$", re.M)
    many = re.compile(r"`(.*)` behind ([\d,]+) lines `(.*)`")
    for number, text, reply, expected in row.findall(text_of("docs", "FORMATS.md")):
        code, before, line = int(number), "", "x" * 65537 if number == "10" else text.strip("`")
        if many.fullmatch(text):
            line, count, other = many.fullmatch(text).groups()
            before = (other + "\n") * int(count.replace(",", ""))
        of_block = code in (12, 13, 14)
        opening = ("" if code == 1 else "vertices 3\n") + ("block\n" if of_block else "")
        end = "end\n" if of_block else ""
        yield code, "live" if of_block else "run", opening + before + line + "\n" + end, line, reply, expected


def each_code_has_its_wrong_line(program):
    codes = []
    for code, mode, script, line, reply, _ in wrong_lines():
        codes.append(code)
        done = run([program, mode], input=script)
        same((done.returncode, done.stdout), (1, reply + "\n"), line[:80])
    same(codes, list(range(1, 1 + len(codes))), "the codes of docs/FORMATS.md")
    assert codes, "no wrong line is read from docs/FORMATS.md"


def explain_says_what_is_expected(program):
    with Checkout(program) as here:
        for _, mode, script, line, reply, expected in wrong_lines():
            with open(os.path.join(here.top, "wrong.txt"), "w", encoding="ascii") as file:
                file.write(script)
            words = ["explain", "wrong.txt"] + (["live"] if mode == "live" else [])
            done = here.apsp(*words, cwd=here.top)
            told = done.stdout.splitlines()
            form = {"dist 0": "dist X Y, 3 words"}.get(line, expected)
            same((done.returncode, done.stderr, len(told)), (1, "", 4), line[:80])
            same((told[0], told[3]), (reply, f"  expected: {form}"), line[:80])
            assert told[1].strip()[:80] in line[:80], told[1][:90]
        done = here.apsp("explain", "nothing.txt", cwd=here.top)
        same((done.returncode, done.stdout), (2, ""), "a script that is not there")
        with open(os.path.join(here.top, "wrong.txt"), "w", encoding="ascii") as file:
            file.write("vertices 3\ndist 0 3\n")
        piped = here.apsp("explain", "/dev/stdin", cwd=here.top, input="vertices 3\ndist 0 3\n")
        same((piped.returncode, piped.stdout), (1, here.apsp("explain", "wrong.txt", cwd=here.top).stdout), "a script from a pipe")
        done = here.apsp("explain", "wrong.txt", "live", "--foo", cwd=here.top)
        same((done.returncode, done.stdout), (2, ""), "an option that is none")
        said = "apsp: '--foo' is no option of live: --workers --readers --slots --smooth"
        same(done.stderr.splitlines()[0], said, "an option that is none")


def codes():
    """The name of each code in FORMATS."""
    refusals = text_of("docs", "FORMATS.md").partition("\n## Refusals\n")[2].partition("\n## ")[0]
    return {int(code): name for code, name in re.findall(r"^\| (\d+) \| ([A-Z]\w+) \|", refusals, re.M)}


def explain_knows_each_code(_program):
    """Also those that no line of the modes run and live is refused with."""
    awk = shutil.which("awk")
    if not awk:
        raise Skip("no awk is here")
    found = codes()
    same(sorted(found), list(range(1, 1 + len(found))), "the codes of docs/FORMATS.md")
    with tempfile.TemporaryDirectory() as folder:
        script, replies = os.path.join(folder, "script"), os.path.join(folder, "replies")
        for code, name in found.items():
            with open(script, "w", encoding="ascii") as file:
                file.write("vertices 3\ngrow 3 4\n")
            with open(replies, "w", encoding="ascii") as file:
                file.write(f"line 2 error {code} at 2\n")
            done = run([awk, "-f", os.path.join(TOP, "wrapper", "explain.awk"), "part=formats", os.path.join(TOP, "docs", "FORMATS.md"),
                        "part=script", script, "part=replies", replies])
            told = done.stdout.splitlines()
            same((len(told), told[1], told[2].split(":")[0]), (4, "  grow 3 4", f"  {name}, at word 2 (3)"), code)
            assert re.fullmatch(r"  expected: .{10,}", told[3]) and len(told[2]) > len(name) + 30, told


def the_clients_know_each_code(_program):
    """The names of both clients, the constants of the header and what they say is expected, beside docs/FORMATS.md."""
    source, header, python = text_of("clients", "c", "apsp.c"), text_of("clients", "c", "apsp.h"), text_of("clients", "python", "apsp.py")
    in_c = re.findall(r'^    \{"(\w+)", "([^"]+)"\},$', source, re.M)
    same({place: name for place, (name, _) in enumerate(in_c, 1)}, codes(), "the names of clients/c/apsp.c")
    constants = header.partition("APSP_NO_VERTICES = 1,")[0].rpartition("enum {")[2] + header.partition("APSP_NO_VERTICES = 1,")[2]
    listed = ["APSP_NO_VERTICES"] + re.findall(r"APSP_\w+", constants.partition("}")[0])
    same(listed, ["APSP" + re.sub("([A-Z])", r"_\1", name).upper() for name in codes().values()], "the constants of clients/c/apsp.h")
    kinds = re.findall(r'^class (\w+)\(Refused\):\n.*\n\n    code, expected = (\d+), "([^"]+)"$', python, re.M)
    same({int(code): name for name, code, _ in kinds}, codes(), "the exceptions of clients/python/apsp.py")
    of_python = {name: expected.replace("made with live=True", "that apsp_open_live made") for name, _, expected in kinds}
    same(of_python, dict(in_c), "what the clients say is expected")


def a_file_stands_for_standard_input(program):
    with Checkout(program) as here:
        with open(os.path.join(here.top, "script.txt"), "w", encoding="ascii") as file:
            file.write("vertices 2\nedge 0 1 0\ndist 0 1\n")
        done = here.apsp("run", "script.txt", "--smooth", cwd=here.top)
        same((done.returncode, done.stdout, done.stderr), (0, "dist 0 1 0\n", ""), "a file behind run")
        done = here.apsp("live", "examples/block.txt", "--readers", "2", cwd=here.top)
        same((done.returncode, done.stdout, done.stderr), (0, text_of("examples", "block.out"), ""), "a file behind live")
        done = here.apsp("check", "examples/certificate-check.txt", cwd=here.top)
        same((done.returncode, done.stdout, done.stderr), (0, text_of("examples", "certificate-check.out"), ""), "a file behind check")
        done = here.apsp("run", "nothing.txt", cwd=here.top)
        said = "apsp: 'nothing.txt' is no file that can be read\n"
        same((done.returncode, done.stdout, done.stderr), (2, "", said), "a file that is not there")


def a_wrong_word_is_named(program):
    with Checkout(program) as here:
        for words, said in [
            (["walk"], "'walk' is no mode: run, live, check or load"),
            (["run", "--workers", "65"], "'65' behind --workers is no number from 1 to 64"),
            (["live", "--slots", "1"], "'1' behind --slots is no number from 2 to 64"),
            (["run", "--smooth", "--smooth"], "--smooth stands twice"),
            (["check", "--smooth"], "'--smooth' is no option of check"),
            (["load", "1", "7"], "'1' is no number of vertices from 2 to 128: load N SEED"),
            (["load", "3", "x"], "'x' is no seed, a number of at most ten digits: load N SEED"),
        ]:
            done = here.apsp(*words, input="")
            same((done.returncode, done.stdout, done.stderr.splitlines()[0]), (2, "", f"apsp: {said}"), words)


def an_older_program_runs_without_rt(program):
    with Checkout(program) as here:
        os.utime(here.program, (1, 1))
        done = here.apsp("run", input="vertices 2\ndist 0 1\n", env={"PATH": "/usr/bin:/bin"})
        same((done.returncode, done.stdout), (0, "dist 0 1 none\n"), "the program as it is")
        assert "older than its sources" in done.stderr, done.stderr


def pages():
    """The documents that show commands, and their text."""
    for folder in ("", "docs", "examples"):
        for name in sorted(os.listdir(os.path.join(TOP, folder))):
            if name.endswith(".md"):
                yield os.path.join(folder, name), text_of(folder, name)


def shown_commands():
    """Each command that stands behind `$ ` in a document, with the output below it."""
    for page, text in pages():
        for block in re.findall(r"^```\w*\n(.*?)^```$", text, re.M | re.S):
            for command, output in re.findall(r"^\$ (.*)\n((?:(?!\$ ).*\n)*)", block, re.M):
                yield page, command, output


def commands_of_the_documents(program):
    found = 0
    with Checkout(program) as here:
        for page, command, output in shown_commands():
            done = run(["bash", "-c", command], cwd=here.top)
            same(done.stdout, output, f"{page}: {command}\n  {done.stderr[-600:]}")
            found += 1
    assert found >= 4, f"only {found} commands were found"


def code_of_the_documents(program):
    """Each block of Python prints what the comments behind its prints say."""
    how = dict(os.environ, APSP_PROGRAM=program, PYTHONPATH=os.path.join(TOP, "clients", "python"))
    for page, text in pages():
        for block in re.findall(r"^```python\n(.*?)^```$", text, re.M | re.S):
            done = run([sys.executable, "-B", "-c", block], env=how)
            wanted = re.findall(r"print\(.*\) +# (.*)", block)
            same(done.stdout.splitlines(), wanted, f"{page}: {block}\n{done.stderr[-600:]}")


def pictures_of_the_examples(program):
    how = dict(os.environ, APSP_PROGRAM=program)
    with Checkout(program) as here:
        for name in ("planner", "simulator"):
            done = run([sys.executable, f"examples/{name}.py", "--svg", "new.svg"], cwd=here.top, env=how)
            same((done.returncode, done.stderr), (0, ""), name)
            with open(os.path.join(here.top, "new.svg"), encoding="ascii") as file:
                same(file.read() == text_of("examples", f"{name}.svg"), True, f"examples/{name}.svg is what {name}.py draws")
        for text, words, told in [
            ("vertices 3\nedge 0 1 5\nedge 1 2 5\n", ["--from", "0", "--to", "2"], "from 0 to 2: 10 m by 0 1 2"),
            ("vertices 3\nedge 0 1 5\n", ["--from", "0", "--to", "2"], "no way leads from 0 to 2"),
            ("vertices 3\nedge 0 1 5\n", ["--from", "0", "--to", "3"], "planner.py: 3 is no crossing: there are 0 to 2"),
            ("vertices 2\nedge 0 1 5\nreport\ngrow 3\necc 0\nthrough 0\nedge 1 2 6\n", ["--from", "0", "--to", "2"],
             "from 0 to 2: 11 m by 0 1 2"),
            ("vertices 3\nblock\n", [], "planner.py: line 2 of way.txt is not understood: block"),
        ]:
            with open(os.path.join(here.top, "way.txt"), "w", encoding="ascii") as file:
                file.write(text)
            done = run([sys.executable, "examples/planner.py", "--town", "way.txt", *words], cwd=here.top, env=how)
            same((done.stdout or done.stderr).splitlines()[0], told, text)
            assert "Traceback" not in done.stderr, done.stderr
        places = "".join(f"# place {v} {100 * v} 0\n" for v in range(8))
        with open(os.path.join(here.top, "way.txt"), "w", encoding="ascii") as file:
            file.write("vertices 8\n" + places + "".join(f"edge {v} {v + 1} 100\n" for v in range(6)))
        done = run([sys.executable, "examples/simulator.py", "--town", "way.txt", "--svg", "way.svg"], cwd=here.top, env=how)
        same((done.returncode, done.stderr), (0, ""), "one-way streets, and a crossing out of reach")
        assert "walkers found no way to their goal" in done.stdout, done.stdout
        bar = on_a_terminal([sys.executable, "examples/simulator.py"], cwd=here.top, env=how)
        same("] 24 of 24 walkers are there" in bar, True, f"the bar of progress: {bar[-200:]}")
        done = run([sys.executable, "examples/planner.py", "--check"], cwd=here.top, env=how)
        verdict = done.stdout.splitlines()[-1]
        same(verdict, "certificate yes 80", "the checker's verdict on the planner's certificate")


def an_example_has_each_line(_program):
    section = text_of("docs", "FORMATS.md").partition("\n## Lines of a script\n")[2].partition("\n## ")[0]
    known = re.findall(r"^\| `([a-z]+)", section, re.M)
    used = {line.split()[0] for line in text_of("examples", "every-line.txt").splitlines()}
    same(([word for word in known if word not in used], len(known) > 10), ([], True), "commands that examples/every-line.txt has not")


def the_bench_says_what_is_missing(program):
    bench = os.path.join(TOP, "bench", "run.py")
    for name, wanted in (("run", "Runs generated scripts"), ("beside", "beside a recomputation"), ("live", "a block of 64 updates"),
                         ("clients", "many written before the first reply"), ("readme", "all rows of the table of README")):
        done = run([sys.executable, "-B", os.path.join(TOP, "bench", name + ".py"), "--help"])
        same((done.returncode, wanted in done.stdout), (0, True), name)
    for named, words, wanted in (
        ("/nonexistent", [], "/nonexistent is not built"),
        (program, ["dense17"], "there is no script dense17"),
    ):
        done = run([sys.executable, "-B", bench, *words], env=dict(os.environ, APSP_PROGRAM=named))
        same((done.returncode, done.stdout, len(done.stderr.splitlines())), (1, "", 1), words)
        assert wanted in done.stderr, done.stderr


def the_bench_measures(program):
    """A small script by each part of the bench: it runs, the replies of all ways are the same, and each row has its numbers."""
    compiler = os.environ.get("CC") or shutil.which("cc") or shutil.which("gcc") or shutil.which("clang")
    how = dict(os.environ, APSP_PROGRAM=program)
    done = run([sys.executable, "-B", os.path.join(TOP, "bench", "clients.py"), "--runs", "1", "--vertices", "16"], env=how)
    rows = re.findall(r"^\| (Python|C) \| 16 \| \d+ \w+(?: \| [\d.-]+){6} \|$", done.stdout, re.M)
    same((done.returncode, rows), (0, ["Python"] + ["C"] * bool(compiler) + ["Python"]), done.stdout + done.stderr)
    if not compiler:
        raise Skip("no C compiler is here, which the recomputations need")
    with Checkout(program) as here:
        shutil.copytree(os.path.join(TOP, "bench"), os.path.join(here.top, "bench"))
        shutil.copy2(os.path.join(TOP, "README.md"), here.top)
        words = ["bench/readme.py", "--write", "dense16", "sparse16"]
        done = run([sys.executable, "-B", *words], cwd=here.top, env=how)
        rows = re.findall(r"^\| (\w+)((?: \| [\d.]+){7}) \|$", done.stdout, re.M)
        same((done.returncode, [row[0] for row in rows]), (0, ["dense16", "sparse16"]), done.stdout + done.stderr)
        with open(os.path.join(here.top, "README.md"), encoding="utf-8") as file:
            written = file.read()
        page = text_of("README.md")
        start, end = "<!-- measured by bench/readme.py -->\n", "<!-- end of what is measured -->\n"
        same(written.partition(start)[2].partition(end)[0].strip(), done.stdout.strip(), "what stands in README")
        same((written.partition(start)[0], written.partition(end)[2]), (page.partition(start)[0], page.partition(end)[2]), "the rest")


def client_in_python(program):
    tests = os.path.join(TOP, "clients", "python", "test_apsp.py")
    done = run([sys.executable, "-B", "-X", "dev", "-W", "error", tests, "-v"], env=dict(os.environ, APSP_PROGRAM=program))
    same(done.returncode, 0, done.stderr[-3000:])
    for why in sorted(set(re.findall(r"skipped '(.*)'", done.stderr))):
        print(f"client_in_python: skipped in part: {why}")


def client_in_c(program):
    compiler = os.environ.get("CC") or shutil.which("cc") or shutil.which("gcc") or shutil.which("clang")
    if not compiler:
        raise Skip("no C compiler is here")
    with tempfile.TemporaryDirectory() as folder:
        built = os.path.join(folder, "test_apsp")
        sources = [os.path.join(TOP, "clients", "c", name) for name in ("apsp.c", "test_apsp.c")]
        strict = [compiler, "-std=c11", "-O1", "-g", "-Wall", "-Wextra", "-pthread", "-o", built, *sources]
        for sanitizer in ([], ["-fsanitize=address,undefined"], ["-fsanitize=thread"]):
            done = run(strict + sanitizer)
            if sanitizer and done.returncode:
                print(f"client_in_c: skipped in part, since the compiler has no {sanitizer[0]} here")
                continue
            same((done.returncode, done.stderr), (0, ""), f"the client compiles without a warning {sanitizer}")
            done = run([built, program])
            same((done.returncode, done.stdout), (0, ""), f"{sanitizer} {done.stderr[-2000:]}")
        defined = run([compiler, "-std=c11", "-Wall", "-Wextra", "-D_GNU_SOURCE", "-c", sources[0], "-o", built + ".o"])
        same((defined.returncode, defined.stderr), (0, ""), "the client compiles where _GNU_SOURCE is defined")
        other = shutil.which("c++") or shutil.which("g++") or shutil.which("clang++")
        if other:
            header = os.path.join(TOP, "clients", "c", "apsp.h")
            done = run([other, "-x", "c++", "-std=c++11", "-Wall", "-Wextra", "-fsyntax-only", header])
            same((done.returncode, done.stderr), (0, ""), "the header in C++")
        else:
            print("client_in_c: skipped in part, since no C++ compiler is here")
        if shutil.which("valgrind"):
            # It sees what no sanitizer of gcc sees: what is read before it is written.
            plain = run(strict)
            same((plain.returncode, plain.stderr), (0, ""), "the client compiles")
            done = run(["valgrind", "-q", "--error-exitcode=99", built, program])
            same((done.returncode, done.stdout), (0, ""), done.stderr[-2000:])


def graphs_are_converted(program):
    with Checkout(program) as here:
        for form, text, words, wanted in [
            ("dimacs", "c two ways\np sp 4 5\na 1 2 4\na 2 3 3\na 1 3 9\na 1 3 8\na 2 2 1\n", [],
             "vertices 4\nstar 0 out 1:4 2:8\nstar 1 out 2:3 in 0:4\n"),
            ("csv", "from,to,weight\na,b,0.5\nb,a,1.5\na,c d,2\n", ["--scale", "2"],
             "vertices 3\n# name 0 a\n# name 1 b\n# name 2 c d\nstar 0 out 1:1 2:4\nstar 1 out 0:3 in 0:1\n"),
            ("graphml", '<graphml><key id="d0" for="edge" attr.name="weight"/><graph edgedefault="undirected"><node id="x"/>'
             '<node id="y"/><edge source="x" target="y"><data key="d0">7</data></edge></graph></graphml>', [],
             "vertices 2\n# name 0 x\n# name 1 y\nstar 0 out 1:7\nstar 1 out 0:7 in 0:7\n"),
        ]:
            with open(os.path.join(here.top, "graph"), "w", encoding="utf-8") as file:
                file.write(text)
            done = here.apsp("convert", form, "graph", *words, cwd=here.top)
            same((done.returncode, done.stdout, done.stderr), (0, wanted, ""), form)
            asked = here.apsp("run", input=done.stdout + "dist 0 1\n")
            same((asked.returncode, asked.stdout.split()[:3]), (0, ["dist", "0", "1"]), "the script is accepted")
        for form, text, told in [
            ("dimacs", "p sp 2 1\na 1 3 4\n", "line 2: 3 is no vertex of the line 'p sp N M'"),
            ("csv", "a,b,1\na,b,x\n", "line 2: 'x' is no weight"),
            ("csv", "a,b,1.5\n", "line 1: the weight 1.5 is no whole number: give a --scale"),
            ("csv", "a,b,4294967296\n", "line 1: the weight 4294967296 is outside 0 to 4294967295"),
            ("graphml", "<graphml>\n<graph>\n<node id='x'/>\n", "line 4: no element found"),
            ("graphml", "<graphml><graph><node id='x'/>\n<edge source='x' target='y'/></graph></graphml>", "line 2: there is no node 'y'"),
            ("csv", "".join(f"a{v},a{v + 1},1\n" for v in range(512)), "line 512: more than 512 vertices"),
            ("csv", "", "line 1: there is no vertex"),
        ]:
            with open(os.path.join(here.top, "graph"), "w", encoding="utf-8") as file:
                file.write(text)
            done = here.apsp("convert", form, "graph", cwd=here.top)
            same((done.returncode, done.stdout, done.stderr), (1, "", f"apsp convert: graph, {told}\n"), text)


def an_installed_program_is_used(program):
    make = shutil.which("make")
    if not make:
        raise Skip("no make is here")
    with Checkout(program) as here, tempfile.TemporaryDirectory() as prefix:
        for name in ("Makefile", "README.md", "CHANGELOG.md"):
            shutil.copy2(os.path.join(TOP, name), here.top)
        done = run([make, "install", f"PREFIX={prefix}"], cwd=here.top)
        same(done.returncode, 0, done.stderr)
        installed = os.path.join(prefix, "bin", "apsp")
        done = run([installed, "run"], input="vertices 2\nedge 0 1 7\ndist 0 1\n", cwd="/")
        same((done.returncode, done.stdout, done.stderr), (0, "dist 0 1 7\n", ""), "bin/apsp")
        done = run([installed, "--version"], cwd="/")
        same(done.stdout, text_of("VERSION"), "its version")
        code = ("import apsp; n = apsp.Network(2); n.edge(0, 1, 7); print(n.dist(0, 1), n.add_vertices(), n.report().diameter, "
                "n.eccentricity(0).reach, n.through(0), n.close())")
        where = os.path.join(prefix, "share", "apsp", "python")
        done = run([sys.executable, "-c", code], cwd="/", env=dict(os.environ, PYTHONPATH=where, APSP_PROGRAM=installed))
        same((done.returncode, done.stdout), (0, "7 [2] 7 2 0 0\n"), done.stderr)
        compiler = shutil.which("cc") or shutil.which("gcc")
        if compiler:
            source = os.path.join(prefix, "use.c")
            with open(source, "w", encoding="ascii") as file:
                file.write('#include <apsp.h>\nint main(int n, char **w) { return n - 2 + apsp_close(apsp_open(w[1], 3, 0)); }\n')
            built = os.path.join(prefix, "use")
            done = run([compiler, source, f"-I{prefix}/include", f"-L{prefix}/lib", "-lapsp", "-o", built])
            same(done.returncode, 0, done.stderr)
            same(run([built, installed]).returncode, 0, "a program with the library")
        settings = os.path.join(prefix, "lib", "pkgconfig")
        with open(os.path.join(settings, "apsp.pc"), encoding="ascii") as file:
            same("@" in file.read(), False, "apsp.pc has its values")
        if shutil.which("pkg-config"):
            env = dict(os.environ, PKG_CONFIG_PATH=settings)
            told = run(["pkg-config", "--modversion", "apsp"], env=env)
            same((told.returncode, told.stdout), (0, "0.1.0\n"), told.stderr)
            flags = run(["pkg-config", "--cflags", "--libs", "apsp"], env=env).stdout.split()
            if compiler:
                os.remove(built)
                done = run([compiler, source, *flags, "-o", built])
                same((done.returncode, done.stderr), (0, ""), f"a program with the library, by pkg-config {flags}")
                same(run([built, installed]).returncode, 0, "it runs")
        else:
            print("an_installed_program_is_used: skipped in part: no pkg-config is here")
        for page in ("share/man/man1/apsp.1", "share/bash-completion/completions/apsp", "share/apsp/examples/every-line.txt"):
            same(os.path.exists(os.path.join(prefix, page)), True, page)
        done = run([make, "dist"], cwd=here.top)
        same(done.returncode, 0, done.stderr)
        archive = os.path.join(here.top, "dist", "apsp-0.1.0.tar.gz")
        same(run(["tar", "-xzf", archive, "-C", prefix]).returncode, 0, "the archive")
        done = run(["sha256sum", "--quiet", "-c", "SHA256SUMS"], cwd=os.path.join(prefix, "apsp-0.1.0"))
        same((done.returncode, done.stdout), (0, ""), "its hashes")


def a_package_is_installed_without_a_network(program):
    with Checkout(program) as here, tempfile.TemporaryDirectory() as target:
        package = os.path.join(here.top, "clients", "python")
        done = run([sys.executable, "-m", "pip", "install", "--no-index", "--quiet", "--target", target, package], cwd="/")
        if "No module named pip" in done.stderr:
            raise Skip("no pip is here")
        same(done.returncode, 0, done.stderr)
        code = ("import apsp; n = apsp.Network(2); n.edge(0, 1, 7); print(n.dist(0, 1), n.add_vertices(2), n.close(), "
                "apsp.__version__)")
        env = {name: value for name, value in os.environ.items() if name != "APSP_PROGRAM"}
        done = run([sys.executable, "-c", code], cwd="/", env=dict(env, PYTHONPATH=target))
        same((done.returncode, done.stdout), (0, "7 [2, 3] 0 0.1.0\n"), done.stderr)


def options_of_the_modes():
    """The options of each mode in FORMATS."""
    rows = re.findall(r"^\| `(--\w+)(?: [A-Z])?` \| ((?:`\w+`(?:, )?)+) \|", text_of("docs", "FORMATS.md"), re.M)
    assert rows, "no option is read from docs/FORMATS.md"
    return {mode: {option for option, modes in rows if f"`{mode}`" in modes} for mode in ("run", "live", "check", "load")}


def completed(words):
    """What bash completes the last of these words to."""
    code = (f"source {shlex.quote(os.path.join(TOP, 'wrapper', 'completion.bash'))}; COMP_WORDS=({' '.join(map(shlex.quote, words))}); "
            f"COMP_CWORD={len(words) - 1}; _apsp; printf '%s\\n' \"${{COMPREPLY[@]}}\"")
    done = run([shutil.which("bash"), "-c", code], cwd=TOP)
    same((done.returncode, done.stderr), (0, ""), words)
    return set(done.stdout.split())


def the_words_are_completed(_program):
    modes = {"run", "live", "check", "load", "explain", "convert", "help", "-h", "--help", "-V", "--version"}
    for words, wanted in [
        (["apsp", ""], modes),
        (["apsp", "li"], {"live"}),
        (["apsp", "live", "--sl"], {"--slots"}),
        (["apsp", "live", "--slots", ""], set()),
        (["apsp", "run", "VERS"], {"VERSION"}),
        (["apsp", "load", ""], set()),
        (["apsp", "load", "2", "1", "-"], {"--workers"}),
        (["apsp", "convert", ""], {"dimacs", "csv", "graphml"}),
        (["apsp", "convert", "csv", "VERS"], {"VERSION"}),
        (["apsp", "convert", "csv", "VERSION", "-"], {"--scale"}),
        (["apsp", "explain", "VERS"], {"VERSION"}),
        (["apsp", "explain", "VERSION", ""], {"run", "live"}),
    ]:
        same(completed(words), wanted, words)
    for mode, options in options_of_the_modes().items():
        numbers = ["2", "1"] if mode == "load" else []
        same(completed(["apsp", mode, *numbers, "--"]), options, mode)
        if mode in ("run", "live"):
            same(completed(["apsp", "explain", "VERSION", mode, "--"]), options, f"explain, {mode}")


CHECKS = [
    help_builds_nothing,
    words_that_are_none_get_the_usage,
    a_link_leads_to_the_program,
    a_build_names_each_crate,
    a_build_that_fails_says_where_the_log_is,
    the_manual_has_the_usage,
    the_reading_list_is_that_of_the_sources,
    the_picture_is_that_of_the_crates,
    each_code_has_its_wrong_line,
    explain_says_what_is_expected,
    explain_knows_each_code,
    the_clients_know_each_code,
    a_file_stands_for_standard_input,
    a_wrong_word_is_named,
    an_older_program_runs_without_rt,
    commands_of_the_documents,
    code_of_the_documents,
    an_example_has_each_line,
    the_bench_says_what_is_missing,
    the_bench_measures,
    pictures_of_the_examples,
    graphs_are_converted,
    an_installed_program_is_used,
    a_package_is_installed_without_a_network,
    the_words_are_completed,
    client_in_python,
    client_in_c,
]


def checks(program, wanted=()):
    """Makes each check, or those that are wanted, and gives the number of those that passed and failed."""
    passed = failed = 0
    for check in CHECKS:
        name = check.__name__
        if wanted and name not in wanted:
            continue
        try:
            check(program)
            passed += 1
        except Skip as why:
            print(f"{name}: skipped, in part or whole: {why}")
        except (AssertionError, OSError, subprocess.SubprocessError) as problem:
            failed += 1
            print(f"{name}: {problem}")
    return passed, failed
