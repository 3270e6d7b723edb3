#!/usr/bin/env python3
"""Tries uses of slots and pools that the borrow checker has to refuse.

Each tests/misuse/NAME.txt has what is wrong, the error that refuses it, and a module behind an empty line. Lines with '-'
in front stand in the wrong module alone, and lines with '+' in the right one. All right modules make one crate, which has
to be accepted. The wrong ones make a crate for each pass of the compiler that finds errors, in which each module has to be
refused with its error and no other. The crates stand in temporary folders over copies of the crates below them; nothing is
proved. The last line is 'N passed, M failed'.
"""
import concurrent.futures
import pathlib
import re
import shutil
import subprocess
import sys
import tempfile

HERE = pathlib.Path(__file__).resolve().parent
TOP = HERE.parent
CRATES = ["apsp_model", "graph_store", "version_face", "pin_cells", "version_pool"]
HEAD = """#![tactic(auto)]

{modules}
#[cfg(test)]
mod tests;
"""
IMPORTS = """ghost use Rattle.std.specs.Prelude.{◌≡◌, ◌<◌};
ghost use Rattle.pin_cells.specs.Pinned.{IsOfPlan};
ghost use Rattle.version_pool.specs.Pooled.{IsPublisherOf, IsReaderOf};
"""
TEST = """use std::test::Fail;

#[test]
fn it_is_accepted(_rt: HostRuntime) -> Result<(), Fail> {
    Ok(())
}
"""


class Case:
    def __init__(self, path):
        head, _, body = path.read_text().partition("\n\n")
        self.name = path.stem
        self.module = path.stem.replace("-", "_")
        self.says, refused = head.splitlines()
        self.error = refused.removeprefix("refused: ")
        # The compiler ends with the first of these in which it finds an error.
        self.stage = self.error.partition("-")[0]
        self.lines = body.splitlines()

    def text(self, mark):
        kept = []
        for line in self.lines:
            if line[:1] in "-+" and line:
                if line[0] != mark:
                    continue
                line = " " + line[1:]
            kept.append(line)
        return IMPORTS + "\n" + "\n".join(kept) + "\n"


def edges():
    lines = (TOP / "crates.txt").read_text().splitlines()
    below = [line for line in lines if line.partition(":")[0] in CRATES]
    return "\n".join(below + ["misuse: " + " ".join(CRATES + ["rayon"])]) + "\n"


def tried(cases, mark):
    """What rt says of the crate of these modules."""
    with tempfile.TemporaryDirectory(prefix="misuse-") as folder:
        root = pathlib.Path(folder)
        (root / "crates.txt").write_text(edges())
        shutil.copy(TOP / "HANDLES", root / "HANDLES")
        for name in CRATES:
            skipped = shutil.ignore_patterns("out", "must-fail")
            shutil.copytree(TOP / "crates" / name, root / "crates" / name, ignore=skipped)
        source = root / "crates" / "misuse" / "src"
        source.mkdir(parents=True)
        (source / "lib.rt").write_text(HEAD.format(modules="".join(f"pub mod {case.module};\n" for case in cases)))
        (source / "tests.rt").write_text(TEST)
        for case in cases:
            (source / f"{case.module}.rt").write_text(case.text(mark))
        done = subprocess.run(["rt", "try", "--test"], cwd=source.parent, capture_output=True, text=True)
        return done.returncode, done.stdout + done.stderr


def main():
    if shutil.which("rt") is None:
        print("tests/misuse.py: skipped, since rt is missing")
        return 0
    cases = [Case(path) for path in sorted((HERE / "misuse").glob("*.txt"))]
    runs = [("+", cases)]
    for stage in sorted({case.stage for case in cases}):
        runs.append(("-", [case for case in cases if case.stage == stage]))
    with concurrent.futures.ThreadPoolExecutor() as pool:
        right, *wrong = pool.map(lambda run: tried(run[1], run[0]), runs)
    passed = failed = 0
    if right[0] == 0:
        passed += 1
    else:
        failed += 1
        print("misuse: the right modules are refused", right[1], sep="\n")
    for (_, group), (_, said) in zip(runs[1:], wrong):
        for case in group:
            found = re.findall(rf"^src/{case.module}\.rt:\d+:\d+: error\[([a-z0-9-]+)\]", said, re.M)
            if found == [case.error]:
                passed += 1
            else:
                failed += 1
                print(f"misuse: {case.name}: {case.says} Wanted {case.error}, found {found}", said, sep="\n")
    print(f"misuse: {passed} passed, {failed} failed")
    return 1 if failed else 0


if __name__ == "__main__":
    sys.exit(main())
