"""Looks up in the sources each call and each clause that docs/THEOREMS.md names.

    tests/promises.py [PAGE]

And the other way about: each clause of a public call needs a row that names it. Public is what a crate's root has or hands
on. The head of the page says how its tables are written, and which clauses stand in none. The last line is
'N passed, M failed', over the calls of all rows and the public calls that miss one.
"""

import os
import re
import sys

TOP = os.path.dirname(os.path.dirname(os.path.abspath(__file__)))
HEADER = ["promise", "call", "clause"]
UNNAMED = "its clause"
# They say of a value that it is one.
UNSAID = {"lawful", "graph", "star", "is_star", "is_plan"}

OPENS = re.compile(r"(?:pub )?(?:unsafe )?(?P<kind>impl|trait)\b(?P<rest>[^{]*)")
FUNCTION = re.compile(r"(?P<indent> *)(?P<public>pub )?(?:const )?(?:unsafe )?fn (?P<name>\w+)")
CLAUSE = re.compile(r"\s*ensures(?: (?P<name>\w+))? \{")
HANDED_ON = re.compile(r"^pub use (?:\w+::)+(?:\{(?P<names>[^}]*)\}|(?P<name>\w+));", re.M)
OPEN_MODULE = re.compile(r"^pub mod (\w+);", re.M)


def without_parameters(text):
    """The text without what stands in angle brackets."""
    text = text.replace("->", "")
    while True:
        shorter = re.sub(r"<[^<>]*>", "", text)
        if shorter == text:
            return text
        text = shorter


def owner_of(line):
    """The type or trait whose block this line opens, and whether all its functions are public, as those of a trait are."""
    found = OPENS.match(line)
    if not found:
        return None, False
    words = without_parameters(found["rest"]).split(" where ")[0].split(":")[0]
    of_trait = found["kind"] == "trait" or " for " in words
    return words.split(" for ")[-1].strip(), of_trait


def clauses_behind(lines, at):
    """The names of the clauses of the function that begins at this line; an empty one where a clause has no name."""
    names = set()
    indent = re.match(" *", lines[at])[0]
    for line in lines[at + 1 :]:
        found = CLAUSE.match(line)
        if found:
            names.add(found["name"] or "")
        elif line in (indent + "{", indent + "}", indent + "{}") or FUNCTION.match(line):
            break
        elif line.rstrip().endswith((";", "{")) and not line.startswith(" " * 8):
            break
    return names


def calls_in(lines):
    """Each public function of a file as its owner, its name and its clauses."""
    owner, of_trait = None, False
    for at, line in enumerate(lines):
        if line.startswith("}"):
            owner, of_trait = None, False
        elif line and not line[0].isspace():
            owner, of_trait = owner_of(line)
        found = FUNCTION.match(line)
        if found and (found["public"] or of_trait) and len(found["indent"]) == (4 if owner else 0):
            yield owner, found["name"], clauses_behind(lines, at)


def read(path):
    with open(path, encoding="utf-8") as file:
        return file.read()


def handed_on(root):
    """The names that the root of a crate hands on, and the modules that it opens."""
    names = set()
    for found in HANDED_ON.finditer(root):
        names.update(re.findall(r"\w+", found["names"] or found["name"]))
    return names, set(OPEN_MODULE.findall(root)) | {"lib", "main"}


def read_sources():
    """The clauses of each public call, by crate::call or crate::Type::call."""
    calls = {}
    for crate in sorted(os.listdir(os.path.join(TOP, "crates"))):
        source = os.path.join(TOP, "crates", crate, "src")
        root = os.path.join(source, "lib.rt")
        names, modules = handed_on(read(root) if os.path.exists(root) else "")
        for folder, _, files in os.walk(source):
            for name in sorted(files):
                if not name.endswith(".rt") or name == "tests.rt":
                    continue
                for owner, call, clauses in calls_in(read(os.path.join(folder, name)).split("\n")):
                    if name.removesuffix(".rt") in modules or (owner or call) in names:
                        path = "::".join(part for part in (crate, owner, call) if part)
                        calls.setdefault(path, set()).update(clauses)
    return calls


def rows_of(page):
    """The cells of each row of the tables of promises, with its line number."""
    in_table = False
    for number, line in enumerate(page.split("\n"), 1):
        if not line.startswith("|"):
            in_table = False
            continue
        cells = [cell.strip() for cell in line.strip().strip("|").split("|")]
        if cells == HEADER:
            in_table = True
        elif in_table and not set(line) <= set("|-: "):
            yield number, cells


def quoted(text):
    return re.findall(r"`([^`]*)`", text)


def faults_of_row(cells, sources, named):
    """The number of calls of a row, and what is wrong with it. What it names is put into `named`."""
    if len(cells) != 3:
        return 1, ["a row has three cells"]
    calls, groups = quoted(cells[1]), cells[2].split(";")
    if not calls:
        return 1, ["names no call"]
    if len(groups) == 1:
        groups *= len(calls)
    if len(groups) != len(calls):
        return len(calls), [f"has {len(calls)} calls and {len(groups)} groups of clauses"]
    faults = []
    for call, group in zip(calls, groups):
        names = [""] if group.strip() == UNNAMED else quoted(group)
        named.setdefault(call, set()).update(names)
        if call not in sources:
            faults.append(f"{call} is no public call of the sources")
        elif not names:
            faults.append(f"{call} has no clause here")
        faults += [f"{call} has no clause {name or 'without a name'}" for name in names if name not in sources.get(call, {name})]
    return len(calls), faults


def without_row(sources, named):
    """Each public call with the clauses that no row names."""
    for call in sorted(sources):
        missed = sources[call] - UNSAID - named.get(call, set())
        if missed:
            yield call, ", ".join(name or UNNAMED for name in sorted(missed))


def main():
    path = sys.argv[1] if len(sys.argv) > 1 else os.path.join(TOP, "docs", "THEOREMS.md")
    page = read(path)
    sources = read_sources()
    count = failed = 0
    named = {}
    for number, cells in rows_of(page):
        calls, faults = faults_of_row(cells, sources, named)
        count += calls
        failed += min(calls, len(faults))
        for fault in faults:
            print(f"{os.path.basename(path)}:{number}: {fault}")
    for call, clauses in without_row(sources, named):
        print(f"{os.path.basename(path)}: no row has {clauses} of {call}")
        count, failed = count + 1, failed + 1
    if count == 0:
        print(f"{os.path.basename(path)}: no table of promises")
        failed = 1
    print(f"promises: {max(count - failed, 0)} passed, {failed} failed")
    return 1 if failed else 0


if __name__ == "__main__":
    sys.exit(main())
