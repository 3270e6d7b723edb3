"""Looks for definitions of specs that have one name in two crates.

    tests/names.py

Each crate's own invariant and the value that it shows have one name everywhere, and so has the operator that goes on
with a result. The last line is 'N passed, M failed', over the names of all definitions.
"""

import glob
import os
import re
import sys

TOP = os.path.dirname(os.path.dirname(os.path.abspath(__file__)))
DEFINITION = re.compile(r"^(?:abbrev |unfoldable |opaque )?pub (?:record |data )?([^\s:(]+)[^:\n]*:", re.M)
SHARED = {"IsSound", "view_of", "◌>>=◌"}


def crates_by_name():
    """The crates whose specs define each name."""
    crates = {}
    for path in glob.glob(os.path.join(TOP, "crates", "*", "specs", "*.antt")):
        crate = os.path.relpath(path, os.path.join(TOP, "crates")).split(os.sep)[0]
        with open(path, encoding="utf-8") as file:
            for name in DEFINITION.findall(file.read()):
                crates.setdefault(name, set()).add(crate)
    return crates


def main():
    crates = crates_by_name()
    twice = {name: found for name, found in crates.items() if len(found) > 1 and name not in SHARED}
    for name, found in sorted(twice.items()):
        print(f"names: {name} is defined in {', '.join(sorted(found))}")
    print(f"names: {len(crates) - len(twice)} passed, {len(twice)} failed")
    return 1 if twice else 0


if __name__ == "__main__":
    sys.exit(main())
