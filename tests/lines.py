"""Looks for lines of proofs that no screen holds: over 160 columns, but for those that import.

    tests/lines.py

The last line is 'N passed, M failed', over the files of all proofs.
"""

import glob
import os
import sys

TOP = os.path.dirname(os.path.dirname(os.path.abspath(__file__)))
MOST_COLUMNS = 160


def wide_lines(path):
    """The numbers of the lines that are too wide."""
    with open(path, encoding="utf-8") as file:
        return [number for number, line in enumerate(file, 1)
                if len(line.rstrip("\n")) > MOST_COLUMNS and not line.startswith(("use ", "pub use "))]


def main():
    passed = failed = 0
    for path in sorted(glob.glob(os.path.join(TOP, "crates", "*", "proofs", "**", "*.antt"), recursive=True)):
        wide = wide_lines(path)
        passed, failed = passed + (not wide), failed + bool(wide)
        for number in wide:
            print(f"lines: {os.path.relpath(path, TOP)}:{number} is over {MOST_COLUMNS} columns")
    print(f"lines: {passed} passed, {failed} failed")
    return 1 if failed or not passed else 0


if __name__ == "__main__":
    sys.exit(main())
