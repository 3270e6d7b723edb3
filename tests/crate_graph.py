"""The picture of the crates in docs/ARCHITECTURE.md, and the last column of its table, as crates.txt has them.

    python3 tests/crate_graph.py --write    writes the picture
    python3 tests/crate_graph.py --check    ends with 1 where the page is not that of crates.txt
"""

import os
import re
import sys

TOP = os.path.dirname(os.path.dirname(os.path.abspath(__file__)))
PAGE = os.path.join(TOP, "docs", "ARCHITECTURE.md")
START, END = "<!-- crates -->\n", "<!-- end of crates -->\n"


def crates():
    """Each crate with the crates it stands on, in the order of crates.txt; the kit's have no line of their own."""
    with open(os.path.join(TOP, "crates.txt"), encoding="utf-8") as file:
        lines = [line.partition(":") for line in file if ":" in line]
    return {name.strip(): below.split() for name, _, below in lines}


def reached(graph, start):
    """All crates that a crate stands on, directly or through others."""
    seen, rest = set(), list(graph.get(start, []))
    while rest:
        crate = rest.pop()
        if crate not in seen:
            seen.add(crate)
            rest += graph.get(crate, [])
    return seen


def needed(graph, name):
    """The crates of this repository that a crate stands on and that none of its others stands on."""
    own = [below for below in graph[name] if below in graph]
    return [below for below in own if not any(below in reached(graph, other) for other in own)]


def picture(graph):
    lines = ["```mermaid", "graph TD"]
    lines += [f"    {name} --> {below}" for name in reversed(list(graph)) for below in needed(graph, name)]
    return "\n".join(lines + ["```", ""])


def column(graph, name):
    """What the table says that a crate stands on."""
    return ", ".join(below if below in graph else f"{below} (kit)" for below in graph[name]) or "none"


def with_picture(page, graph):
    before, rest = page.split(START)
    _, after = rest.split(END)
    page = before + START + picture(graph) + END + after
    for name in graph:
        page = re.sub(rf"(?m)^(\| {name} \| .*) \| [^|]* \|$", lambda row: f"{row[1]} | {column(graph, name)} |", page)
    return page


def misses(page, graph):
    """The crates without a row in the table."""
    return [name for name in graph if not re.search(rf"(?m)^\| {name} \| .* \| {re.escape(column(graph, name))} \|$", page)]


def main():
    graph = crates()
    with open(PAGE, encoding="utf-8") as file:
        page = file.read()
    wanted = with_picture(page, graph)
    if sys.argv[1:] == ["--write"]:
        with open(PAGE, "w", encoding="utf-8") as file:
            file.write(wanted)
    elif sys.argv[1:] != ["--check"]:
        sys.exit(__doc__)
    elif page != wanted or misses(page, graph):
        sys.exit("docs/ARCHITECTURE.md does not have the crates of crates.txt: tests/crate_graph.py --write")


if __name__ == "__main__":
    main()
