"""Makes a script of a graph in another format: ./apsp convert dimacs|csv|graphml FILE [--scale S]

dimacs   lines `p sp N M` and `a U V W` with vertices from 1 on, and comments `c ..`
csv      lines FROM,TO,WEIGHT, with a head or without one; names of vertices are any words
graphml  nodes and edges, with the weight in the data of a key that is named weight; undirected edges go both ways

The script is written on standard output: one star a vertex, and for names a comment `# name V NAME` each. Weights are whole
numbers from 0 to 4294967295, or are multiplied by S and rounded; an edge without one weighs 1. Of parallel edges the
lightest counts, and an edge from a vertex to itself is left out.
"""

import argparse
import csv
import sys
import xml.parsers.expat
from decimal import Decimal, InvalidOperation

MOST_VERTICES, MOST_WEIGHT = 512, 4294967295


class Fault(Exception):
    """What is wrong with the file, at which line."""

    def __init__(self, line, why):
        super().__init__(f"line {line}: {why}")


class Graph:
    """Named vertices in the order in which they came, and the lightest edge of each pair."""

    def __init__(self, scale):
        self.scale, self.numbers, self.edges = scale, {}, {}

    def vertex(self, name, line):
        number = self.numbers.setdefault(name, len(self.numbers))
        if number >= MOST_VERTICES:
            raise Fault(line, f"more than {MOST_VERTICES} vertices")
        return number

    def weight(self, word, line):
        try:
            exact = Decimal(word) * (self.scale or 1)
        except InvalidOperation:
            raise Fault(line, f"{word!r} is no weight") from None
        if not exact.is_finite() or (self.scale is None and exact != exact.to_integral_value()):
            raise Fault(line, f"the weight {word} is no whole number: give a --scale")
        whole = int(exact.to_integral_value())
        if not 0 <= whole <= MOST_WEIGHT:
            raise Fault(line, f"the weight {word} is outside 0 to {MOST_WEIGHT}")
        return whole

    def edge(self, u, v, word, line):
        ends, w = (self.vertex(u, line), self.vertex(v, line)), self.weight(word, line)
        if ends[0] != ends[1]:
            self.edges[ends] = min(w, self.edges.get(ends, w))

    def script(self, named):
        if not self.numbers:
            raise Fault(1, "there is no vertex")
        yield f"vertices {len(self.numbers)}"
        if named:
            yield from (f"# name {number} {' '.join(str(name).split())}" for name, number in self.numbers.items())
        out = {}
        for (u, v), w in sorted(self.edges.items()):
            out.setdefault(u, []).append((v, w))
        for u, items in sorted(out.items()):
            # The stars before this one have no edges here yet, but for those that lead to it: they are listed once more.
            into = [(x, self.edges[x, u]) for x in sorted(out) if x < u and (x, u) in self.edges]
            groups = ["out"] + [f"{v}:{w}" for v, w in items] + (["in"] + [f"{x}:{w}" for x, w in into] if into else [])
            yield f"star {u} " + " ".join(groups)


def read_dimacs(file, graph):
    for line, words in enumerate(map(str.split, file), 1):
        if not words or words[0] == "c":
            continue
        if words[0] == "p" and len(words) == 4 and words[2].isdigit():
            for number in range(1, int(words[2]) + 1):
                graph.vertex(number, line)
        elif words[0] == "a" and len(words) == 4 and words[1].isdigit() and words[2].isdigit():
            for word in words[1:3]:
                if int(word) not in graph.numbers:
                    raise Fault(line, f"{word} is no vertex of the line 'p sp N M'")
            graph.edge(int(words[1]), int(words[2]), words[3], line)
        else:
            raise Fault(line, "expected 'p sp N M', 'a U V W' or 'c ..'")


def read_csv(file, graph):
    rows = csv.reader(file)
    for row in rows:
        line = rows.line_num
        cells = [cell.strip() for cell in row]
        if not any(cells) or (line == 1 and len(cells) > 2 and cells[2].lower() in ("weight", "w", "length", "cost")):
            continue
        if len(cells) not in (2, 3) or not cells[0] or not cells[1]:
            raise Fault(line, "expected FROM,TO,WEIGHT")
        graph.edge(cells[0], cells[1], cells[2] if len(cells) == 3 and cells[2] else "1", line)


def read_graphml(file, graph):
    parser = xml.parsers.expat.ParserCreate()
    key, directed, edge, text = "weight", True, None, None

    def opens(name, found):
        nonlocal key, directed, edge, text
        name, line = name.split(":")[-1], parser.CurrentLineNumber
        if name == "key" and found.get("attr.name") == "weight":
            key = found.get("id", key)
        elif name == "graph":
            directed = found.get("edgedefault", "directed") != "undirected"
        elif name == "node":
            graph.vertex(found.get("id", ""), line)
        elif name == "edge":
            for end in (found.get("source"), found.get("target")):
                if end not in graph.numbers:
                    raise Fault(line, f"there is no node {end!r}")
            edge = [found["source"], found["target"], "1", line, found.get("directed", str(directed)).lower() == "true"]
        elif name == "data" and edge and found.get("key") == key:
            text = ""

    def tells(data):
        nonlocal text
        if text is not None:
            text += data

    def closes(name):
        nonlocal edge, text
        name = name.split(":")[-1]
        if name == "data" and text is not None:
            edge[2], text = text.strip(), None
        elif name == "edge":
            u, v, w, line, one_way = edge
            graph.edge(u, v, w, line)
            if not one_way:
                graph.edge(v, u, w, line)
            edge = None

    parser.StartElementHandler, parser.EndElementHandler, parser.CharacterDataHandler = opens, closes, tells
    try:
        parser.Parse(file.read(), True)
    except xml.parsers.expat.ExpatError as fault:
        raise Fault(fault.lineno, xml.parsers.expat.errors.messages[fault.code]) from None


READERS = {"dimacs": read_dimacs, "csv": read_csv, "graphml": read_graphml}


def main():
    parser = argparse.ArgumentParser(prog="apsp convert", description=__doc__, formatter_class=argparse.RawTextHelpFormatter)
    parser.add_argument("format", choices=READERS)
    parser.add_argument("file")
    parser.add_argument("--scale", type=Decimal)
    given = parser.parse_args()
    graph = Graph(given.scale)
    try:
        with open(given.file, encoding="utf-8", newline="" if given.format == "csv" else None) as file:
            READERS[given.format](file, graph)
        script = "".join(line + "\n" for line in graph.script(given.format != "dimacs"))
    except (OSError, UnicodeDecodeError) as fault:
        sys.exit(f"apsp convert: {given.file} cannot be read: {fault}")
    except Fault as fault:
        sys.exit(f"apsp convert: {given.file}, {fault}")
    sys.stdout.write(script)


if __name__ == "__main__":
    main()
