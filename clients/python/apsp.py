"""A client of apsp: all shortest paths of a directed graph whose edges change, kept by the program behind two pipes.

    with Network(3) as network:
        network.star(0, out={1: 4, 2: 9})
        network.edge(1, 2, 3)
        network.dist(0, 2)              # 7
        network.path(0, 2)              # Path(distance=7, vertices=[0, 1, 2])

    with Network.from_edges([("a", "b", 4), ("b", "c", 3)]) as network:
        network.path("a", "c")          # Path(distance=7, vertices=['a', 'b', 'c'])

Vertices are numbers from 0 on, or the names that `from_edges` was given, and `add_vertices` adds more, up to 512; weights are
whole numbers from 0 to 4294967295. `report`, `eccentricity` and `through` say how far the network reaches and what passes
a vertex.

A refused call raises the exception that has the name of its code (`Vertex`, `SelfEdge`, `Weight`, ..) and changes nothing;
the network goes on. Where the program ended, each call raises `Ended`.

A network is one process. Many threads may use it: each call is one exchange, and they take turns. An exchange that did
not end whole, since an interrupt or a timer came in between, ends the network, so that no later call can take its reply;
so does a reply that does not fit its question. In a child of `os.fork` the network of the parent has ended.

A session takes 16,777,216 bytes of input in all (`bytes_left`), some six hundred thousand calls of `edge`; with `renew` the
network goes on behind that in a new session. The time of an update hangs on the graph: docs/PERFORMANCE.md has what was
measured.
"""

import os
import re
import select
import shutil
import subprocess
import threading
import weakref
from operator import index
from typing import (Any, Callable, Dict, Hashable, Iterable, Iterator, List, Mapping, NamedTuple, Optional, Sequence, Tuple,
                    TypeVar)

__version__ = "0.1.0"
__all__ = [
    "Answer", "Block", "BlockFull", "Command", "Eccentricity", "Ended", "Error", "InputFull", "NeedsLive", "Network", "NotMore",
    "NotServed", "NoVertices", "Number", "OpenBlock", "Path", "Refused", "Repeat", "Report", "SelfEdge", "Shape", "Since",
    "Stats", "TooLong", "Vertex", "VerticesTwice", "Weight", "check", "program_path",
]

MOST_INPUT = 16777216
MOST_LINE = 65536
MOST_IN_BLOCK = 65536

_T = TypeVar("_T")
_REFUSED = re.compile(r"line (\d+) error (\d+) at (\d+)", re.ASCII)

STATUSES = {
    2: "its words are not understood",
    3: "reading failed",
    4: "writing failed",
    5: "want of memory",
    6: "its input is too long",
}


class Error(Exception):
    """What this module raises."""


class Refused(Error):
    """The program refused a command, which changed nothing. It has `code`, `name`, `place` (the number of the word,
    0 for the whole line) and `line`, the command."""

    code = 0
    expected = "what the formats say"

    def __init__(self, code: int, place: int, line: str):
        words = line.split()
        word = f"word {place} of " if place else ""
        at = f", {words[place - 1]}," if 0 < place <= len(words) else ""
        super().__init__(f"{word}'{_short(line)}'{at} is refused ({self.name}): expected {self.expected}")
        self.code, self.place, self.line = code, place, line

    @property
    def name(self) -> str:
        return type(self).__name__

    def __reduce__(self):
        return type(self), (self.code, self.place, self.line)


class NoVertices(Refused):
    """No number of vertices was accepted."""

    code, expected = 1, "a number of vertices before it"


class VerticesTwice(Refused):
    """The number of vertices was given before."""

    code, expected = 2, "no second number of vertices"


class Command(Refused):
    """The program has no such command."""

    code, expected = 3, "a command of the program"


class Shape(Refused):
    """The words do not have the form of the command, as an empty list of vertices has not."""

    code, expected = 4, "the form of the command"


class Number(Refused):
    """A number is below 0 or has more than 19 digits."""

    code, expected = 5, "a whole number from 0 on, of at most 19 digits"


class Vertex(Refused):
    """A vertex is not below the number of vertices, or that number is outside 1 to 512."""

    code, expected = 6, "a vertex below the number of vertices, which is 1 to 512"


class SelfEdge(Refused):
    """Both ends of an edge are the same."""

    code, expected = 7, "an edge between two different vertices"


class Repeat(Refused):
    """A star lists the same edge twice."""

    code, expected = 8, "each edge once"


class Weight(Refused):
    """A weight is above 4294967295."""

    code, expected = 9, "a weight from 0 to 4294967295"


class TooLong(Refused):
    """The command has more than 65,536 bytes."""

    code, expected = 10, "at most 65,536 bytes"


class NeedsLive(Refused):
    """The command stands in blocks alone, which a network has that was made with `live`."""

    code, expected = 11, "a network made with live=True"


class BlockFull(Refused):
    """A block has 65,536 questions or updates already."""

    code, expected = 12, "at most 65,536 updates and as many questions in a block"


class OpenBlock(Refused):
    """The command cannot stand in a block."""

    code, expected = 13, "star, edge, cut or ask in a block"


class Since(Refused):
    """A question asks for more updates than stand before it in its block."""

    code, expected = 14, "no more updates than stand before it in its block"


class NotMore(Refused):
    """The network has that many vertices already."""

    code, expected = 15, "a number of vertices above the present one"


class NotServed(Refused):
    """The program has the command, but not in this mode."""

    code, expected = 16, "a command that the program serves in this mode"


REFUSALS = {kind.code: kind for kind in (
    NoVertices, VerticesTwice, Command, Shape, Number, Vertex, SelfEdge, Repeat, Weight, TooLong, NeedsLive, BlockFull,
    OpenBlock, Since, NotMore, NotServed)}


class Ended(Error):
    """The program ended, with this `status` (below 0: by that signal; None where it is not known), or the network is not
    to be used any more."""

    def __init__(self, status: Optional[int] = None, why: str = ""):
        reason = why or STATUSES.get(status if status is not None else 0, "")
        ended = "the network has ended" if status is None else f"the program ended with status {status}"
        super().__init__(ended + (f": {reason}" if reason else ""))
        self.status, self.why = status, why

    def __reduce__(self):
        return type(self), (self.status, self.why)


class InputFull(Error):
    """The session has no room left for this command, which was not sent."""


class Path(NamedTuple):
    """A least walk: its weight, and its vertices from the first to the last."""

    distance: int
    vertices: List[Any]


class Answer(NamedTuple):
    """The answer to a question of a block: the number of updates that its version has, and the walk, or None."""

    number: int
    path: Optional[Path]


class Stats(NamedTuple):
    """Updates and steps so far, kept and historical paths with an edge, and what the latest update formed and removed."""

    updates: int
    steps: int
    paths: int
    historical: int
    formed: int
    removed: int


class Eccentricity(NamedTuple):
    """How far a vertex reaches: the greatest distance from it, in the unit of the weights, and the number of vertices that a
    walk from it leads to, itself among them."""

    far: int
    reach: int


class Report(NamedTuple):
    """Of the whole network: the diameter, which is the greatest distance that there is; the radius, which is the least far of
    the vertices that reach all, and None where no vertex does; and the centre, the vertices whose far is the radius."""

    diameter: int
    radius: Optional[int]
    centre: List[Any]


def program_path() -> str:
    """The program: what APSP_PROGRAM names, or that of the installed package, or this checkout's, or that of the PATH."""
    given = os.environ.get("APSP_PROGRAM")
    if given:
        return given
    here = os.path.dirname(os.path.abspath(__file__))
    for built in (os.path.join(here, "bin", "apsp"), os.path.join(here, "..", "..", "crates", "apsp", "out", "apsp")):
        if os.access(built, os.X_OK) and not os.path.isdir(built):
            return built
    found = shutil.which("apsp")
    if not found:
        raise FileNotFoundError("the program apsp is not built: run ./apsp in its checkout, or set APSP_PROGRAM")
    return found


def _short(line: str) -> str:
    return line if len(line) <= 80 else line[:77] + "..."


class _Program:
    """The process behind two pipes. An exchange writes and reads at once, so that neither side waits for the other."""

    def __init__(self, words: Sequence[str]):
        # In a session of its own, so that a ^C at the terminal reaches the caller alone.
        self.child = subprocess.Popen(words, stdin=subprocess.PIPE, stdout=subprocess.PIPE, bufsize=0, start_new_session=True)
        self.to, self.of = self.child.stdin.fileno(), self.child.stdout.fileno()
        self.owner = os.getpid()
        self.rest = b""
        os.set_blocking(self.to, False)
        _PROGRAMS.add(self)

    def exchange(self, data: bytes, whole) -> List[str]:
        """Writes the data, and reads lines until `whole` of the latest line is true. An end before that gives Ended."""
        lines: List[str] = []
        left = memoryview(data)
        poll = select.poll()
        poll.register(self.of, select.POLLIN)
        poll.register(self.to, select.POLLOUT)
        while True:
            for place, event in poll.poll():
                if place == self.to:
                    try:
                        left = left[os.write(self.to, left[:65536]):] if left else left
                    except BlockingIOError:
                        pass
                    except OSError:
                        left = left[len(left):]
                    if not left:
                        poll.unregister(self.to)
                else:
                    piece = os.read(self.of, 1 << 16)
                    if not piece:
                        raise Ended(self.stop())
                    *found, self.rest = (self.rest + piece).split(b"\n")
                    for line in found:
                        lines.append(line.decode("ascii", "replace"))
                        if whole(lines[-1]):
                            return lines

    def stop(self, kill: bool = False) -> Optional[int]:
        """Ends the program, and gives its status. In a child of the process that began it nothing is waited for."""
        if self.owner != os.getpid():
            self.drop()
            return None
        if kill:
            self.child.kill()
        self.drop()
        try:
            return self.child.wait(timeout=10)
        except subprocess.TimeoutExpired:
            self.child.kill()
            return self.child.wait()

    def drop(self) -> None:
        for pipe in (self.child.stdin, self.child.stdout):
            try:
                pipe.close()
            except OSError:
                pass


_PROGRAMS: "weakref.WeakSet[_Program]" = weakref.WeakSet()


def _drop_all() -> None:
    # A copy of a pipe in a forked child would keep the program from seeing its end.
    for program in list(_PROGRAMS):
        program.drop()


os.register_at_fork(after_in_child=_drop_all)


# What a reply says. A ValueError or an IndexError says that the reply is not of the form of its question.

def _number(word: str) -> int:
    if not (word.isascii() and word.isdigit()):
        raise ValueError(word)
    return int(word)


def _distance(word: str) -> Optional[int]:
    return None if word == "none" else _number(word)


def _one(words: List[str]) -> Optional[int]:
    (word,) = words
    return _distance(word)


def _birth(words: List[str]) -> Optional[int]:
    return None if words == ["none"] else _labelled(words, "birth")[0]


def _labelled(words: List[str], *labels: str) -> List[int]:
    """The numbers behind these words, which alternate with them."""
    if words[0::2] != list(labels) or len(words) != 2 * len(labels):
        raise ValueError(words)
    return [_number(word) for word in words[1::2]]


class Network:
    """A network of n vertices, 1 to 512, without edges at first. Use it in a `with`, or call `close`."""

    def __init__(self, n: int, smooth: bool = False, program: Optional[str] = None, *, live: bool = False,
                 readers: int = 2, slots: int = 4, renew: bool = False):
        """`smooth` forgets the past of a vertex 1, 2, 4, .. updates after it changed: fewer paths are kept, and an
        update takes longer; distances and walks are the same. `live` gives the network blocks, whose questions so many
        `readers` answer while the updates go on. With `renew` the network goes on in a new session where the input of one
        is full: the graph is sent again, and ages and counts begin anew."""
        words = [program or program_path(), "live" if live else "run"]
        if live:
            words += ["--readers", str(index(readers)), "--slots", str(index(slots))]
        self._words = words + (["--smooth"] if smooth else [])
        self._renew = renew
        self._lock = threading.RLock()
        self._ended: Optional[Ended] = None
        self._busy = False
        self._names: Optional[List[Hashable]] = None
        self._places: Dict[Hashable, int] = {}
        self._count = index(n)
        self._out: Dict[int, Dict[int, int]] = {}
        self._into: Dict[int, Dict[int, int]] = {}
        self._begin()

    @classmethod
    def from_edges(cls, edges: Iterable[Tuple[Hashable, Hashable, int]], names: Optional[Iterable[Hashable]] = None,
                   **options: Any) -> "Network":
        """A network of named vertices with these edges, (from, to, weight), all written at once, one star a vertex.
        `names` are all vertices, also those without an edge; without it they come in the order of the edges. The options
        are those of `Network`. An edge that is listed twice is refused (`Repeat`), and one from a vertex to itself is
        left out, since no least walk has it."""
        edges = list(edges)
        order = dict.fromkeys(names if names is not None else (end for u, v, _ in edges for end in (u, v)))
        network = cls(len(order), **options)
        try:
            network._names = list(order)
            network._places = {name: place for place, name in enumerate(order)}
            out: Dict[int, List[Tuple[int, int]]] = {}
            into: Dict[int, Dict[int, int]] = {}
            for u, v, w in edges:
                if u != v:
                    out.setdefault(network._place(u), []).append((network._place(v), index(w)))
                    into.setdefault(network._place(v), {})[network._place(u)] = index(w)
            lines, changes = [], []
            for v in sorted(set(out) | set(into)):
                # As listed, so that an edge that stands twice is refused.
                here, back = out.get(v, []), into.get(v, {})
                lines.append(_star_line(v, here, list(back.items())))
                changes.append(("star", v, dict(here), back))
            network._update_all(lines, changes)
        except BaseException:
            network.close()
            raise
        return network

    @classmethod
    def from_networkx(cls, graph: Any, weight: str = "weight", scale: Optional[int] = None, **options: Any) -> "Network":
        """The network of a graph of networkx, with its nodes as names. Weights are whole numbers, or are multiplied by
        `scale` and rounded; an edge without one weighs 1 (times the scale). An edge of an undirected graph is one in each
        direction, and of parallel edges the lightest counts."""
        found: Dict[Tuple[Hashable, Hashable], int] = {}
        for u, v, w in graph.edges(data=weight, default=1):
            if scale is None and w != int(w):
                raise ValueError(f"the weight {w!r} of {u!r}, {v!r} is no whole number: give a scale")
            whole = int(w) if scale is None else round(w * scale)
            for pair in ((u, v),) if graph.is_directed() else ((u, v), (v, u)):
                found[pair] = min(whole, found.get(pair, whole))
        return cls.from_edges([(u, v, w) for (u, v), w in found.items()], names=list(graph.nodes), **options)

    def to_networkx(self) -> Any:
        """A networkx.DiGraph with these vertices and edges, each with its `weight`."""
        import networkx
        graph = networkx.DiGraph()
        graph.add_nodes_from(self)
        graph.add_weighted_edges_from(self.edges())
        return graph

    def __enter__(self) -> "Network":
        return self

    def __exit__(self, *_: Any) -> None:
        self.close()

    def __len__(self) -> int:
        return self._count

    def __iter__(self) -> Iterator[Any]:
        return iter(self._names if self._names is not None else range(self._count))

    def __contains__(self, v: object) -> bool:
        if self._names is not None:
            return v in self._places
        return isinstance(v, int) and 0 <= v < self._count

    def __repr__(self) -> str:
        edges = sum(map(len, self._out.values()))
        return f"<Network of {self._count} vertices and {edges} edges{', ended' if self._ended else ''}>"

    def edges(self) -> List[Tuple[Any, Any, int]]:
        """All edges, (from, to, weight), by from and then to. Asks nothing."""
        with self._lock:
            return [(self._name(u), self._name(v), w)
                    for u, items in sorted(self._out.items()) for v, w in sorted(items.items())]

    @property
    def bytes_left(self) -> int:
        """How many bytes the session has room for."""
        return MOST_INPUT - self._sent

    def close(self) -> Optional[int]:
        """Ends the program and gives its status, which is 1 where a call was refused. A second call gives it again."""
        with self._lock:
            if self._ended is None:
                self._ended = Ended(None, "it was closed")
                if self._busy:
                    self._program.child.kill()
            if self._status is None:
                self._status = self._program.stop()
            return self._status

    def star(self, v: Any, out: Optional[Mapping[Any, int]] = None, into: Optional[Mapping[Any, int]] = None) -> None:
        """Replaces all edges at v: by those to each u of `out` and from each u of `into`, with their weights. Without
        both v loses its edges. One update."""
        with self._lock:
            self._update(*self._star(v, out, into))

    def edge(self, u: Any, v: Any, w: int) -> None:
        """Sets the edge from u to v, whether it was there or not. One update."""
        with self._lock:
            self._update(*self._edge(u, v, w))

    def cut(self, u: Any, v: Any) -> None:
        """Takes the edge from u to v away, if it is there. One update."""
        with self._lock:
            self._update(*self._cut(u, v))

    def add_vertices(self, count: Optional[int] = None, names: Optional[Iterable[Hashable]] = None) -> List[Any]:
        """Adds so many vertices without edges, behind those that there are, and gives them: their numbers, or in a network of
        named vertices the `names`, which stand in place of the count there. One update, which keeps all paths. At most 512
        vertices are there then (`Vertex`), and one more than before (`NotMore`)."""
        with self._lock:
            if (names is None) != (self._names is None):
                what = "no names" if self._names is None else "names: give names"
                raise ValueError(f"the vertices of this network have {what}")
            new: List[Any] = [] if names is None else list(names)
            if names is not None and count not in (None, len(new)):
                raise ValueError(f"{len(new)} names are no {count} vertices")
            if len(dict.fromkeys(new)) < len(new) or any(name in self._places for name in new):
                raise ValueError(f"a vertex is named {next(x for x in new if x in self._places or new.count(x) > 1)!r} already")
            first, more = self._count, len(new) if names is not None else 1 if count is None else index(count)
            self._update(f"grow {first + more}", ("grow", first + more, new))
            return new if names is not None else list(range(first, first + more))

    def set_edges(self, edges: Iterable[Tuple[Any, Any, int]]) -> None:
        """Sets many edges, (from, to, weight), one update each, all written before the first reply is waited for. The
        first refusal is raised when all are made that can be."""
        with self._lock:
            made = [self._edge(u, v, w) for u, v, w in edges]
            self._update_all([line for line, _ in made], [change for _, change in made])

    def dist(self, x: Any, y: Any) -> Optional[int]:
        """The weight of the least walk from x to y, and None where there is no walk. One look-up."""
        return self._ask(f"dist {self._place(x)} {self._place(y)}", _one)

    def path(self, x: Any, y: Any) -> Optional[Path]:
        """The least walk from x to y, by weight, then number of edges, then vertices, and None where there is no walk.
        In time of its edges."""
        x, y = self._place(x), self._place(y)
        return self._ask(f"path {x} {y}", lambda words: self._path(words, x, y))

    def row(self, x: Any) -> List[Optional[int]]:
        """The distances from x to all vertices in their order, each None where there is no walk. n look-ups."""
        return self._ask(f"row {self._place(x)}", self._row)

    def matrix(self) -> Any:
        """The distances between all vertices: a NumPy array of floats with inf where there is no walk, if NumPy is there,
        and else a list of rows with None. All rows are asked for at once; n² look-ups."""
        with self._lock:
            rows = self._ask_all([f"row {x}" for x in range(self._count)], self._row)
        try:
            import numpy
        except ImportError:
            return rows
        return numpy.array([[float("inf") if d is None else d for d in row] for row in rows], dtype=float)

    def eccentricity(self, v: Any) -> Eccentricity:
        """How far v reaches: Eccentricity(far, reach). n look-ups."""
        return self._ask(f"ecc {self._place(v)}", lambda words: Eccentricity(*_labelled(words, "far", "reach")))

    def report(self) -> Report:
        """Diameter, radius and centre: Report(diameter, radius, centre). n² look-ups."""
        return self._ask("report", self._report)

    def through(self, v: Any) -> int:
        """The number of pairs of different vertices, both other than v, whose least walk has v in it. In time of the edges
        of all least walks."""
        return self._ask(f"through {self._place(v)}", lambda words: _labelled(words, "pairs")[0])

    def next_hops(self) -> Dict[Tuple[Any, Any], Any]:
        """For each pair of different vertices with a walk the vertex behind the first on its least walk, as the
        certificate states it."""
        hops: Dict[Tuple[Any, Any], Any] = {}
        pairs = False
        for line in self.certificate().decode().splitlines()[4:]:
            words = line.split()
            if words[0] == "pairs":
                pairs = True
            elif pairs and len(words) > 1:
                items = [word.split(":") for word in words[1:]] if ":" in line else [words[1:]]
                for y, _, _, s in items:
                    hops[self._name(int(words[0])), self._name(int(y))] = self._name(int(s))
        return hops

    def stats(self) -> Stats:
        """How many updates and steps were made and how many paths are kept."""
        return self._ask("stats", lambda words: Stats(*_labelled(words, *Stats._fields)))

    def age(self, vertices: Iterable[Any]) -> Optional[int]:
        """The number of the step that added the kept path with these vertices, 0 for a single vertex, and None where no
        such path is kept. In time of n for each vertex."""
        return self._ask("age" + "".join(f" {self._place(v)}" for v in vertices), _birth)

    def certificate(self) -> bytes:
        """All edges and distances of the present version as a text that `check` tests by itself: up to n² entries."""
        with self._lock:
            lines = self._exchange("cert\n", 1, lambda line: line == "end" or line.startswith("line "))
            self._expect(lines[0], "cert", "apsp certificate")
            return "".join(line + "\n" for line in lines).encode()

    def block(self) -> "Block":
        """A block, to be used in a `with`: its updates and questions are sent at its end, and its `answers` stand there
        then, one a question. A network that was not made with `live` has none (`NeedsLive`)."""
        if self._words[1] != "live":
            # Sent, its updates would count by themselves.
            raise NeedsLive(NeedsLive.code, 1, "block")
        return Block(self)

    def without(self, edges: Iterable[Tuple[Any, Any]]) -> "_Without":
        """In a `with`: the network without these edges, (from, to). At its end the stars of the vertices from which they
        lead are put back as they were, also behind an exception; vertices that were added meanwhile stay."""
        return _Without(self, list(edges))

    # ---- names and numbers

    def _place(self, v: Any) -> int:
        if self._names is None:
            return index(v)
        try:
            return self._places[v]
        except KeyError:
            raise KeyError(f"no vertex is named {v!r}") from None

    def _name(self, v: int) -> Any:
        return v if self._names is None else self._names[v]

    # ---- what replies say

    def _vertex(self, word: str) -> int:
        v = _number(word)
        if v >= self._count:
            raise ValueError(word)
        return v

    def _path(self, words: List[str], x: int, y: int) -> Optional[Path]:
        if words == ["none"]:
            return None
        walk = [self._vertex(word) for word in words[2:]]
        if words[1] != "walk" or walk[0] != x or walk[-1] != y:
            raise ValueError(words)
        return Path(_number(words[0]), [self._name(v) for v in walk])

    def _row(self, words: List[str]) -> List[Optional[int]]:
        if len(words) != self._count:
            raise ValueError(words)
        return [_distance(word) for word in words]

    def _report(self, words: List[str]) -> Report:
        if words[2:] == ["radius", "none"]:
            return Report(*_labelled(words[:2], "diameter"), None, [])
        centre = [self._name(self._vertex(word)) for word in words[5:]]
        if words[4] != "centre" or not centre:
            raise ValueError(words)
        return Report(*_labelled(words[:4], "diameter", "radius"), centre)

    # ---- updates: the line, and what it changes of the edges that this side knows

    def _star(self, v, out, into):
        here = [(self._place(u), index(w)) for u, w in (out or {}).items()]
        back = [(self._place(u), index(w)) for u, w in (into or {}).items()]
        v = self._place(v)
        return _star_line(v, here, back), ("star", v, dict(here), dict(back))

    def _edge(self, u, v, w):
        u, v, w = self._place(u), self._place(v), index(w)
        return f"edge {u} {v} {w}", ("edge", u, v, w)

    def _cut(self, u, v):
        u, v = self._place(u), self._place(v)
        return f"cut {u} {v}", ("edge", u, v, None)

    def _made(self, change) -> None:
        if change[0] == "star":
            _, v, out, into = change
            for u in list(self._out.get(v, ())):
                self._put(v, u, None)
            for u in list(self._into.get(v, ())):
                self._put(u, v, None)
            for u, w in out.items():
                self._put(v, u, w)
            for u, w in into.items():
                self._put(u, v, w)
        elif change[0] == "grow":
            _, self._count, names = change
            for name in names:
                self._places[name] = len(self._names)
                self._names.append(name)
        else:
            self._put(*change[1:])

    def _put(self, u: int, v: int, w: Optional[int]) -> None:
        if w is None:
            self._out.get(u, {}).pop(v, None)
            self._into.get(v, {}).pop(u, None)
        else:
            self._out.setdefault(u, {})[v] = w
            self._into.setdefault(v, {})[u] = w

    def _update(self, line: str, change) -> None:
        self._update_all([line], [change])

    def _update_all(self, lines: List[str], changes: List[Any]) -> None:
        with self._lock:
            refused = self._sent_updates(lines)
            for place, change in enumerate(changes):
                if place not in refused:
                    self._made(change)
            self._busy = False
            for place in sorted(refused):
                raise refused[place]

    # ---- exchanges

    def _begin(self) -> None:
        self._sent = self._lines = 0
        self._status: Optional[int] = None
        self._program = _Program(self._words)
        self._finalizer = weakref.finalize(self, self._program.stop)
        try:
            refused = self._sent_updates([f"vertices {self._count}"])
            self._busy = False
            for refusal in refused.values():
                raise refusal
        except BaseException:
            self.close()
            raise

    def _go_on(self) -> None:
        # A new session with the graph as it is.
        edges = {u: dict(items) for u, items in self._out.items()}
        self._finalizer()
        self._begin()
        self._sent_updates([_star_line(u, list(items.items()), [(x, more[u]) for x, more in edges.items() if u in more])
                            for u, items in sorted(edges.items())])
        self._busy = False

    def _exchange(self, text: str, count: int, whole, goes_on: bool = False) -> List[str]:
        """One exchange of so many lines, under the lock. Where it `goes_on`, the caller says that it is whole, by `_busy`,
        once it has taken over what the replies say."""
        if self._program.owner != os.getpid():
            raise Ended(None, "it belongs to the process that this one was forked from")
        if self._busy and self._ended is None:
            # An earlier exchange did not come to its end, or this one stands inside of it, in a handler of a signal. The
            # pipes stay open until `close`, so that no other file takes their numbers meanwhile.
            self._ended = Ended(None, "an exchange did not end whole")
            self._program.child.kill()
        if self._ended is not None:
            raise Ended(self._ended.status, self._ended.why)
        data = text.encode()
        if self._renew and len(data) > MOST_INPUT - self._sent and self._sent > 0:
            self._go_on()
        if len(data) > MOST_INPUT - self._sent:
            raise InputFull(f"{self.bytes_left} bytes are left of the session's input")
        self._busy = True
        self._sent += len(data)
        self._lines += count
        try:
            lines = self._program.exchange(data, whole)
        except Ended as ended:
            if self._ended is None:
                self._ended, self._status, self._busy = ended, ended.status, False
            raise self._ended from None
        self._busy = goes_on
        return lines

    def _confused(self, reply: str) -> Ended:
        self._ended = Ended(None, f"the reply '{_short(reply)}' does not belong to what was asked")
        self._status = self._program.stop(kill=True)
        return self._ended

    def _refusal(self, reply: str, number: int, line: str) -> Optional[Refused]:
        """The refusal that a reply stands for, or none; it has to be that of this line."""
        if not reply.startswith("line "):
            return None
        found = _REFUSED.fullmatch(reply)
        if not found or found[1] != str(number):
            raise self._confused(reply)
        code, place = int(found[2]), int(found[3])
        return REFUSALS.get(code, Refused)(code, place, line)

    def _expect(self, reply: str, line: str, front: str) -> str:
        """What stands behind the front of a reply to the latest line."""
        refusal = self._refusal(reply, self._lines, line)
        if refusal:
            raise refusal
        if not reply.startswith(front):
            raise self._confused(reply)
        return reply[len(front):]

    def _taken(self, reply: str, words: List[str], take: Callable[[List[str]], _T]) -> _T:
        """What `take` makes of these words of a reply."""
        try:
            return take(words)
        except (ValueError, IndexError):
            raise self._confused(reply) from None

    def _ask(self, line: str, take: Callable[[List[str]], _T]) -> _T:
        """What `take` makes of the words that stand in the reply behind those of the question."""
        with self._lock:
            reply = self._exchange(line + "\n", 1, lambda reply: True)[0]
            return self._taken(reply, self._expect(reply, line, line + " ").split(" "), take)

    def _ask_all(self, asked: List[str], take: Callable[[List[str]], _T]) -> List[_T]:
        with self._lock:
            left = iter(range(len(asked) - 1, -1, -1))
            lines = self._exchange("".join(line + "\n" for line in asked), len(asked), lambda reply: next(left) == 0)
            replies = []
            for line, reply in zip(asked, lines):
                if not reply.startswith(line + " "):
                    raise self._confused(reply)
                replies.append(self._taken(reply, reply[len(line) + 1:].split(" "), take))
            return replies

    def _sent_updates(self, lines: List[str]) -> Dict[int, Refused]:
        """Sends updates, and gives the refused ones by their places. An accepted update has no reply, so a question goes
        behind them all."""
        text = "".join(line + "\n" for line in lines) + "dist 0 0\n"
        with self._lock:
            before = [self._lines]

            def whole(reply: str) -> bool:
                return not reply.startswith("line ") or reply.split(" ")[1] == str(self._lines)

            replies = self._exchange(text, len(lines) + 1, whole, goes_on=True)
            first = self._lines - len(lines)
            refused: Dict[int, Refused] = {}
            for reply in replies[:-1]:
                words = reply.split(" ")
                place = int(words[1]) - first if words[0] == "line" and words[1].isdigit() else -1
                if not 0 <= place < len(lines):
                    raise self._confused(reply)
                refused[place] = self._refusal(reply, first + place, lines[place])
            if replies[-1] != "dist 0 0 0" and not (replies[-1].startswith("line ") and before[0] == 0):
                raise self._confused(replies[-1])
            return refused


def _star_line(v: int, out: List[Tuple[int, int]], into: List[Tuple[int, int]]) -> str:
    words = ["star", str(v)]
    for word, items in (("out", out), ("in", into)):
        if items:
            words += [word] + [f"{u}:{w}" for u, w in items]
    return " ".join(words)


class Block:
    """The updates and questions of one block. They are sent at the end of the `with`; behind it `answers` has an answer
    to each question, and is empty where one was refused. An exception in the `with` sends nothing."""

    def __init__(self, network: Network):
        self._network = network
        self._lines: List[str] = []
        self._changes: List[Any] = []
        self._asked: List[Tuple[int, int, int]] = []
        self.answers: List[Answer] = []

    def __enter__(self) -> "Block":
        return self

    def __exit__(self, kind: Any, *_: Any) -> None:
        if kind is None:
            self._run()

    def star(self, v: Any, out: Optional[Mapping[Any, int]] = None, into: Optional[Mapping[Any, int]] = None) -> None:
        """As `Network.star`."""
        self._put(*self._network._star(v, out, into))

    def edge(self, u: Any, v: Any, w: int) -> None:
        """As `Network.edge`."""
        self._put(*self._network._edge(u, v, w))

    def cut(self, u: Any, v: Any) -> None:
        """As `Network.cut`."""
        self._put(*self._network._cut(u, v))

    def ask(self, x: Any, y: Any, since: int = 0) -> int:
        """Asks for the least walk from x to y, from a version with at least so many of the block's updates, and gives
        the place of the answer."""
        x, y = self._network._place(x), self._network._place(y)
        self._asked.append((len(self._lines), x, y))
        self._put(f"ask {x} {y} since {index(since)}", None)
        return len(self._asked) - 1

    def _put(self, line: str, change: Any) -> None:
        self._lines.append(line)
        self._changes.append(change)

    def _run(self) -> None:
        network = self._network
        text = "".join(line + "\n" for line in ["block"] + self._lines + ["end", "dist 0 0"])
        with network._lock:
            replies = network._exchange(text, len(self._lines) + 3, lambda reply: reply == "dist 0 0 0"
                                        or reply.startswith(f"line {network._lines} "), goes_on=True)
            first = network._lines - len(self._lines) - 1
            refused: Dict[int, Refused] = {}
            told: List[str] = []
            for reply in replies[:-1]:
                found = _REFUSED.fullmatch(reply)
                if found:
                    place = int(found[1]) - first
                    line = self._lines[place] if 0 <= place < len(self._lines) else ("block" if place < 0 else "end")
                    refused[place] = network._refusal(reply, first + place, line)
                else:
                    told.append(reply)
            asked = [(x, y) for place, x, y in self._asked if place not in refused]
            if len(asked) != len(told) and -1 not in refused:
                raise network._confused(replies[-1])
            answers = [network._taken(reply, reply.split(" "), lambda words: self._answer(words, x, y))
                       for (x, y), reply in zip(asked, told)]
            for place, change in enumerate(self._changes):
                if change is not None and place not in refused and -1 not in refused:
                    network._made(change)
            network._busy = False
            if len(answers) == len(self._asked):
                self.answers = answers
            for place in sorted(refused):
                raise refused[place]

    def _answer(self, words: List[str], x: int, y: int) -> Answer:
        if words[0] != "at" or words[2:5] != ["path", str(x), str(y)]:
            raise ValueError(words)
        return Answer(_number(words[1]), self._network._path(words[5:], x, y))


class _Without:
    def __init__(self, network: Network, edges: List[Tuple[Any, Any]]):
        self._network, self._edges = network, edges

    def __enter__(self) -> Network:
        network = self._network
        with network._lock:
            places = [(network._place(u), network._place(v)) for u, v in self._edges]
            self._stars = {u: (dict(network._out.get(u, {})), dict(network._into.get(u, {}))) for u, _ in places}
            network._update_all([f"cut {u} {v}" for u, v in places], [("edge", u, v, None) for u, v in places])
        return network

    def __exit__(self, kind: Any, *_: Any) -> None:
        network = self._network
        with network._lock:
            if kind is not None and network._ended is not None:
                return
            network._update_all([_star_line(u, list(out.items()), list(into.items())) for u, (out, into) in self._stars.items()],
                                [("star", u, out, into) for u, (out, into) in self._stars.items()])


def check(certificate: bytes, program: Optional[str] = None) -> str:
    """The verdict of the program's own checker on a certificate, which reads nothing else: `certificate yes K` for that
    of version K, `certificate no ..` or `certificate error ..`."""
    done = subprocess.run([program or program_path(), "check"], input=certificate, stdout=subprocess.PIPE)
    if done.returncode not in (0, 1):
        raise Ended(done.returncode)
    return done.stdout.decode().rstrip("\n")
