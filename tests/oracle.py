"""Random scripts, whose replies are computed from the definitions alone and compared with the program's, byte for byte.

    tests/oracle.py [--small N] [--large N] [--seed S] PROGRAM

Small networks, of two to five vertices, by brute force: all simple walks are listed, what is historical is kept as a set
of lists, and a list is local where each of its proper parts is in it. Half of the scripts have `--smooth`. Weights are few
and begin at 0, so that there are cycles of weight 0 and ties of each kind. Behind each update come `stats`, all `path`, some
`age`, `ecc`, `report` and `through`; some updates are a `grow`, and some of these are refused. Large networks, of 129 to 512
vertices, by Dijkstra's algorithm over weight and then number of edges from the asked vertex backwards; of the walks that are
equal by both the first list is put together vertex by vertex.
The last line is 'N passed, M failed'.
"""

import argparse
import heapq
import random
import subprocess
import sys
from itertools import permutations


class Definitions:
    """What is kept of a small network, by the definitions."""

    def __init__(self, n, smooth):
        self.smooth, self.edges = smooth, {}
        self.historical, self.births, self.least = set(), {}, {}
        # The vertex of each update, and None for a grow.
        self.stars, self.steps, self.formed, self.removed = [], 0, 0, 0
        self.have(n)

    def have(self, n):
        self.n = n
        self.lists = [p for k in range(2, n + 1) for p in permutations(range(n), k)]

    def weight(self, p):
        pairs = list(zip(p, p[1:]))
        return sum(self.edges[e] for e in pairs) if all(e in self.edges for e in pairs) else None

    def step(self, v):
        self.steps += 1
        self.removed += sum(v in p for p in self.births)
        walks = {p: w for p in self.lists for w in [self.weight(p)] if w is not None}
        self.least = {}
        for p, w in walks.items():
            ends, order = (p[0], p[-1]), (w, len(p), p)
            self.least[ends] = min(order, self.least.get(ends, order))
        self.historical = {p for p in self.historical if v not in p} | {order[2] for order in self.least.values()}
        parts = lambda p: (p[i:j] for i in range(len(p)) for j in range(i + 2, len(p) + 1) if j - i < len(p))
        local = [p for p in walks if all(q in self.historical for q in parts(p))]
        self.births = {p: self.births[p] if v not in p and p in self.births else self.steps for p in local}

    def update(self, v):
        before, self.removed = len(self.births), 0
        self.stars.append(v)
        self.step(v)
        now, back = len(self.stars), 1
        while self.smooth and now - back >= 1:
            u = self.stars[now - back - 1]
            if u is not None and u not in self.stars[now - back:]:
                self.step(u)
            back *= 2
        self.formed = len(self.births) - before + self.removed

    def grow(self, n):
        """The new vertices have no edges, so no list with an edge is added, and births stay."""
        self.stars.append(None)
        self.steps += 1
        self.formed = self.removed = 0
        self.have(n)

    def walk(self, x, y):
        """Weight, length and list of the least walk, or None."""
        return (0, 1, (x,)) if x == y else self.least.get((x, y))

    def stats(self):
        historical = sum(p in self.historical for p in self.births)
        return (f"stats updates {len(self.stars)} steps {self.steps} paths {len(self.births)} historical {historical} "
                f"formed {self.formed} removed {self.removed}")


def span(n, walk, x):
    """The greatest distance from x, and how many vertices have a walk from x."""
    found = [w for y in range(n) for w in [walk(x, y)] if w is not None]
    return max(w[0] for w in found), len(found)


def ecc(n, walk, x):
    return "ecc {} far {} reach {}".format(x, *span(n, walk, x))


def report(n, walk):
    spans = [span(n, walk, x) for x in range(n)]
    reaching = [far for far, reach in spans if reach == n]
    text = f"report diameter {max(far for far, _ in spans)} radius "
    if not reaching:
        return text + "none"
    centre = [x for x in range(n) if spans[x] == (min(reaching), n)]
    return text + f"{min(reaching)} centre " + " ".join(map(str, centre))


def through(n, walk, v):
    others = [x for x in range(n) if x != v]
    walks = [walk(x, y) for x in others for y in others if x != y]
    return f"through {v} pairs {sum(w is not None and v in w[2] for w in walks)}"


def put_star(chance, edges, v, others, most):
    """Draws a star of v, and gives its words."""
    for e in [e for e in edges if v in e]:
        del edges[e]
    words = ["star", str(v)]
    for group in ("out", "in"):
        words.append(group)
        for u in others:
            if u != v:
                w = chance.randint(0, most)
                words.append(f"{u}:{w}")
                edges[(v, u) if group == "out" else (u, v)] = w
    return " ".join(words)


def drawn_update(chance, edges, n, most, degree):
    """Draws an update, and gives its vertex and its line."""
    u, v = chance.sample(range(n), 2)
    kind = chance.randrange(4)
    if kind < 2:
        return v, put_star(chance, edges, v, [x for x in range(n) if chance.random() < degree], most)
    if kind == 2:
        edges[v, u] = chance.randint(0, most)
        return v, f"edge {v} {u} {edges[v, u]}"
    edges.pop((v, u), None)
    return v, f"cut {v} {u}"


def grown(chance, network, most, number):
    """Draws a grow to at most so many vertices, and gives its line and its replies."""
    n = chance.choice([network.n - 1, network.n, network.n + 1, network.n + 1, network.n + 1, 513])
    line = f"grow {n}"
    if not 1 <= n <= 512:
        return line, [f"line {number} error 6 at 2"]
    if n <= network.n:
        return line, [f"line {number} error 15 at 2"]
    if n > most:
        return "# " + line, []
    network.grow(n)
    return line, []


def small(chance):
    """A script of a small network, with its replies."""
    n, most = chance.randint(2, 5), chance.choice([1, 2, 8])
    network = Definitions(n, chance.random() < 0.5)
    lines, replies = [f"vertices {n}"], []
    for _ in range(chance.randint(3, 11)):
        n = network.n
        if chance.random() < 0.2:
            line, refused = grown(chance, network, 5, len(lines) + 1)
            lines.append(line)
            replies += refused
        else:
            v, line = drawn_update(chance, network.edges, n, most, 0.65)
            lines.append(line)
            network.update(v)
        lines.append("stats")
        replies.append(network.stats())
        n = network.n
        for x in range(n):
            for y in range(n):
                lines.append(f"path {x} {y}")
                found = network.walk(x, y)
                walk = "none" if found is None else f"{found[0]} walk " + " ".join(map(str, found[2]))
                replies.append(f"{lines[-1]} {walk}")
        for p in chance.sample(network.lists, min(4, len(network.lists))):
            lines.append("age " + " ".join(map(str, p)))
            replies.append(lines[-1] + (f" birth {network.births[p]}" if p in network.births else " none"))
        x, v = chance.randrange(n), chance.randrange(n)
        lines += [f"ecc {x}", "report", f"through {v}"]
        replies += [ecc(n, network.walk, x), report(n, network.walk), through(n, network.walk, v)]
    return ["run"] + ["--smooth"] * network.smooth, lines, replies


def ranks_to(n, edges, y):
    """For each vertex with a walk to y its weight and number of edges."""
    into = [[] for _ in range(n)]
    for (u, v), w in edges.items():
        into[v].append((u, w))
    ranks, heap = {}, [(0, 0, y)]
    while heap:
        d, hops, v = heapq.heappop(heap)
        if v not in ranks:
            ranks[v] = (d, hops)
            for u, w in into[v]:
                heapq.heappush(heap, (d + w, hops + 1, u))
    return ranks


def least_walk(edges, ranks, x, y):
    """The first list of the least walks from x."""
    walk = [x]
    while walk[-1] != y:
        d, hops = ranks[walk[-1]]
        walk.append(min(v for (u, v), w in edges.items()
                        if u == walk[-1] and v in ranks and (ranks[v][0] + w, ranks[v][1] + 1) == (d, hops)))
    return walk


def least_walks(n, edges):
    """Weight, length and list of the least walk from x to y, or None, for all x and y."""
    found = {}
    for y in range(n):
        ranks = ranks_to(n, edges, y)
        after = {}
        for (u, v), w in edges.items():
            if u in ranks and v in ranks and (ranks[v][0] + w, ranks[v][1] + 1) == ranks[u]:
                after[u] = min(v, after.get(u, v))
        for x in sorted(ranks, key=lambda x: ranks[x][1]):
            rest = () if x == y else found[after[x], y][2]
            found[x, y] = (ranks[x][0], ranks[x][1] + 1, (x, *rest))
    return lambda x, y: found.get((x, y))


def large(chance):
    """A script of a large network with few edges a vertex, with its replies."""
    n, edges = chance.randint(129, 512), {}
    most = chance.choice([1, 3, 1000, 4294967295])
    lines, replies = [f"vertices {n}"], []
    for v in chance.sample(range(n), n):
        u = chance.randrange(n)
        if u != v:
            edges[v, u] = chance.randint(0, most)
            lines.append(f"edge {v} {u} {edges[v, u]}")
    if n < 500:
        n += chance.randint(1, 12)
        lines.append(f"grow {n}")
    for _ in range(chance.randint(5, 25)):
        _, line = drawn_update(chance, edges, n, most, 3 / n)
        lines.append(line)
        y = chance.randrange(n)
        ranks = ranks_to(n, edges, y)
        for x in chance.sample(range(n), 12):
            lines.append(f"path {x} {y}")
            found = ranks.get(x)
            walk = "none" if found is None else f"{found[0]} walk " + " ".join(map(str, least_walk(edges, ranks, x, y)))
            replies.append(f"{lines[-1]} {walk}")
    walk, x, v = least_walks(n, edges), chance.randrange(n), chance.randrange(n)
    lines += [f"ecc {x}", "report", f"through {v}"]
    replies += [ecc(n, walk, x), report(n, walk), through(n, walk, v)]
    return ["run"] + ["--smooth"] * (chance.random() < 0.3), lines, replies


def agrees(program, words, lines, replies):
    """Whether the program gives these replies; says the first that differs."""
    text = "".join(line + "\n" for line in lines)
    done = subprocess.run([program, *words], input=text, stdout=subprocess.PIPE, text=True, timeout=900)
    given = done.stdout.splitlines()
    status = 1 if any(reply.startswith("line ") for reply in replies) else 0
    if (given, done.returncode) == (replies, status):
        return True
    at = next((k for k, pair in enumerate(zip(given, replies)) if pair[0] != pair[1]), min(len(given), len(replies)))
    print(f"oracle: {' '.join(words)} differs at reply {at}: {given[at:at + 1]}, wanted {replies[at:at + 1]}\n{text}")
    return False


def tried(program, seed, smalls, larges):
    """Makes so many scripts of each kind, and gives how many agree and how many do not."""
    chance, passed, failed = random.Random(seed), 0, 0
    for draw in [small] * smalls + [large] * larges:
        good = agrees(program, *draw(chance))
        passed, failed = passed + good, failed + (not good)
    return passed, failed


def main():
    parser = argparse.ArgumentParser(description=__doc__.splitlines()[0])
    parser.add_argument("program")
    parser.add_argument("--small", type=int, default=200, metavar="N")
    parser.add_argument("--large", type=int, default=5, metavar="N")
    parser.add_argument("--seed", type=int, default=1, metavar="S")
    words = parser.parse_args()
    passed, failed = tried(words.program, words.seed, words.small, words.large)
    print(f"{passed} passed, {failed} failed")
    return 1 if failed else 0


if __name__ == "__main__":
    sys.exit(main())
