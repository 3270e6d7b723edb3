"""Tests of the client over the built program: python3 clients/python/test_apsp.py"""

import gc
import heapq
import os
import pickle
import random
import signal
import subprocess
import sys
import tempfile
import threading
import types
import unittest

sys.path.insert(0, os.path.dirname(os.path.abspath(__file__)))
import apsp


def distances(n, edges, x):
    """Dijkstra's algorithm from x."""
    least, heap = {}, [(0, x)]
    while heap:
        d, v = heapq.heappop(heap)
        if v in least:
            continue
        least[v] = d
        for u, w in edges[v].items():
            heapq.heappush(heap, (d + w, u))
    return [least.get(y) for y in range(n)]


class Answers(unittest.TestCase):
    def test_two_stars(self):
        with apsp.Network(3) as network:
            network.star(0, out={1: 4, 2: 9})
            network.star(1, out={2: 3}, into={0: 4})
            self.assertEqual(network.dist(0, 2), 7)
            self.assertEqual(network.path(0, 2), apsp.Path(7, [0, 1, 2]))
            self.assertEqual(network.row(1), [None, 0, 3])
            self.assertEqual(network.stats(), apsp.Stats(2, 2, 4, 4, 3, 1))
            self.assertEqual([network.age([0, 2]), network.age((1,)), network.age([2, 0])], [1, 0, None])
            network.cut(1, 2)
            self.assertEqual(network.path(0, 2), apsp.Path(9, [0, 2]))
            self.assertIsNone(network.path(2, 0))
            self.assertIsNone(network.dist(2, 0))
            network.star(0)
            self.assertEqual(network.row(0), [0, None, None])
            self.assertEqual(network.close(), 0)

    def test_smooth(self):
        with apsp.Network(3, smooth=True) as network:
            network.star(0, out={1: 4, 2: 9})
            network.star(1, out={2: 3}, into={0: 4})
            self.assertEqual(network.stats(), apsp.Stats(2, 3, 4, 3, 6, 4))

    def test_a_thousand_updates_of_128_vertices(self):
        n, chance = 128, random.Random(5)
        edges = [{} for _ in range(n)]
        with apsp.Network(n) as network:
            for number in range(1000):
                u, v = chance.sample(range(n), 2)
                if chance.random() < 0.2 and edges[u]:
                    v = chance.choice(sorted(edges[u]))
                    del edges[u][v]
                    network.cut(u, v)
                else:
                    edges[u][v] = chance.randint(0, 1000)
                    network.edge(u, v, edges[u][v])
                if number % 50 == 49:
                    x = chance.randrange(n)
                    self.assertEqual(network.row(x), distances(n, edges, x), f"after {number + 1} updates")
            self.assertEqual(network.stats().updates, 1000)


def spans(n, edges):
    """Far and reach of each vertex, by Dijkstra's algorithm."""
    rows = [[d for d in distances(n, edges, x) if d is not None] for x in range(n)]
    return [apsp.Eccentricity(max(row), len(row)) for row in rows]


class Grows(unittest.TestCase):
    """Vertices that are added: what a network of numbers and one of names say of them, and what goes on from there."""

    def test_numbers(self):
        with apsp.Network(2) as network:
            network.edge(0, 1, 5)
            self.assertEqual(network.add_vertices(2), [2, 3])
            self.assertEqual((len(network), list(network), 3 in network), (4, [0, 1, 2, 3], True))
            self.assertEqual(network.row(0), [0, 5, None, None])
            self.assertEqual(network.stats().updates, 2)
            network.edge(1, 3, 2)
            self.assertEqual(network.path(0, 3), apsp.Path(7, [0, 1, 3]))
            self.assertEqual(network.edges(), [(0, 1, 5), (1, 3, 2)])
            self.assertEqual(network.add_vertices(), [4])
            rows = [[None if d == float("inf") else d for d in row] for row in network.matrix()]
            self.assertEqual(rows[0], [0, 5, None, 7, None])
            self.assertEqual([len(row) for row in rows], [5] * 5)
            self.assertEqual(network.next_hops(), {(0, 1): 1, (0, 3): 1, (1, 3): 3})
            self.assertEqual(repr(network), "<Network of 5 vertices and 2 edges>")
            self.assertEqual(network.close(), 0)

    def test_names(self):
        with apsp.Network.from_edges([("a", "b", 4)]) as network:
            self.assertEqual(network.add_vertices(names=["c", "d"]), ["c", "d"])
            self.assertEqual((len(network), list(network), "d" in network), (4, ["a", "b", "c", "d"], True))
            network.edge("b", "d", 3)
            self.assertEqual(network.path("a", "d"), apsp.Path(7, ["a", "b", "d"]))
            self.assertEqual(network.add_vertices(1, names=iter("e")), ["e"])
            for count, names in ((1, None), (2, ["f"]), (None, ["a"]), (None, ["f", "f"])):
                with self.assertRaises(ValueError):
                    network.add_vertices(count, names)
            with self.assertRaises(TypeError):
                network.add_vertices(names=[[]])
            self.assertEqual((len(network), network.stats().updates), (5, 5))
        with apsp.Network(2) as network:
            with self.assertRaises(ValueError):
                network.add_vertices(names=["a"])

    def test_refusals(self):
        with apsp.Network(3) as network:
            for kind, code, count in ((apsp.NotMore, 15, 0), (apsp.NotMore, 15, -1), (apsp.Number, 5, -4), (apsp.Vertex, 6, 510)):
                with self.assertRaises(kind) as caught:
                    network.add_vertices(count)
                self.assertEqual((caught.exception.code, caught.exception.place), (code, 2))
            with self.assertRaises(TypeError):
                network.add_vertices(1.5)
            self.assertEqual((len(network), network.stats().updates, network.row(0)), (3, 0, [0, None, None]))
            self.assertEqual(network.add_vertices(509)[-1], 511)
            self.assertIsNone(network.dist(0, 511))
            self.assertEqual(network.close(), 1)

    def test_without(self):
        with apsp.Network.from_edges([(0, 1, 4), (1, 2, 3), (0, 2, 9)]) as network:
            with network.without([(0, 1)]):
                self.assertEqual(network.add_vertices(names=["new"]), ["new"])
                network.edge(2, "new", 1)
                network.edge(0, "new", 2)
                self.assertEqual(network.path(0, "new"), apsp.Path(2, [0, "new"]))
            self.assertEqual(network.edges(), [(0, 1, 4), (0, 2, 9), (1, 2, 3), (2, "new", 1)])
            self.assertEqual(network.dist(0, "new"), 8)

    def test_a_block_behind_a_grow(self):
        with apsp.Network(1, live=True) as network:
            network.add_vertices(2)
            with network.block() as block:
                block.edge(0, 2, 6)
                block.ask(0, 2, since=1)
            self.assertEqual(block.answers, [apsp.Answer(2, apsp.Path(6, [0, 2]))])

    def test_a_session_more(self):
        most, apsp.MOST_INPUT = apsp.MOST_INPUT, 2200
        try:
            with apsp.Network(2, renew=True) as network:
                for n in range(2, 60):
                    self.assertEqual(network.add_vertices(), [n])
                    network.edge(n - 1, n, n)
                    self.assertEqual(network.path(1, n), apsp.Path(sum(range(2, n + 1)), list(range(1, n + 1))))
                self.assertLess(network.stats().updates, 2 * 58)
                self.assertEqual(network.edges(), [(n - 1, n, n) for n in range(2, 60)])
        finally:
            apsp.MOST_INPUT = most

    def test_threads(self):
        found = []
        with apsp.Network(1) as network:
            def adds():
                for _ in range(40):
                    found.extend(network.add_vertices(2))
                    self.assertEqual(len(network.matrix()[0]) % 2, 1)

            threads = [threading.Thread(target=adds) for _ in range(3)]
            for thread in threads:
                thread.start()
            for thread in threads:
                thread.join()
            self.assertEqual(len(network), 241)
        self.assertEqual(sorted(found), list(range(1, 241)))


class Reports(unittest.TestCase):
    def test_two_stars(self):
        with apsp.Network(3) as network:
            self.assertEqual(network.report(), apsp.Report(0, None, []))
            network.star(0, out={1: 4, 2: 9})
            network.star(1, out={2: 3}, into={0: 4})
            self.assertEqual([network.eccentricity(0), network.eccentricity(2)], [(7, 3), (0, 1)])
            self.assertEqual(network.eccentricity(0), apsp.Eccentricity(far=7, reach=3))
            self.assertEqual(network.report(), apsp.Report(diameter=7, radius=7, centre=[0]))
            self.assertEqual([network.through(v) for v in range(3)], [0, 1, 0])
            for call in (network.eccentricity, network.through):
                with self.assertRaises(apsp.Vertex) as caught:
                    call(3)
                self.assertEqual(caught.exception.place, 2)
                with self.assertRaises(TypeError):
                    call("0")
            self.assertEqual(network.dist(0, 2), 7)
        with apsp.Network(1) as network:
            self.assertEqual(network.report(), apsp.Report(0, 0, [0]))

    def test_names(self):
        with apsp.Network.from_edges([("a", "b", 4), ("b", "a", 4), ("b", "c", 3), ("c", "b", 3)]) as network:
            self.assertEqual(network.report(), apsp.Report(7, 4, ["b"]))
            self.assertEqual((network.eccentricity("c"), network.through("b")), ((7, 3), 2))
            with self.assertRaises(KeyError):
                network.through("d")

    def test_drawn_networks(self):
        chance, with_a_centre = random.Random(11), 0
        for n in (2, 5, 5, 9, 20, 20):
            edges = [{} for _ in range(n)]
            for _ in range(4 * n):
                u, v = chance.sample(range(n), 2)
                edges[u][v] = chance.randint(0, 9)
            with apsp.Network.from_edges([(u, v, w) for u in range(n) for v, w in edges[u].items()], names=range(n)) as network:
                found = spans(n, edges)
                self.assertEqual([network.eccentricity(x) for x in range(n)], found)
                far = [one.far for one in found if one.reach == n]
                centre = [x for x, one in enumerate(found) if one.reach == n and one.far == min(far)]
                with_a_centre += bool(far)
                self.assertEqual(network.report(), apsp.Report(max(one.far for one in found), min(far) if far else None, centre))
                walks = [network.path(x, y) for x in range(n) for y in range(n) if x != y]
                for v in range(n):
                    self.assertEqual(network.through(v), sum(walk is not None and v in walk.vertices[1:-1] for walk in walks))
        self.assertGreater(with_a_centre, 0)


class Refusals(unittest.TestCase):
    def test_names(self):
        with apsp.Network(3) as network:
            network.edge(0, 1, 5)
            for kind, code, place, call in [
                (apsp.Vertex, 6, 3, lambda: network.dist(0, 3)),
                (apsp.SelfEdge, 7, 3, lambda: network.edge(1, 1, 5)),
                (apsp.Weight, 9, 4, lambda: network.edge(0, 1, 4294967296)),
                (apsp.Weight, 9, 4, lambda: network.star(0, out={1: 4294967296})),
                (apsp.Number, 5, 2, lambda: network.row(-1)),
                (apsp.Shape, 4, 2, lambda: network.age([])),
                (apsp.TooLong, 10, 0, lambda: network.age([0] * 40000)),
            ]:
                with self.assertRaises(kind) as caught:
                    call()
                refusal = caught.exception
                self.assertEqual((refusal.name, refusal.code, refusal.place), (kind.__name__, code, place))
                self.assertIsInstance(refusal, apsp.Refused)
            self.assertEqual(network.row(0), [0, 5, None])
            self.assertEqual(network.stats().updates, 1)
            self.assertEqual(network.close(), 1)

    def test_numbers_of_vertices(self):
        for n in (0, 513):
            with self.assertRaises(apsp.Vertex):
                apsp.Network(n)

    def test_what_is_no_number(self):
        with apsp.Network(2) as network:
            for wrong in (1.5, "1\nstats", None):
                with self.assertRaises(TypeError):
                    network.edge(0, 1, wrong)
            self.assertIsNone(network.dist(0, 1))


class Ends(unittest.TestCase):
    def test_a_program_that_was_killed(self):
        network = apsp.Network(2)
        network._program.child.kill()
        network._program.child.wait()
        with self.assertRaises(apsp.Ended) as caught:
            network.dist(0, 1)
        self.assertEqual(caught.exception.status, -9)
        self.assertEqual(network.close(), -9)

    def test_a_closed_network(self):
        network = apsp.Network(2)
        network.close()
        with self.assertRaises(apsp.Ended):
            network.dist(0, 1)

    def test_a_full_input(self):
        with apsp.Network(2) as network:
            with self.assertRaises(apsp.InputFull):
                while True:
                    network.age([0] * 32000)
            self.assertIsNone(network.dist(0, 1))


class Whole(unittest.TestCase):
    """Whole networks: named vertices, many edges at once, what is read back."""

    def test_names(self):
        edges = [("b", "c", 3), ("a", "b", 4), ("a", "c", 9), ("c", "a", 0)]
        with apsp.Network.from_edges(edges, names=["a", "b", "c", "d"]) as network:
            self.assertEqual(network.path("a", "c"), apsp.Path(7, ["a", "b", "c"]))
            self.assertEqual(network.edges(), sorted(edges))
            self.assertEqual((len(network), list(network), "d" in network, 0 in network), (4, ["a", "b", "c", "d"], True, False))
            self.assertEqual(repr(network), "<Network of 4 vertices and 4 edges>")
            self.assertEqual(network.next_hops()["a", "c"], "b")
            self.assertIsNone(network.dist("a", "d"))
            with self.assertRaises(KeyError):
                network.dist("a", "e")
        with self.assertRaises(apsp.Repeat):
            apsp.Network.from_edges([("a", "b", 4), ("a", "b", 5)])
        with self.assertRaises(apsp.Weight):
            apsp.Network.from_edges([("a", "b", 4), ("b", "a", 1 << 32)])
        with apsp.Network.from_edges([("a", "a", 4), ("b", "c", 3), ("c", "b", 3)]) as network:
            self.assertEqual((list(network), network.edges()), (["a", "b", "c"], [("b", "c", 3), ("c", "b", 3)]))

    def test_drawn_networks(self):
        chance = random.Random(7)
        for n in (2, 9, 40):
            edges = [{} for _ in range(n)]
            for _ in range(4 * n):
                u, v = chance.sample(range(n), 2)
                edges[u][v] = chance.randint(0, 9)
            listed = [(u, v, w) for u in range(n) for v, w in edges[u].items()]
            with apsp.Network.from_edges(listed, names=range(n)) as network:
                wanted = [distances(n, edges, x) for x in range(n)]
                self.assertEqual([network.row(x) for x in range(n)], wanted)
                rows = [[None if d == float("inf") else d for d in row] for row in network.matrix()]
                self.assertEqual(rows, wanted)
                self.assertEqual(network.edges(), sorted(listed))
            with apsp.Network(n) as network:
                network.set_edges(listed)
                self.assertEqual(network.row(0), wanted[0])
                self.assertEqual(network.stats().updates, len(listed))
                with self.assertRaises(apsp.Weight):
                    network.set_edges([(0, 1, 5), (1, 0, 1 << 32), (1, 0, 7)])
                self.assertEqual(network.stats().updates, len(listed) + 2)
                self.assertIn((1, 0, 7), network.edges())

    def test_without(self):
        with apsp.Network.from_edges([(0, 1, 4), (1, 2, 3), (0, 2, 9), (2, 0, 1)]) as network:
            before = network.edges()
            with network.without([(1, 2), (0, 1)]):
                self.assertEqual(network.path(0, 2), apsp.Path(9, [0, 2]))
            with self.assertRaises(ZeroDivisionError):
                with network.without([(1, 2)]):
                    network.edge(1, 0, 1)
                    1 / 0
            self.assertEqual(network.edges(), before)
            self.assertEqual(network.dist(0, 2), 7)

    def test_a_matrix_with_the_calls_of_numpy(self):
        there, sys.modules["numpy"] = sys.modules.get("numpy"), types.SimpleNamespace(array=lambda rows, dtype: (rows, dtype))
        try:
            with apsp.Network(2) as network:
                network.edge(0, 1, 7)
                self.assertEqual(network.matrix(), ([[0, 7], [float("inf"), 0]], float))
        finally:
            del sys.modules["numpy"]
            if there:
                sys.modules["numpy"] = there

    def test_graphs_with_the_calls_of_networkx(self):
        """The same as with networkx itself, over the few of its calls that are made."""
        class DiGraph:
            def __init__(self, directed=True):
                self.nodes, self.listed, self.directed = {}, [], directed

            def is_directed(self):
                return self.directed

            def edges(self, data, default):
                return [(u, v, more.get(data, default)) for u, v, more in self.listed]

            def add_nodes_from(self, nodes):
                self.nodes.update(dict.fromkeys(nodes))

            def add_weighted_edges_from(self, edges):
                self.listed += [(u, v, {"weight": w}) for u, v, w in edges]

        graph = DiGraph(directed=False)
        graph.add_nodes_from("abcd")
        graph.listed = [("a", "b", {"weight": 0.5}), ("b", "c", {}), ("a", "b", {"weight": 2})]
        with self.assertRaises(ValueError):
            apsp.Network.from_networkx(graph)
        there, sys.modules["networkx"] = sys.modules.get("networkx"), types.SimpleNamespace(DiGraph=DiGraph)
        try:
            with apsp.Network.from_networkx(graph, scale=2) as network:
                self.assertEqual((network.dist("a", "c"), network.dist("c", "a"), len(network)), (3, 3, 4))
                self.assertEqual(network.add_vertices(names=["e"]), ["e"])
                again = network.to_networkx()
                self.assertEqual(sorted(again.edges("weight", 1)), network.edges())
                self.assertEqual(list(again.nodes), ["a", "b", "c", "d", "e"])
        finally:
            del sys.modules["networkx"]
            if there:
                sys.modules["networkx"] = there

    def test_networkx(self):
        try:
            import networkx
        except ImportError:
            self.skipTest("networkx is not there")
        graph = networkx.Graph()
        graph.add_edge("a", "b", weight=0.5)
        graph.add_edge("b", "c")
        graph.add_node("d")
        with self.assertRaises(ValueError):
            apsp.Network.from_networkx(graph)
        with apsp.Network.from_networkx(graph, scale=2) as network:
            self.assertEqual((network.dist("a", "c"), network.dist("c", "a"), len(network)), (3, 3, 4))
            again = network.to_networkx()
            self.assertEqual(sorted(again.edges(data="weight")), network.edges())
            self.assertEqual(set(again), {"a", "b", "c", "d"})

    def test_a_session_more(self):
        chance, n = random.Random(3), 30
        edges = [{} for _ in range(n)]
        most, apsp.MOST_INPUT = apsp.MOST_INPUT, 5000
        try:
            with apsp.Network(n, renew=True) as network:
                for _ in range(400):
                    u, v = chance.sample(range(n), 2)
                    if v in edges[u]:
                        del edges[u][v]
                        network.cut(u, v)
                    else:
                        edges[u][v] = chance.randint(0, 9)
                        network.edge(u, v, edges[u][v])
                self.assertLess(network.stats().updates, 400)
                for x in range(n):
                    self.assertEqual(network.row(x), distances(n, edges, x))
        finally:
            apsp.MOST_INPUT = most


class Blocks(unittest.TestCase):
    def test_a_block(self):
        with apsp.Network(3, live=True) as network:
            network.edge(0, 1, 5)
            with network.block() as block:
                block.edge(1, 2, 6)
                self.assertEqual((block.ask(0, 2, since=1), block.ask(2, 0)), (0, 1))
            self.assertEqual(block.answers[0], apsp.Answer(2, apsp.Path(11, [0, 1, 2])))
            self.assertIsNone(block.answers[1].path)
            self.assertIn(block.answers[1].number, (1, 2))
            with self.assertRaises(apsp.Since):
                with network.block() as block:
                    block.cut(0, 1)
                    block.ask(0, 1, since=2)
            self.assertEqual(network.edges(), [(1, 2, 6)])
            with self.assertRaises(ZeroDivisionError):
                with network.block() as block:
                    block.edge(0, 1, 1 // 0)
            self.assertIsNone(network.dist(0, 2))
        with apsp.Network(2) as network:
            with self.assertRaises(apsp.NeedsLive):
                with network.block() as block:
                    block.edge(0, 1, 5)
            self.assertIsNone(network.dist(0, 1))
            self.assertEqual((network.edges(), network.close()), ([], 0))

    def test_many_refusals_at_once(self):
        with apsp.Network(2, live=True) as network:
            with self.assertRaises(apsp.Vertex):
                with network.block() as block:
                    for _ in range(20000):
                        block.edge(0, 7, 1)
            self.assertIsNone(network.dist(0, 1))


class Misuse(unittest.TestCase):
    """An interrupt, a thread, a fork: never a wrong answer, and never a hang."""

    def test_interrupts(self):
        class Timer(Exception):
            pass

        def ring(*_):
            raise Timer

        def disarm():
            signal.signal(signal.SIGALRM, signal.SIG_IGN)
            signal.setitimer(signal.ITIMER_REAL, 0)

        chance, network, answers, ends, rounds = random.Random(1), None, 0, 0, 0
        # Thousands of calls; and on a machine that is slow more rounds rather than fewer interrupts inside of a call.
        while rounds < 150 or (ends < 20 and rounds < 5000):
            rounds += 1
            if network is None:
                network, weight = apsp.Network(3), 5
                network.edge(0, 1, 5)
                network.edge(1, 2, 6)
            signal.signal(signal.SIGALRM, ring)
            try:
                signal.setitimer(signal.ITIMER_REAL, chance.random() * 0.0005 + 0.00001)
                for _ in range(40):
                    self.assertEqual(network.dist(0, 1), weight)
                    network.edge(0, 1, weight)
                disarm()
            except Timer:
                pass
            except apsp.Ended:
                pass
            disarm()
            try:
                self.assertEqual(network.dist(1, 2), 6)
                self.assertEqual(network.edges(), [(0, 1, 5), (1, 2, 6)])
                answers += 1
            except apsp.Ended:
                ends += 1
                network.close()
                network = None
        if network:
            network.close()
        self.assertGreaterEqual(ends, 20)

    def test_a_call_inside_of_a_call(self):
        network = apsp.Network(3)
        network.edge(0, 1, 5)
        inside = []

        def ring(*_):
            try:
                inside.append(network.dist(1, 0))
            except apsp.Ended:
                inside.append("ended")

        signal.signal(signal.SIGALRM, ring)
        try:
            signal.setitimer(signal.ITIMER_REAL, 0.0003, 0.0003)
            for _ in range(5000):
                self.assertEqual(network.dist(0, 1), 5)
        except apsp.Ended:
            pass
        finally:
            signal.signal(signal.SIGALRM, signal.SIG_IGN)
            signal.setitimer(signal.ITIMER_REAL, 0)
            network.close()
        self.assertTrue(inside)
        self.assertLessEqual(set(inside), {None, "ended"})

    def test_threads(self):
        n, wrong = 50, []
        with apsp.Network(n) as network:
            network.set_edges([(x, x + 1, x) for x in range(n - 1)])

            def asks(seed):
                chance = random.Random(seed)
                for _ in range(200):
                    x = chance.randrange(n - 1)
                    if network.dist(x, x + 1) != x or network.path(x, x + 1) != apsp.Path(x, [x, x + 1]):
                        wrong.append(x)

            threads = [threading.Thread(target=asks, args=(seed,)) for seed in range(8)]
            for thread in threads:
                thread.start()
            for thread in threads:
                thread.join()
        self.assertEqual(wrong, [])

    def test_a_fork(self):
        with apsp.Network(2) as network:
            network.edge(0, 1, 5)
            child = os.fork()
            if child == 0:
                try:
                    network.dist(0, 1)
                except apsp.Ended:
                    os._exit(7)
                os._exit(1)
            self.assertEqual(network.dist(0, 1), 5)
            self.assertEqual(os.waitpid(child, 0)[1] >> 8, 7)
            child = os.fork()
            if child == 0:
                signal.pause()
            # The child has no copy of the pipes, so the program ends by itself, and is not killed after a while.
            self.assertEqual(network.close(), 0)
            os.kill(child, signal.SIGKILL)
            os.waitpid(child, 0)

    def test_a_forgotten_network(self):
        network = apsp.Network(2)
        child = network._program.child.pid
        del network
        gc.collect()
        with self.assertRaises(ProcessLookupError):
            os.kill(child, 0)

    def test_a_group_of_its_own(self):
        with apsp.Network(2) as network:
            self.assertNotEqual(os.getpgid(network._program.child.pid), os.getpgid(0))

    def test_an_interrupt_at_an_idle_prompt(self):
        code = """if True:
            import signal, sys, time
            sys.path.insert(0, sys.argv[1])
            import apsp
            # What runs in the background begins with this signal ignored.
            signal.signal(signal.SIGINT, signal.default_int_handler)
            with apsp.Network(2) as network:
                network.edge(0, 1, 5)
                try:
                    print("idle", flush=True)
                    time.sleep(300)
                except KeyboardInterrupt:
                    print(network.dist(0, 1))
        """
        where = os.path.dirname(os.path.abspath(apsp.__file__))
        with subprocess.Popen([sys.executable, "-c", code, where], stdout=subprocess.PIPE, text=True, start_new_session=True) as child:
            self.assertEqual(child.stdout.readline(), "idle\n")
            os.killpg(child.pid, signal.SIGINT)
            self.assertEqual((child.stdout.read(), child.wait()), ("5\n", 0))

    def test_pickles(self):
        for raised in (apsp.Vertex(6, 3, "dist 0 5"), apsp.NotMore(15, 2, "grow 2"), apsp.Ended(5), apsp.Ended(None, "why"), apsp.InputFull("full")):
            again = pickle.loads(pickle.dumps(raised))
            self.assertEqual((type(again), str(again), again.__dict__), (type(raised), str(raised), raised.__dict__))

    def test_a_reply_that_does_not_belong(self):
        network = apsp.Network(3)
        os.write(network._program.to, b"dist 0 0\n")
        with self.assertRaises(apsp.Ended):
            network.dist(0, 1)
        with self.assertRaises(apsp.Ended):
            network.dist(0, 1)
        network.close()


CANNED = """#!/bin/sh
# Stands for the program: has one reply to what is no update, whatever is asked.
while read -r line; do
    case $line in
    "dist 0 0") echo "dist 0 0 0" ;;
    vertices*|edge*|grow*|block*|ask*|end*) ;;
    *) cat "$0.reply" ;;
    esac
done
"""


class Replies(unittest.TestCase):
    """Replies that do not fit what was asked: each ends the network, and none becomes an answer."""

    def test_replies_that_do_not_fit(self):
        with tempfile.TemporaryDirectory() as folder:
            program = os.path.join(folder, "canned")
            with open(program, "w", encoding="ascii") as file:
                file.write(CANNED)
            os.chmod(program, 0o755)
            for call, fits, wrong in [
                (lambda network: network.eccentricity(1), ["ecc 1 far 7 reach 3"], [
                    "ecc 0 far 7 reach 3", "ecc 1 far 7", "ecc 1 far 7 reach", "ecc 1 far x reach 3", "ecc 1 reach 3 far 7",
                    "ecc 1 far 7 reach 3 4", "ecc 1 far none reach 3", "ecc 1 far 7 reach  3", "ecc 1 far -7 reach 3",
                    "ecc 11 far 7 reach 3", "through 1 pairs 2", "", "line", "line 9 error 6 at 2", "line 3 error six at 2"]),
                (lambda network: network.report(), ["report diameter 7 radius 7 centre 0 2", "report diameter 7 radius none"], [
                    "report diameter 7", "report", "report diameter 7 radius 7", "report diameter 7 radius 7 centre",
                    "report diameter 7 radius 7 centre 3", "report diameter 7 radius 7 centre x", "report diameter none radius none",
                    "report diameter 7 radius none centre 0", "report radius 7 diameter 7 centre 0", "report diameter 7 radius 7 0",
                    "report diameter 7 radius 7 middle 0", "stats updates 0"]),
                (lambda network: network.through(2), ["through 2 pairs 0"], [
                    "through 1 pairs 0", "through 2 pairs", "through 2 0", "through 2 pairs none", "through 2 pairs 0 1", "through 2"]),
                (lambda network: network.dist(0, 1), ["dist 0 1 5", "dist 0 1 none"], [
                    "dist 1 0 5", "dist 0 1", "dist 0 1 x", "dist 0 1 5 5", "dist 0 11 5", "dist 0 1 none none"]),
                (lambda network: network.path(0, 2), ["path 0 2 5 walk 0 1 2", "path 0 2 none"], [
                    "path 0 2 5", "path 0 2 5 walk", "path 0 2 5 walk 0 1", "path 0 2 5 walk 1 2", "path 0 2 5 walk 0 3 2",
                    "path 0 2 5 by 0 2", "path 0 2 none walk 0 2"]),
                (lambda network: network.row(0), ["row 0 0 5 none"], ["row 0 0 5", "row 0 0 5 none none", "row 0 0 5 x", "row 1 0 5 5"]),
                (lambda network: network.stats(), ["stats updates 1 steps 2 paths 3 historical 4 formed 5 removed 6"], [
                    "stats updates 1 steps 2", "stats updates 1 paths 3 shortest 3", "stats"]),
                (lambda network: network.age([0, 1]), ["age 0 1 birth 3", "age 0 1 none"], ["age 0 1", "age 0 1 2 birth 3", "age 0 1 birth"]),
            ]:
                for reply in fits + wrong:
                    with open(program + ".reply", "w", encoding="ascii") as file:
                        file.write(reply + "\n")
                    network = apsp.Network(3, program=program)
                    if reply in fits:
                        call(network)
                        call(network)
                        self.assertEqual(network.close(), 0)
                        continue
                    with self.assertRaises(apsp.Ended, msg=reply) as caught:
                        call(network)
                    self.assertIn("does not belong to what was asked", str(caught.exception))
                    with self.assertRaises(apsp.Ended, msg=reply):
                        network.dist(0, 0)
                    network.close()

    def test_answers_of_a_block_that_do_not_fit(self):
        with tempfile.TemporaryDirectory() as folder:
            program = os.path.join(folder, "canned")
            for reply, fits in [("at 1 path 0 1 5 walk 0 1", True), ("at 1 path 1 0 5 walk 1 0", False), ("path 0 1 5 walk 0 1", False),
                                ("at 1 path 0 1 5", False), ("at x path 0 1 none", False)]:
                with open(program, "w", encoding="ascii") as file:
                    file.write(CANNED.replace("|end*) ;;", f"*) ;;\n    end) echo '{reply}' ;;"))
                os.chmod(program, 0o755)
                network = apsp.Network(2, program=program, live=True)
                try:
                    with network.block() as block:
                        block.ask(0, 1)
                    self.assertTrue(fits, reply)
                    self.assertEqual(block.answers, [apsp.Answer(1, apsp.Path(5, [0, 1]))])
                except apsp.Ended:
                    self.assertFalse(fits, reply)
                network.close()


class Certificates(unittest.TestCase):
    def test_a_certificate(self):
        with apsp.Network(3) as network:
            network.star(0, out={1: 4, 2: 9})
            network.star(1, out={2: 3}, into={0: 4})
            text = network.certificate()
            self.assertEqual(text, b"apsp certificate 2\nnumber 2\nvertices 3\nedges 3\n0 1:4 2:9\n1 2:3\n"
                                   b"pairs 3\n0 1:4:1:1 2:7:2:1\n1 2:3:1:2\nend\n")
            self.assertEqual(network.dist(0, 2), 7)
        verdict = apsp.check(text)
        self.assertEqual(verdict, "certificate yes 2")


if __name__ == "__main__":
    unittest.main()
