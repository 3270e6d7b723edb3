"""A referee of scripts with blocks, written from docs/FORMATS.md alone, and random scripts to try it on.

    python3 tests/blocks.py COUNT PROGRAM [SEED]    COUNT random scripts, at 1 to 8 readers and 2 to 64 slots

`judge(script, output, status, readers, questions)` says what is not allowed of an output, or None. A block's answers
leave a choice, so there is no one text to compare with. With status 5 the output has to be a front of an allowed one,
cut behind a reply. The replies to `stats`, `age` and `cert` are those of the
same updates without blocks, which `questions` gives: other cases hold them to the definitions.
"""

import random
import re
import subprocess
import sys

MOST_LINE, MOST_VERTICES, MOST_WEIGHT, MOST_IN_BLOCK = 65536, 512, 4294967295, 65536
NUMBER = re.compile(rb"0|[1-9][0-9]{0,18}")
COMMANDS = (b"vertices", b"star", b"edge", b"cut", b"dist", b"path", b"row", b"stats", b"age", b"cert", b"block", b"ask", b"end")
LENGTHS = {b"vertices": 2, b"edge": 4, b"cut": 3, b"dist": 3, b"path": 3, b"row": 2, b"stats": 1, b"cert": 1, b"block": 1, b"end": 1}
UPDATES = (b"star", b"edge", b"cut")


class Refused(Exception):
    """A code and the place that it stands at."""


def number(word, place):
    if not NUMBER.fullmatch(word):
        raise Refused(5, place)
    return int(word)


class Network:
    """The graph after the updates so far, and the block that is open, if any."""

    def __init__(self):
        self.n = 0
        self.graph = {}
        self.block = None

    def vertex(self, word, place):
        found = number(word, place)
        if found >= self.n:
            raise Refused(6, place)
        return found

    def read(self, line):
        """The words of an accepted line, with its vertices and numbers read; None for a line that asks nothing."""
        if len(line) > MOST_LINE:
            raise Refused(10, 0)
        words = [word for word in re.split(rb"[\t\r ]+", line) if word]
        if not words or words[0].startswith(b"#"):
            return None
        self.place_of(words[0])
        self.shape_of(words)
        return words[0], self.numbers_of(words)

    def place_of(self, word):
        """Whether the command may stand here at all."""
        if word not in COMMANDS or word in (b"ask", b"end") and self.block is None:
            raise Refused(3, 1)
        if self.block is not None and word not in UPDATES + (b"ask", b"end"):
            raise Refused(13, 1)
        if word == b"vertices" and self.n:
            raise Refused(2, 1)
        if word != b"vertices" and not self.n:
            raise Refused(1, 1)
        if self.block is not None:
            many = self.block.asks if word == b"ask" else self.block.graphs[1:] if word in UPDATES else []
            if len(many) >= MOST_IN_BLOCK:
                raise Refused(12, 1)

    def shape_of(self, words):
        count = len(words)
        if words[0] == b"star":
            groups = set()
            for place, word in enumerate(words[2:], 3):
                if word in (b"out", b"in"):
                    if word in groups:
                        raise Refused(4, place)
                    groups.add(word)
                elif not groups or word.count(b":") != 1:
                    raise Refused(4, place)
            least = 2
        elif words[0] == b"age":
            least = 2
        elif words[0] == b"ask":
            if count > 3 and words[3] != b"since":
                raise Refused(4, 4)
            least = 3 if count <= 3 else 5
            if count > 5:
                raise Refused(4, 6)
        else:
            least = LENGTHS[words[0]]
            if count > least:
                raise Refused(4, least + 1)
        if count < least:
            raise Refused(4, count + 1)

    def numbers_of(self, words):
        command = words[0]
        if command == b"vertices":
            n = number(words[1], 2)
            if not 1 <= n <= MOST_VERTICES:
                raise Refused(6, 2)
            return [n]
        if command == b"star":
            return self.star_of(words)
        if command in (b"edge", b"cut"):
            ends = [self.vertex(word, place) for place, word in enumerate(words[1:3], 2)]
            if ends[0] == ends[1]:
                raise Refused(7, 3)
            return ends + [self.weight(word, 4) for word in words[3:]]
        if command == b"ask":
            ends = [self.vertex(word, place) for place, word in enumerate(words[1:3], 2)]
            since = number(words[4], 5) if len(words) == 5 else 0
            if since > len(self.block.graphs) - 1:
                raise Refused(14, 5)
            return ends + [since]
        return [self.vertex(word, place) for place, word in enumerate(words[1:], 2)]

    def weight(self, word, place):
        found = number(word, place)
        if not found <= MOST_WEIGHT:
            raise Refused(9, place)
        return found

    def star_of(self, words):
        v = self.vertex(words[1], 2)
        edges, group = {}, b""
        for place, word in enumerate(words[2:], 3):
            if word in (b"out", b"in"):
                group = word
                continue
            end, weight = word.split(b":")
            u, w = number(end, place), number(weight, place)
            if u >= self.n:
                raise Refused(6, place)
            if u == v:
                raise Refused(7, place)
            edge = (v, u) if group == b"out" else (u, v)
            if edge in edges:
                raise Refused(8, place)
            if not w <= MOST_WEIGHT:
                raise Refused(9, place)
            edges[edge] = w
        return [v, edges]

    def updated(self, command, numbers):
        """The graph with an update behind it."""
        graph = dict(self.block.graphs[-1] if self.block is not None else self.graph)
        if command == b"edge":
            graph[numbers[0], numbers[1]] = numbers[2]
        elif command == b"cut":
            graph.pop((numbers[0], numbers[1]), None)
        else:
            v, edges = numbers
            graph = {edge: weight for edge, weight in graph.items() if v not in edge}
            graph.update(edges)
        return graph


class Block:
    """A block: the graph before it and after each of its updates, the lines of the updates, and its asks."""

    def __init__(self, graph):
        self.graphs = [graph]
        self.lines = []
        self.asks = []


def least_walks(n, graph, x):
    """The least walk from x to each vertex: by weight, then number of edges, then vertex list."""
    found, todo = {}, {x: (0, 0, (x,))}
    while todo:
        v = min(todo, key=todo.get)
        found[v] = weight, hops, walk = todo.pop(v)
        for u in range(n):
            if (v, u) in graph and u not in found:
                way = (weight + graph[v, u], hops + 1, walk + (u,))
                if u not in todo or way < todo[u]:
                    todo[u] = way
    return found


def path_text(n, graph, x, y):
    walk = least_walks(n, graph, x).get(y)
    if walk is None:
        return b"path %d %d none" % (x, y)
    return b"path %d %d %d walk %s" % (x, y, walk[0], b" ".join(b"%d" % v for v in walk[2]))


def answer_fault(n, first, block, readers, replies):
    """What is wrong with the replies to the asks of a block whose opening version has the number `first`."""
    last = [first] * readers
    for i, ((x, y, since), reply) in enumerate(zip(block.asks, replies)):
        named = re.fullmatch(rb"at (0|[1-9][0-9]*) (path .*)", reply)
        if not named:
            return b"no answer: " + reply
        k = int(named[1])
        if not first + since <= k < first + len(block.graphs):
            return b"a version out of range: " + reply
        if k < last[i % readers]:
            return b"an older version than its reader saw: " + reply
        last[i % readers] = k
        if named[2] != path_text(n, block.graphs[k - first], x, y):
            return b"not the least walk of its version: " + reply
    return None


class Ended(Exception):
    """The replies of a run that was cut short have come to their end."""


class Referee:
    """Goes through a script and its output side by side."""

    def __init__(self, output, readers, questions, cut_short):
        self.network = Network()
        self.replies = output.split(b"\n")[:-1]
        self.cut_short = cut_short
        self.readers = readers
        self.questions = questions
        self.flat = []
        self.updates = 0
        self.refused = False

    def take(self, wanted):
        got, self.replies = self.replies[:len(wanted)], self.replies[len(wanted):]
        if self.cut_short and len(got) < len(wanted) and got == wanted[:len(got)]:
            raise Ended
        return None if got == wanted else b"wanted %r, got %r" % (wanted[:3], got[:3])

    def question(self, command, numbers, line):
        net = self.network
        if command == b"path":
            return self.take([path_text(net.n, net.graph, *numbers)])
        if command in (b"dist", b"row"):
            found = least_walks(net.n, net.graph, numbers[0])
            ends = numbers[1:] if command == b"dist" else range(net.n)
            entries = [b"%d" % found[y][0] if y in found else b"none" for y in ends]
            return self.take([b" ".join([command] + [b"%d" % x for x in numbers] + entries)])
        before = self.questions(b"\n".join(self.flat) + b"\n")
        return self.take(self.questions(b"\n".join(self.flat + [line]) + b"\n")[len(before):])

    def end(self):
        net, block = self.network, self.network.block
        replies, self.replies = self.replies[:len(block.asks)], self.replies[len(block.asks):]
        if len(replies) < len(block.asks) and not self.cut_short:
            return b"an ask without an answer"
        fault = answer_fault(net.n, self.updates, block, self.readers, replies)
        if not fault and len(replies) < len(block.asks):
            raise Ended
        net.graph, net.block = block.graphs[-1], None
        self.updates += len(block.lines)
        self.flat += block.lines
        return fault

    def line(self, place, line):
        net = self.network
        try:
            read = net.read(line)
        except Refused as fault:
            self.refused = True
            return self.take([b"line %d error %d at %d" % ((place,) + fault.args)])
        if read is None:
            return None
        command, numbers = read
        if command == b"vertices":
            net.n = numbers[0]
            self.flat.append(line)
        elif command == b"block":
            net.block = Block(net.graph)
        elif command == b"ask":
            net.block.asks.append(numbers)
        elif command == b"end":
            return self.end()
        elif command in UPDATES:
            graph = net.updated(command, numbers)
            if net.block is not None:
                net.block.graphs.append(graph)
                net.block.lines.append(line)
            else:
                net.graph = graph
                self.updates += 1
                self.flat.append(line)
        else:
            return self.question(command, numbers, line)
        return None


def judge(script, output, status, readers, questions):
    referee = Referee(output, readers, questions, status == 5)
    lines = script.split(b"\n")
    lines = lines if lines[-1] else lines[:-1]
    try:
        for place, line in enumerate(lines, 1):
            fault = referee.line(place, line)
            if fault:
                return b"line %d: %s" % (place, fault)
        if referee.network.block is not None:
            referee.refused = True
            fault = referee.take([b"line %d error 13 at 0" % (len(lines) + 1)])
            if fault:
                return b"the end: " + fault
    except Ended:
        return b"replies too many" if referee.replies else None
    if status == 5:
        return None
    if referee.replies:
        return b"replies too many: %r" % referee.replies[:3]
    return None if status == int(referee.refused) else b"status %d" % status


def update(rng, n, most):
    v = rng.randrange(n)
    u = rng.choice([u for u in range(n) if u != v])
    kind = rng.randrange(3)
    if kind == 0:
        return "edge %d %d %d" % (v, u, rng.randrange(most))
    if kind == 1 and rng.randrange(2):
        return "cut %d %d" % (v, u)
    words = ["star %d" % v]
    for group in rng.sample(["out", "in"], rng.randrange(3)):
        words.append(group)
        words += ["%d:%d" % (u, rng.randrange(most)) for u in range(n) if u != v and rng.randrange(2)]
    return " ".join(words)


def wrong(rng, n):
    return rng.choice(["ask 0 %d" % n, "ask 0", "ask 0 1 sinc 1", "ask 0 1 since 99", "ask 0 1 since x", "ask 0 1 since 0 0",
                       "dist 0 1", "block", "end 1", "stats", "row 0", "edge 0 0 1", "edge 0 1 0", "cut 0", "star 0 1:1",
                       "star 0 out 1:1 1:1", "foo", "vertices 3", "# none", "", "age 0", "cert", "path 0 1"])


def script(rng):
    """A random script with blocks; some lines are refused, and now and then the last block stays open."""
    n = rng.randrange(2, 9)
    most = rng.choice([2, 4, 12])
    lines = ["ask 0 1"] if rng.randrange(4) == 0 else []
    lines.append("vertices %d" % n)
    lines += [update(rng, n, most) for _ in range(rng.randrange(n + 1))]
    for _ in range(rng.randrange(1, 4)):
        lines.append("block")
        updates = 0
        for _ in range(rng.randrange(rng.choice([3, 12, 60]))):
            kind = rng.randrange(8)
            if kind < 3:
                lines.append(update(rng, n, most))
                updates += 1
            elif kind < 7:
                since = " since %d" % rng.randrange(updates + 1) if rng.randrange(2) else ""
                lines.append("ask %d %d%s" % (rng.randrange(n), rng.randrange(n), since))
            elif rng.randrange(3) == 0:
                lines.append(wrong(rng, n))
        if rng.randrange(12) == 0:
            break
        lines += ["end", "path %d %d" % (rng.randrange(n), rng.randrange(n)), "row %d" % rng.randrange(n), "stats",
                  "age %d %d" % (rng.randrange(n), rng.randrange(n))]
        lines += [update(rng, n, most) for _ in range(rng.randrange(3))]
    return "\n".join(lines).encode() + (b"\n" if rng.randrange(8) else b"")


def faults(program, count, seed=1):
    """Runs random scripts and says of each output that is not allowed why."""
    rng = random.Random(seed)
    for i in range(count):
        text, readers, slots = script(rng), rng.randrange(1, 9), rng.choice([2, 3, 4, 8, 64])
        smooth = ["--smooth"] if rng.randrange(2) else []

        def replies(data):
            done = subprocess.run([program, "run"] + smooth, input=data, stdout=subprocess.PIPE, timeout=900)
            return done.stdout.split(b"\n")[:-1]

        words = ["live", "--readers", str(readers), "--slots", str(slots)] + smooth
        done = subprocess.run([program] + words, input=text, stdout=subprocess.PIPE, timeout=900)
        fault = judge(text, done.stdout, done.returncode, readers, replies)
        if fault:
            yield f"script {i} of seed {seed} with {' '.join(words)}: {fault.decode()}\n{text.decode()}"


SCRIPT = b"vertices 3\nblock\nstar 0 out 1:4 2:9\nask 0 2\nask 0 2 since 1\nstar 1 out 2:3 in 0:4\nask 0 2\nend\nblock\nask 0 1\n"
ANSWERS = {0: b"at 0 path 0 2 none", 1: b"at 1 path 0 2 9 walk 0 2", 2: b"at 2 path 0 2 7 walk 0 1 2"}
ALLOWED = [([0, 1, 0], 2), ([0, 2, 2], 1), ([2, 2, 2], 1), ([2, 1, 2], 3), ([1, 2, 1], 2)]
NOT_ALLOWED = [([2, 1, 2], 1), ([0, 0, 0], 3), ([1, 1, 0], 2), ([0, 1], 2), ([0, 1, 1, 1], 4)]


def wrongly_judged():
    """What the referee says wrongly of a small script: an answer of an older version than its reader saw, of a version
    below what was asked, too few and too many answers, another walk, another end."""
    end = b"line 11 error 13 at 0\n"
    right = [(numbers, readers, end, 1, None) for numbers, readers in ALLOWED]
    wrong = [(numbers, readers, end, 1, ANSWERS) for numbers, readers in NOT_ALLOWED]
    wrong += [([0, 1, 2], 1, b"", 1, ANSWERS), ([0, 1, 2], 1, end, 0, ANSWERS)]
    for numbers, readers, last, status, refused in right + wrong:
        output = b"".join(ANSWERS[number] + b"\n" for number in numbers) + last
        fault = judge(SCRIPT, output, status, readers, lambda data: [])
        if (fault is None) != (refused is None):
            yield f"the referee says {fault!r} of answers from {numbers} by {readers} readers, status {status}"
    for number, other in ((1, b"at 1 path 0 2 7 walk 0 1 2"), (2, b"at 2 path 0 2 9 walk 0 2"), (2, b"at 2 path 0 2 none")):
        output = b"\n".join([ANSWERS[0], ANSWERS[1], ANSWERS[2]]).replace(ANSWERS[number], other) + b"\n" + end
        if judge(SCRIPT, output, 1, 3, lambda data: []) is None:
            yield f"the referee allows {other!r}"


def main():
    missed = list(faults(sys.argv[2], int(sys.argv[1]), int(sys.argv[3]) if len(sys.argv) > 3 else 1))
    for fault in missed[:3]:
        print(fault)
    print(f"{int(sys.argv[1]) - len(missed)} outputs allowed, {len(missed)} not")
    return 1 if missed else 0


if __name__ == "__main__":
    sys.exit(main())
