"""A second checker of certificates, written from docs/FORMATS.md alone, and texts to try both on.

`judge(data)` gives what the mode `check` has to say of the bytes, and its status.
`mutants(data)` gives the bytes with each byte replaced by several others, left out, or doubled.
`hostile()` gives texts that mean harm: lines of 16 MB, numbers of 18 digits and more, counts that lie.
`tables()` gives texts that differ in what they say of tables, by what may be taken for them.
"""

import re

NUMBER = re.compile(rb"0|[1-9][0-9]{0,17}")
SHAPE, ORDER, RANGE = 1, 2, 3


class Fault(Exception):
    pass


class Lines:
    """The lines of a text, taken one after the other."""

    def __init__(self, data):
        self.rest = data
        self.number = 0

    def take(self):
        self.number += 1
        line, newline, rest = self.rest.partition(b"\n")
        if not newline:
            raise Fault(SHAPE, self.number)
        self.rest = rest
        return line

    def fixed(self, text):
        if self.take() != text:
            raise Fault(SHAPE, self.number)

    def numbers(self, count):
        words = self.take().split(b" ")
        if len(words) != count or not all(NUMBER.fullmatch(word) for word in words):
            raise Fault(SHAPE, self.number)
        return [int(word) for word in words]

    def named(self, name, fits):
        words = self.take().split(b" ")
        if len(words) != 2 or words[0] != name or not NUMBER.fullmatch(words[1]):
            raise Fault(SHAPE, self.number)
        if not fits(int(words[1])):
            raise Fault(RANGE, self.number)
        return int(words[1])

    def table(self, name, n, width, fits):
        found = {}
        last = None
        for _ in range(self.named(name, lambda count: count <= n * (n - 1))):
            x, y, *others = self.numbers(width)
            if not (x < n and y < n and x != y and fits(x, *others)):
                raise Fault(RANGE, self.number)
            if last is not None and (x, y) <= last:
                raise Fault(ORDER, self.number)
            last = (x, y)
            found[last] = tuple(others)
        return found


class GroupedLines(Lines):
    """The lines of text 2, where the items of one vertex have a line."""

    def items(self, width, most):
        first, *words = self.take().split(b" ")
        items = [word.split(b":") for word in words]
        if not NUMBER.fullmatch(first) or not 1 <= len(items) <= most:
            raise Fault(SHAPE, self.number)
        for item in items:
            if len(item) != width - 1 or not all(NUMBER.fullmatch(part) for part in item):
                raise Fault(SHAPE, self.number)
        return int(first), [[int(part) for part in item] for item in items]

    def table(self, name, n, width, fits):
        found = {}
        last = -1
        left = self.named(name, lambda count: count <= n * (n - 1))
        while left:
            x, items = self.items(width, left)
            if not all(x < n and y < n and x != y and fits(x, *others) for y, *others in items):
                raise Fault(RANGE, self.number)
            seconds = [item[0] for item in items]
            if x <= last or any(b <= a for a, b in zip(seconds, seconds[1:])):
                raise Fault(ORDER, self.number)
            last = x
            left -= len(items)
            found.update({(x, y): tuple(others) for y, *others in items})
        return found


def read(data):
    grouped = data.startswith(b"apsp certificate 2\n")
    lines = (GroupedLines if grouped else Lines)(data)
    lines.fixed(b"apsp certificate 2" if grouped else b"apsp certificate 1")
    number = lines.named(b"number", lambda _: True)
    n = lines.named(b"vertices", lambda count: 1 <= count <= 512)
    edges = lines.table(b"edges", n, 3, lambda u, w: w <= 4294967295)
    entries = lines.table(b"pairs", n, 5, lambda x, d, h, s: 1 <= h <= n - 1 and s < n and s != x)
    lines.fixed(b"end")
    if lines.rest:
        raise Fault(SHAPE, lines.number + 1)
    return number, n, {pair: weight for pair, (weight,) in edges.items()}, entries


def first_failure(n, edges, entries):
    def entry(x, y):
        return (0, 0) if x == y else entries.get((x, y), (None, None))[:2]

    def ways(x, y):
        for u in range(n):
            if (x, u) in edges and entry(u, y)[0] is not None:
                dist, hops = entry(u, y)
                yield edges[x, u] + dist, 1 + hops, u

    for x in range(n):
        for y in range(n):
            if x == y:
                continue
            if (x, y) not in entries:
                if any(True for _ in ways(x, y)):
                    return x, y, "missing"
                continue
            stated = entries[x, y]
            if stated not in set(ways(x, y)):
                return x, y, "step"
            if any(way < stated for way in ways(x, y)):
                return x, y, "smaller"
    return None


def judge(data):
    try:
        number, n, edges, entries = read(data)
    except Fault as fault:
        code, line = fault.args
        return b"certificate error %d at %d\n" % (code, line), 1
    failure = first_failure(n, edges, entries)
    if failure:
        return b"certificate no %d %d %s\n" % (failure[0], failure[1], failure[2].encode()), 1
    return b"certificate yes %d\n" % number, 0


def mutants(data):
    for place in range(len(data)):
        before, byte, behind = data[:place], data[place:place + 1], data[place + 1:]
        for other in (b"0", b"1", b"2", b"3", b"4", b"9", b" ", b":", b"\n", b"x"):
            if other != byte:
                yield before + other + behind
        yield before + behind
        yield before + byte + byte + behind


MOST_INPUT = 16777216
# A network with an edge of weight 0 and a vertex that has no way back.
SMALL = (b"apsp certificate 1", b"number 3", b"vertices 3", b"edges 3", b"0 1 0", b"1 0 10", b"1 2 4", b"pairs 4",
         b"0 1 0 1 1", b"0 2 4 2 1", b"1 0 10 1 0", b"1 2 4 1 2", b"end")
# The same in text 2.
GROUPED = (b"apsp certificate 2", b"number 3", b"vertices 3", b"edges 3", b"0 1:0", b"1 0:10 2:4", b"pairs 4",
           b"0 1:0:1:1 2:4:2:1", b"1 0:10:1:0 2:4:1:2", b"end")
EMPTY = (b"apsp certificate 1", b"number 0", b"vertices 2", b"edges 0", b"pairs 0", b"end")


def joined(lines):
    return b"".join(line + b"\n" for line in lines)


def changed(lines, number, line):
    """The text with another line in the place of the one with this number."""
    return joined(lines[:number - 1] + (line,) + lines[number:])


def hostile():
    """What the text does, and the text."""
    for text in SMALL, GROUPED:
        for number, line in enumerate(text, 1):
            front = joined(text[:number - 1]) + line
            for byte in b"0", b"1", b" ", b":", b"\xff":
                yield "a line that fills the input", front + byte * (MOST_INPUT - len(front))
            yield "a line without an end", front
            words = re.split(b"([ :])", line)
            for place in range(2, len(words), 2):
                for digits in b"9" * 18, b"9" * 19, b"1" * 100, b"18446744073709551616", b"00", b"-1", b"":
                    spelled = b"".join(words[:place] + [digits] + words[place + 1:])
                    yield "a number of many digits", changed(text, number, spelled)
    items = b" 1:1" * (MOST_INPUT // 5)
    yield "a line of the same item", joined(GROUPED[:2] + (b"vertices 512", b"edges 261632", b"0" + items))
    for n, count in ((1, 1), (2, 3), (3, 7), (512, 261632), (512, 261633), (512, 4294967296)):
        for title, edge, pair in ((b"1", b"0 1 1", b"%d 0 1 1 0"), (b"2", b"0 1:1", b"%d 0:1:1:0")):
            head = (b"apsp certificate " + title, b"number 0", b"vertices %d" % n)
            yield "edges that are not there", joined(head + (b"edges %d" % count,))
            yield "pairs that are not there", joined(head + (b"edges 0", b"pairs %d" % count, b"end"))
            yield "edges that are the same", joined(head + (b"edges %d" % count,) + (edge,) * 1000)
            yield "pairs of other vertices", joined(head + (b"edges 0", b"pairs %d" % count) + (pair % n,) * 1000)
    yield "newlines alone", b"\n" * 1000
    yield "a head again and again", joined(SMALL[:3]) * 1000
    yield "a head of text 2 again and again", joined(GROUPED[:3]) * 1000


def tables():
    """Texts by the number of vertices for which there may be tables: 0 where the fault is in the first three lines.
    All have one length, behind the newlines at their end, so that holding them takes as much."""
    found = {0: [b"", b"apsp certificate 2\n", b"apsp certificate 3\n", changed(EMPTY, 2, b"number x"), changed(EMPTY, 3, b"vertices 0"),
                 changed(EMPTY, 3, b"vertices 513"), changed(EMPTY, 3, b"vertices 999999999999999999")]}
    for n in (2, 64, 512):
        found[n] = []
        for title in b"apsp certificate 1", b"apsp certificate 2":
            whole = (title, EMPTY[1], b"vertices %d" % n) + EMPTY[3:]
            found[n] += [changed(whole, number, line) for number, line in (
                (4, b"edges 0"), (4, b"edges 1"), (4, b"edges %d" % (n * (n - 1))), (4, b"edges 999999999999999999"),
                (5, b"pairs %d" % (n * (n - 1))), (5, b"pairs 999999999999999999"), (5, b"pairs 0\n" + b"x" * 1000))]
    return {n: [text.ljust(2000, b"\n") for text in texts] for n, texts in found.items()}
