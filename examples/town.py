"""What the examples share: a network read from a script, a picture of it as SVG, and a bar of progress."""

import os
import sys

HERE = os.path.dirname(os.path.abspath(__file__))
sys.path.insert(0, os.path.join(os.path.dirname(HERE), "clients", "python"))
MARGIN = 40
STREET, WATER, INK = "#c9c9c9", "#bcd9ee", "#444444"
LINE_OF_LEGEND = 26


QUESTIONS = ("dist", "row", "path", "stats", "age", "cert", "ecc", "report", "through")


class Unread(SystemExit):
    """A town that cannot be read, or drawn: ends the example, which says why."""

    def __init__(self, why):
        super().__init__(f"{os.path.basename(sys.argv[0])}: {why}")


class Town:
    """Crossings with their places in metres, and streets with their lengths, one for each direction."""

    def __init__(self, file):
        """Reads a script: its updates, the places of crossings in lines `# place V X Y`, and rivers in lines
        `# river X Y X Y ..`. Its questions are passed over."""
        self.places, self.streets, self.crossings, self.rivers = {}, {}, 0, []
        try:
            with open(file, encoding="ascii") as script:
                lines = script.readlines()
        except (OSError, UnicodeDecodeError) as fault:
            raise Unread(f"{file} cannot be read: {fault}") from None
        for number, line in enumerate(lines, 1):
            try:
                self.take(line.split())
            except (ValueError, IndexError, KeyError):
                raise Unread(f"line {number} of {file} is not understood: {line.strip()[:60]}") from None
        if not self.crossings:
            raise Unread(f"{file} has no line 'vertices N'")

    def take(self, words):
        """Takes the words of a line: as the program would, but for blocks."""
        if words[:2] == ["#", "place"]:
            self.places[int(words[2])] = (int(words[3]), int(words[4]))
        elif words[:2] == ["#", "river"]:
            numbers = [int(word) for word in words[2:]]
            self.rivers.append(list(zip(numbers[::2], numbers[1::2])))
        elif not words or words[0].startswith("#") or words[0] in QUESTIONS:
            return
        elif words[0] in ("vertices", "grow"):
            self.crossings = int(words[1])
        elif words[0] == "star":
            self.replace(int(words[1]), words[2:])
        elif words[0] == "edge":
            self.streets[int(words[1]), int(words[2])] = int(words[3])
        elif words[0] == "cut":
            self.streets.pop((int(words[1]), int(words[2])), None)
        else:
            raise ValueError(words[0])

    def replace(self, v, words):
        """Puts the streets of a star in place of all at its crossing."""
        self.streets = {ends: w for ends, w in self.streets.items() if v not in ends}
        group = None
        for word in words:
            if word in ("out", "in"):
                group = word
                continue
            u, w = map(int, word.split(":"))
            self.streets[{"out": (v, u), "in": (u, v)}[group]] = w

    def crossing(self, v):
        """The number of a crossing that there is."""
        if not 0 <= v < self.crossings:
            raise Unread(f"{v} is no crossing: there are 0 to {self.crossings - 1}")
        return v

    def enter(self, network):
        """Puts all streets into a network without edges, a star for each crossing."""
        for v in range(self.crossings):
            network.star(v, out={u: w for (x, u), w in self.streets.items() if x == v},
                         into={x: w for (x, u), w in self.streets.items() if u == v})


class Picture:
    """An SVG picture of a town with its rivers, its streets and their lengths: later strokes lie over earlier ones."""

    def __init__(self, town):
        self.town, self.places, self.strokes, self.legend = town, town.places, [], []
        missing = sorted({v for ends in town.streets for v in ends} - set(town.places))
        if missing:
            raise Unread(f"there is no picture: the town has no line '# place {missing[0]} X Y'")
        for river in town.rivers:
            self.put_line([(x + MARGIN, y + MARGIN) for x, y in river], WATER, 34)
        for u, v in self.streets():
            self.line([u, v], STREET, 5)
            if ((u, v) in town.streets) != ((v, u) in town.streets):
                self.arrow(*((u, v) if (u, v) in town.streets else (v, u)))

    def streets(self):
        """The streets, once for both directions."""
        return sorted({(min(ends), max(ends)) for ends in self.town.streets})

    def at(self, v, aside=0):
        x, y = self.places[v]
        return x + MARGIN + aside, y + MARGIN + aside

    def put_line(self, points, colour, width, dashes="", inside=""):
        dashed = f' stroke-dasharray="{dashes}"' if dashes else ""
        end = f">{inside}</polyline>" if inside else "/>"
        self.strokes.append(f'<polyline points="{" ".join("%g,%g" % point for point in points)}" fill="none" stroke="{colour}" '
                            f'stroke-width="{width:g}"{dashed} stroke-linejoin="round" stroke-linecap="round"{end}')

    def line(self, vertices, colour, width, aside=0, dashes="", inside=""):
        self.put_line([self.at(v, aside) for v in vertices], colour, width, dashes, inside)

    def arrow(self, u, v):
        """The direction of a street that leads one way alone."""
        (a, b), (c, d) = self.at(u), self.at(v)
        x, y, length = a + 0.6 * (c - a), b + 0.6 * (d - b), max(1.0, ((c - a) ** 2 + (d - b) ** 2) ** 0.5)
        along, across = ((c - a) / length, (d - b) / length), ((b - d) / length, (c - a) / length)
        corners = [(x + 9 * along[0], y + 9 * along[1])]
        corners += [(x - 7 * along[0] + side * across[0], y - 7 * along[1] + side * across[1]) for side in (7, -7)]
        self.strokes.append(f'<polygon points="{" ".join("%.1f,%.1f" % corner for corner in corners)}" fill="{INK}"/>')

    def lengths(self):
        """The length of each street at its middle; both, where its directions differ."""
        for u, v in self.streets():
            (a, b), (c, d) = self.at(u), self.at(v)
            found = [self.town.streets[ends] for ends in ((u, v), (v, u)) if ends in self.town.streets]
            level = abs(c - a) > abs(d - b)
            said = " / ".join(map(str, sorted(set(found))))
            if level:
                self.text((a + c) / 2, (b + d) / 2 - 6, said, INK, 13, "middle")
            else:
                self.text((a + c) / 2 + 4, (b + d) / 2 + 4, said, INK, 13)

    def text(self, x, y, said, colour, size=20, anchor="start", inside="", more=""):
        self.strokes.append(f'<text x="{x:g}" y="{y:g}" font-family="sans-serif" font-size="{size}" text-anchor="{anchor}" '
                            f'fill="{colour}"{more}>{said}{inside}</text>')

    def dot(self, v, colour, text="", radius=9, inside=""):
        x, y = self.at(v)
        end = f">{inside}</circle>" if inside else "/>"
        self.strokes.append(f'<circle cx="{x}" cy="{y}" r="{radius}" fill="{colour}"{end}')
        if text:
            self.text(x + 13, y - 22, text, colour)

    def cross(self, u, v, colour):
        (a, b), (c, d) = self.at(u), self.at(v)
        x, y = (a + c) / 2, (b + d) / 2
        self.strokes.append(f'<path d="M{x - 9:g},{y - 9:g} l18,18 m0,-18 l-18,18" stroke="{colour}" stroke-width="4"/>')

    def explain(self, colour, said, dashes=""):
        """A line of the legend, which stands below the town."""
        self.legend.append((colour, said, dashes))

    def write(self, file):
        width = max(x for x, _ in self.places.values()) + 2 * MARGIN
        below = max(y for _, y in self.places.values()) + 2 * MARGIN
        for number, (colour, said, dashes) in enumerate(self.legend):
            y = below + LINE_OF_LEGEND * number
            self.put_line([(MARGIN, y), (MARGIN + 50, y)], colour, 7, dashes)
            self.text(MARGIN + 64, y + 6, said, INK, 17)
        height = below + LINE_OF_LEGEND * len(self.legend)
        with open(file, "w", encoding="ascii") as out:
            out.write(f'<svg xmlns="http://www.w3.org/2000/svg" viewBox="0 0 {width} {height}">\n'
                      f'<rect width="{width}" height="{height}" fill="white"/>\n' + "\n".join(self.strokes) + "\n</svg>\n")


class Progress:
    """A bar on standard error, where that is a terminal and standard output, which would run into it, is none."""

    def __init__(self, total, what):
        self.total, self.what = total, what
        self.shown = sys.stderr.isatty() and not sys.stdout.isatty()

    def show(self, done):
        if self.shown:
            full = 30 * done // max(1, self.total)
            end = "\n" if done >= self.total else ""
            print(f"\r[{'#' * full}{'.' * (30 - full)}] {done} of {self.total} {self.what}", end=end, file=sys.stderr, flush=True)
