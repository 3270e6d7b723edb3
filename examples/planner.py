"""Plans a way through a town, and asks what each street of it is worth: it is closed, the detour is read, and it opens again.

    python3 examples/planner.py [--town FILE] [--from V] [--to V] [--svg FILE] [--check]

--check also takes the certificate of the town as it stands at the end and hands it to the program's own checker.
"""

import argparse
import os

import town as towns
import apsp

WAY, DETOUR, CLOSED = "#1f5fa8", "#e08a1e", "#c0282d"


def arguments():
    parser = argparse.ArgumentParser(description=__doc__.split("\n")[0])
    parser.add_argument("--town", default=os.path.join(towns.HERE, "river-town.txt"))
    parser.add_argument("--from", dest="start", type=int, default=20)
    parser.add_argument("--to", type=int, default=30)
    parser.add_argument("--svg")
    parser.add_argument("--check", action="store_true")
    return parser.parse_args()


def detour(network, streets, u, v, start, to):
    """The least way with the street between u and v closed, in both directions where it has both."""
    closed = [ends for ends in ((u, v), (v, u)) if ends in streets]
    for ends in closed:
        network.cut(*ends)
    way = network.path(start, to)
    for ends in closed:
        network.edge(*ends, streets[ends])
    return way


def told(way):
    return " ".join(map(str, way.vertices))


def main():
    given = arguments()
    town = towns.Town(given.town)
    start, to = town.crossing(given.start), town.crossing(given.to)
    with apsp.Network(town.crossings) as network:
        town.enter(network)
        way = network.path(start, to)
        if way is None:
            print(f"no way leads from {start} to {to}")
            return
        print(f"from {start} to {to}: {way.distance} m by {told(way)}")
        print("closed     more m  the way then")
        detours = []
        bar = towns.Progress(len(way.vertices) - 1, "streets closed and opened")
        for u, v in zip(way.vertices, way.vertices[1:]):
            other = detour(network, town.streets, u, v, start, to)
            more = other.distance - way.distance if other else None
            print(f"{u:>3} - {v:<3}  {'none' if more is None else more:>6}  {told(other) if other else ''}")
            detours.append((more, u, v, other))
            bar.show(len(detours))
        stats = network.stats()
        print(f"{stats.updates} updates, {stats.paths} paths kept")
        if given.check:
            try:
                print(apsp.check(network.certificate()))
            except (apsp.Command, apsp.Ended):
                print("this program has no certificates")
    if given.svg:
        draw(town, way, detours, given.svg)


def draw(town, way, detours, file):
    """The way, the detour that costs most, and the closed street that causes it, over the lengths of all streets."""
    picture = towns.Picture(town)
    picture.lengths()
    picture.line(way.vertices, WAY, 9)
    picture.explain(WAY, f"the least way, {way.distance} m")
    costly = [one for one in detours if one[3]]
    if costly:
        more, u, v, other = max(costly, key=lambda one: one[0])
        picture.line(other.vertices, DETOUR, 6, dashes="14 9")
        picture.cross(u, v, CLOSED)
        picture.explain(DETOUR, f"the way where the street between {u} and {v} is closed (the cross), {more} m more", "14 9")
    picture.dot(way.vertices[0], WAY, "from")
    picture.dot(way.vertices[-1], WAY, "to")
    if town.rivers:
        picture.explain(towns.WATER, "the river; its bridges are the streets across it")
    picture.explain(towns.STREET, "a street with its length in metres; an arrow where it leads one way alone")
    picture.write(file)


if __name__ == "__main__":
    main()
