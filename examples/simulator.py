"""Simulates walkers in a town: at each tick each asks for the least way from where it stands and goes one street of it,
and the more walk along a street, the longer it counts for the next ticks.

    python3 examples/simulator.py [--town FILE] [--walkers N] [--svg FILE]
"""

import argparse
import collections
import os
import random

import town as towns
import apsp

SLOWER = 40  # so many metres more, as it were, for each walker that a street has
# What colour a street has from so many walkers of a tick on, and how long a tick takes in the picture.
LOADS = [(1, "#e8c547"), (2, "#e08a1e"), (3, "#c0282d")]
SECONDS_A_TICK = 0.8
WALKER, GOAL = "#1f5fa8", "#444444"


class Walker:
    def __init__(self, start, goal):
        self.trail, self.goal, self.stuck = [start], goal, False

    def has_arrived(self):
        return self.stuck or self.trail[-1] == self.goal

    def step(self, network):
        """Goes one street of the least way, and tells which; none where no way leads to the goal any more."""
        way = network.path(self.trail[-1], self.goal)
        if way is None:
            self.stuck = True
            return None
        self.trail.append(way.vertices[1])
        return way.vertices[0], way.vertices[1]


def walkers_of(town, count):
    """Most want from the left side to the right one, so that they get in each other's way."""
    chance = random.Random(1)
    left = sorted(town.places, key=lambda v: (town.places[v][0], v))
    half = len(left) // 4
    return [Walker(left[int(chance.random() * half)], left[-1 - int(chance.random() * half)]) for _ in range(count)]


def tick(network, town, walkers, slowed):
    """Lets each walker go, and sets what each street counts then. Gives how many went along each street that is slowed now."""
    went = [walker.step(network) for walker in walkers if not walker.has_arrived()]
    busy = collections.Counter(street for street in went if street is not None)
    for u, v in sorted(set(busy) | set(slowed)):
        network.edge(u, v, town.streets[u, v] + SLOWER * busy[u, v])
    return busy


def main():
    parser = argparse.ArgumentParser(description=__doc__.split(":")[0])
    parser.add_argument("--town", default=os.path.join(towns.HERE, "road-network.txt"))
    parser.add_argument("--walkers", type=int, default=24)
    parser.add_argument("--svg")
    given = parser.parse_args()
    town = towns.Town(given.town)
    if len(town.places) < 4:
        raise towns.Unread(f"{given.town} has fewer than four lines '# place V X Y', between which walkers go")
    walkers, slowed, ticks = walkers_of(town, given.walkers), {}, []
    bar = towns.Progress(len(walkers), "walkers are there")
    with apsp.Network(town.crossings) as network:
        town.enter(network)
        print("tick  walking  slow streets  updates  paths kept  formed  removed")
        while slowed or not all(walker.has_arrived() for walker in walkers):
            slowed = tick(network, town, walkers, slowed)
            ticks.append(slowed)
            walking = sum(not walker.has_arrived() for walker in walkers)
            stats = network.stats()
            print(f"{len(ticks):>4}  {walking:>7}  {len(slowed):>12}  {stats.updates:>7}  {stats.paths:>10}  {stats.formed:>6}"
                  f"  {stats.removed:>7}")
            bar.show(len(walkers) - walking)
    stuck = sum(walker.stuck for walker in walkers)
    if stuck:
        print(f"{stuck} of {len(walkers)} walkers found no way to their goal")
    if given.svg:
        draw(town, walkers, ticks, given.svg)


def colour_of(load):
    return next((colour for least, colour in reversed(LOADS) if load >= least), towns.STREET)


def animated(attribute, values, ticks, mode="discrete"):
    """An animation whose values follow one another, a tick each."""
    return (f'<animate attributeName="{attribute}" values="{";".join(map(str, values))}" calcMode="{mode}" '
            f'dur="{SECONDS_A_TICK * ticks:g}s" repeatCount="indefinite"/>')


def draw(town, walkers, ticks, file):
    """The town, tick by tick: each street in the colour of how many go along it, in both directions, and the walkers. What
    shows no animation shows the most that each street had."""
    picture, count = towns.Picture(town), max(1, len(ticks))
    for u, v in picture.streets():
        loads = [slowed.get((u, v), 0) + slowed.get((v, u), 0) for slowed in ticks]
        if any(loads):
            picture.line([u, v], colour_of(max(loads)), 9, inside=animated("stroke", map(colour_of, loads), count))
    for walker in walkers:
        picture.dot(walker.goal, GOAL, radius=6)
    for number, walker in enumerate(walkers):
        aside = (number % 5 - 2) * 3
        stops = [walker.trail[min(place, len(walker.trail) - 1)] for place in range(count + 1)]
        places = [picture.at(v, aside) for v in stops]
        inside = "".join(animated(name, [place[axis] for place in places], count, "linear")
                         for axis, name in enumerate(("cx", "cy")))
        picture.dot(walker.trail[0], WALKER, radius=5, inside=inside)
    for number in range(1, len(ticks) + 1):
        shown = ["visible" if place == number else "hidden" for place in range(1, count + 1)]
        picture.text(towns.MARGIN, 24, f"tick {number}", towns.INK, 18, inside=animated("visibility", shown, count),
                     more=' visibility="hidden"')
    for least, colour in LOADS:
        picture.explain(colour, f"walkers in the tick: {least}" + (" or more" if least == LOADS[-1][0] else ""))
    picture.write(file)


if __name__ == "__main__":
    main()
