"""Where the qubits of a device are drawn.

A device file may have `places`, a pair of numbers for each qubit, in any unit, x to the right and y downwards. Without it places are
found by stress: distances in the picture come near those in the map, from several starts, of which the best is taken.
"""

import math
import random
import tomllib

import coupling

STARTS = 6


class NotConnected(ValueError):
    pass


def places_of(path, size, edges):
    """A place for each qubit of a device file, in units of its shortest edge, from 0 on."""
    with open(path, "rb") as file:
        given = tomllib.load(file).get("places")
    if given is None:
        return laid_out(size, edges)
    if not is_list_of_places(given, size):
        raise coupling.NoDevice(f"{path}: `places` is no list of {size} different pairs of numbers")
    places = [(float(x), float(y)) for x, y in given]
    return scaled(places, min((math.dist(places[a], places[b]) for a, b in coupling.near(edges)), default=1.0))


def is_list_of_places(given, size):
    """Whether there is a pair of numbers for each qubit, no two of which are the same."""

    def is_place(it):
        return isinstance(it, list) and len(it) == 2 and all(type(x) in (int, float) and math.isfinite(x) for x in it)

    return isinstance(given, list) and len(given) == size and all(map(is_place, given)) and len(set(map(tuple, given))) == size


def scaled(places, unit):
    """The places from 0 on, in such units."""
    left, top = min(x for x, _ in places), min(y for _, y in places)
    return [((x - left) / unit, (y - top) / unit) for x, y in places]


def laid_out(size, edges):
    """A place for each qubit, in units of one edge, by stress: the best of several starts, each tried for a while."""
    far = distances(size, edges)
    tried = [started(far), *(drawn(far, seed) for seed in range(1, STARTS))]
    while len(tried) > 1:
        settled = [settle(places, far, 8 if size > 60 else 30) for places in tried]
        tried = sorted(settled, key=lambda it: stress(it, far))[: len(tried) // 2]
    return upright(settle(tried[0], far, max(120, 200_000 // size**2)))


def settle(places, far, sweeps):
    """The places after each qubit was moved so many times, or until none moves."""
    places = list(places)
    for _ in range(sweeps):
        shift = 0.0
        for i in range(len(places)):
            old, places[i] = places[i], moved(i, places, far)
            shift = max(shift, math.dist(old, places[i]))
        if shift < 1e-6:
            break
    return places


def stress(places, far):
    """How far distances in the picture are from those in the map."""
    size = len(places)
    return sum((math.dist(places[i], places[j]) / far[i][j] - 1) ** 2 for i in range(size) for j in range(i))


def drawn(far, seed):
    """First places, drawn."""
    dice = random.Random(seed)
    most = max(map(max, far))
    return [(dice.uniform(0, most), dice.uniform(0, most)) for _ in far]


def started(far):
    """First places: how much farther each qubit is from one end of the map than from the other, in two directions."""
    size = len(far)
    west = max(range(size), key=lambda it: far[0][it])
    east = max(range(size), key=lambda it: far[west][it])
    south = max(range(size), key=lambda it: (min(far[west][it], far[east][it]), -abs(far[west][it] - far[east][it])))
    north = max(range(size), key=lambda it: (far[south][it], -abs(far[west][it] - far[east][it])))
    return [
        ((far[west][i] - far[east][i]) / 2 + 0.01 * (i % 3), (far[south][i] - far[north][i]) / 2 + 0.01 * (i % 5))
        for i in range(size)
    ]


def moved(i, places, far):
    """Where a qubit would be best, as the others are now."""
    above = [0.0, 0.0]
    below = 0.0
    for j, other in enumerate(places):
        if i == j:
            continue
        dx, dy = places[i][0] - other[0], places[i][1] - other[1]
        length = math.hypot(dx, dy) or 1e-9
        weight = far[i][j] ** -2
        above[0] += weight * (other[0] + far[i][j] * dx / length)
        above[1] += weight * (other[1] + far[i][j] * dy / length)
        below += weight
    return (above[0] / below, above[1] / below) if below else places[i]


def upright(places):
    """The places turned so that the picture is as wide and as low as can be, from 0 on."""
    best = None
    for step in range(90):
        a = math.pi * step / 90
        turned = [(x * math.cos(a) - y * math.sin(a), x * math.sin(a) + y * math.cos(a)) for x, y in places]
        height = max(y for _, y in turned) - min(y for _, y in turned)
        if best is None or height < best[0] - 1e-6:
            best = height, turned
    turned = best[1]
    if turned[0][0] > turned[-1][0]:
        turned = [(-x, y) for x, y in turned]
    if best[0] < 0.2:
        turned = [(x, 0.0) for x, _ in turned]
    return scaled(turned, 1.0)


def distances(size, edges):
    """The least number of edges between each two qubits."""
    near = [[] for _ in range(size)]
    for a, b in coupling.near(edges):
        near[a].append(b)
        near[b].append(a)
    found = []
    for start in range(size):
        row = {start: 0}
        waiting = [start]
        for qubit in waiting:
            for it in near[qubit]:
                if it not in row:
                    row[it] = row[qubit] + 1
                    waiting.append(it)
        if len(row) < size:
            raise NotConnected("the device isn't connected")
        found.append([row[it] for it in range(size)])
    return found
