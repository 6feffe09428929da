"""A router as another project may have it: swaps at random along shortest walks, and nothing else."""


def near(size, edges):
    found = [set() for _ in range(size)]
    for a, b in edges:
        found[a].add(b)
        found[b].add(a)
    return found


def walk(around, begins, ends, dice):
    """A shortest walk, its neighbours in drawn order."""
    before, waiting = {begins: None}, [begins]
    for it in waiting:
        for other in dice.sample(sorted(around[it]), len(around[it])):
            if other not in before:
                before[other] = it
                waiting.append(other)
    found = [ends]
    while found[-1] != begins:
        found.append(before[found[-1]])
    return found[::-1]


def routed(statements, size, edges, dice):
    """Statements (name, wires) on the qubits of a device, and the qubit on which each qubit's wire begins."""
    around = near(size, edges)
    place = dice.sample(range(size), size)
    begins, found = place[:], []
    for name, wires in statements:
        while len(wires) == 2:
            way = walk(around, place[wires[0]], place[wires[1]], dice)
            if len(way) == 2:
                break
            u, v = way[:2] if dice.random() < 0.5 else way[-2:]
            found.append(("swap", (u, v)))
            place = [v if it == u else u if it == v else it for it in place]
        found.append((name, tuple(place[it] for it in wires)))
    return found, begins
