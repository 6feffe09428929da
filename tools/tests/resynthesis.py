"""Resynthesis of layers, in the plain way of its definition in docs/REWRITING.md: a row is the bits of a whole number, a matrix is a list
of rows, and nothing is kept between two steps."""

import bisect

from gates import wires_of


def layers(wires, gates):
    """The layers of some gates: those other than H, and the wires of the H, ascending."""
    level, found = [0] * wires, []
    for gate in gates:
        on = max(level[it] for it in wires_of(gate))
        while len(found) <= on:
            found.append(([], []))
        if gate[0] == "H":
            bisect.insort(found[on][1], gate[1])
            level[gate[1]] = on + 1
        else:
            found[on][0].append(gate)
            for it in wires_of(gate):
                level[it] = on
    return found


def cnots(gates):
    return sum(it[0] == "C" for it in gates)


def rewritten(wires, gates):
    """The gates, each layer resynthesised if that has fewer CNOTs; as they were if no layer is."""
    found, is_new = [], False
    for old, hadamards in layers(wires, gates):
        new = resynthesised(old)
        is_better = cnots(new) < cnots(old)
        is_new |= is_better
        found += [*(new if is_better else old), *(("H", it) for it in hadamards)]
    return found if is_new else list(gates)


def units(wires):
    return [1 << it for it in range(wires)]


def summed(wires, gates):
    """What a layer does: the row of each wire, whether it is flipped, and the turns of rows in the order of their first phase."""
    rows, flips, turns = units(wires), [False] * wires, {}
    for gate in gates:
        wire = gate[-1]
        if gate[0] == "X":
            flips[wire] = not flips[wire]
        elif gate[0] == "C":
            rows[wire] ^= rows[gate[1]]
            flips[wire] ^= flips[gate[1]]
        else:
            turn = -gate[1] if flips[wire] else gate[1]
            turns[rows[wire]] = (turns.get(rows[wire], 0) + turn) % 8
    return rows, flips, {row: turn for row, turn in turns.items() if turn}


def sum_of(rows, row):
    """Which of some independent rows sum to a row, by their places; None if none do."""
    for chosen in range(1 << len(rows)):
        places = [it for it in range(len(rows)) if chosen >> it & 1]
        total = 0
        for it in places:
            total ^= rows[it]
        if total == row:
            return places
    return None


def partition(rows):
    """The fewest blocks of independent rows, by their places: a row goes into the first block with room, or else by the first shortest
    chain of exchanges, or else into a new block."""
    homes, count = {}, 0
    for new in range(len(rows)):
        if not is_placed(rows, homes, count, new):
            homes[new] = count
            count += 1
    return [[it for it in range(len(rows)) if homes[it] == block] for block in range(count)]


def is_placed(rows, homes, count, new):
    """Searches breadth first, blocks and members ascending, and moves each row of the chain that it finds."""
    found, takers = [new], {}
    for row in found:
        for block in range(count):
            if homes.get(row) == block:
                continue
            members = [it for it in sorted(homes) if homes[it] == block]
            places = sum_of([rows[it] for it in members], rows[row])
            if places is None:
                shift(homes, takers, row, block)
                return True
            for it in (members[place] for place in places):
                if it not in found:
                    found.append(it)
                    takers[it] = row
    return False


def shift(homes, takers, row, block):
    """A row goes into a block, and each row that it stood in the way of into the room that it leaves."""
    while row is not None:
        left = homes.get(row)
        homes[row] = block
        row, block = takers.get(row), left


def completion(wires, rows):
    """Each row on its pivot, the lowest wire that is left of it if the pivots before are taken out; every other wire alone."""
    found, before = units(wires), []
    for row in rows:
        left = row
        for it in before:
            if left & (it & -it):
                left ^= it
        found[(left & -left).bit_length() - 1] = row
        before.append(left)
    return found


def eliminated(rows):
    """The additions, from one wire to another, that bring rows to the identity: for each wire the first later row that has it to the row
    that lacks it, then this to each other that has it."""
    rows, log = list(rows), []

    def add(source, target):
        rows[target] ^= rows[source]
        log.append((source, target))

    for wire in range(len(rows)):
        for later in range(wire, len(rows)):
            if not rows[wire] >> wire & 1 and rows[later] >> wire & 1:
                add(later, wire)
        for other in range(len(rows)):
            if other != wire and rows[other] >> wire & 1:
                add(wire, other)
    return log


def brought(held, target):
    """The CNOTs from one matrix to another: the additions of the second times the inverse of the first, backwards."""
    inverse = units(len(held))
    for source, goal in eliminated(held):
        inverse[goal] ^= inverse[source]
    quotient = []
    for row in target:
        total = 0
        for it in range(len(held)):
            if row >> it & 1:
                total ^= inverse[it]
        quotient.append(total)
    return [("C", *it) for it in reversed(eliminated(quotient))]


def resynthesised(gates):
    """A layer by what it does: block by block, then the rows of its wires, then X. Wires without gates play no part."""
    touched = sorted({it for gate in gates for it in wires_of(gate)})
    number = {wire: it for it, wire in enumerate(touched)}
    found = built(len(touched), [moved(it, number) for it in gates])
    return [moved(it, touched) for it in found]


def moved(gate, wires):
    """A gate on other wires."""
    numbers = 2 if gate[0] == "P" else 1
    return (*gate[:numbers], *(wires[it] for it in gate[numbers:]))


def built(wires, gates):
    target, flips, turns = summed(wires, gates)
    rows, held, found = list(turns), units(wires), []
    for block in partition(rows):
        listed = [rows[it] for it in block]
        following = completion(wires, listed)
        found += brought(held, following)
        held = following
        found += [("P", turns[it], held.index(it)) for it in listed]
    found += brought(held, target)
    return found + [("X", it) for it in range(wires) if flips[it]]
