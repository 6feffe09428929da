"""Statements of the simulation as a router would leave them, and faults planted in them."""

import simulation


def gate(name, *wires):
    return "gate", simulation.matrix_of(name, []), list(wires)


def placed(statements, places):
    """Statements with each wire on its qubit."""
    for it in statements:
        if it[0] == "if":
            yield (*it[:3], *placed([it[3]], places))
        elif it[0] == "gate":
            yield ("gate", it[1], [places[wire] for wire in it[2]])
        else:
            yield (it[0], places[it[1]], *it[2:])


def routed(statements, size, dice):
    """Statements as a router leaves them: on qubits, with pairs that change places by three CNOTs, some of them turned round by `h`.

    Also the first and the last placement."""
    places = dice.sample(range(size), size)
    first, found = list(places), []
    for it in statements:
        for _ in range(2):
            a, b = dice.sample(range(size), 2)
            for c, t in ((a, b), (b, a), (a, b)):
                turned = [gate("h", c), gate("h", t)] if dice.random() < 0.5 else []
                found += [*turned, gate("cx", *((t, c) if turned else (c, t))), *turned]
            places = [{a: b, b: a}.get(at, at) for at in places]
        found += placed([it], places)
    return found, first, places


def faults(statements, places, dice, nudge, many):
    """Each kind of fault, at so many places: what kind, the statements, and the last placement. `nudge` is the gate by which an angle changes.

    There have to be as many wires as qubits, so that each gate counts, and some of them unmeasured."""
    size = len(places)
    gates = [at for at, it in enumerate(statements) if it[0] == "gate"]
    cnots = [at for at in gates if statements[at][1] == simulation.controlled(simulation.X)]
    measured = [at for at, it in enumerate(statements) if it[0] == "measure"]
    unmeasured = sorted(set(range(size)) - {statements[it][1] for it in measured})

    def changed(at, *new):
        return statements[:at] + list(new) + statements[at + 1 :]

    for at in dice.sample(gates, many):
        _, matrix, wires = statements[at]
        yield "a gate is left out", changed(at), places
        yield "another angle", changed(at, statements[at], ("gate", nudge, wires[:1])), places
        other = dice.choice([it for it in range(size) if it not in wires])
        yield "another wire", changed(at, ("gate", matrix, [*wires[:-1], other])), places
    for at in dice.sample(cnots, many):
        _, matrix, wires = statements[at]
        yield "a CNOT the other way round", changed(at, ("gate", matrix, wires[::-1])), places
    for _ in range(many):
        a, b = dice.sample(range(size), 2)
        yield "two wires exchanged at the end", statements, [places[{a: b, b: a}.get(it, it)] for it in range(size)]
    for at in dice.sample(measured, min(many, len(measured))):
        _, wire, bit = statements[at]
        to = dice.choice([it for it in measured if it != at])
        both = changed(at, ("measure", wire, statements[to][2]))
        both[to] = ("measure", statements[to][1], bit)
        yield "two bits exchanged", both, places
        yield "a measurement is left out", changed(at), places
        yield "another wire is measured", changed(at, ("measure", dice.choice(unmeasured), bit)), places
