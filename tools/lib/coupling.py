"""Coupling maps: device files read, edges, and what they cost."""

import tomllib

import streams

MOST_QUBITS = 256
MOST_COST = 1_000_000


class NoDevice(ValueError):
    """A file that is no device file, or one of a device that can't be."""


def read(path):
    """The number of qubits and the edges (control, target) of a device file."""
    size, edges, _ = read_priced(path)
    return size, edges


def read_priced(path):
    """The number of qubits, the edges (control, target), and the cost of each edge, or None in format 1."""
    with open(path, "rb") as file:
        try:
            table = tomllib.load(file)
        except (ValueError, RecursionError):
            raise NoDevice(f"{path}: no TOML in UTF-8") from None
    form = table.get("format", 1)
    if type(form) is not int or form not in (1, 2):
        raise NoDevice(f"{path}: `format` is {form} and neither 1 nor 2")
    edges = table.get("edges")
    if not isinstance(edges, list) or not all(isinstance(it, list) for it in edges):
        raise NoDevice(f"{path}: `edges` is no list of {'pairs' if form == 1 else 'triples'}")
    ends, costs = (edges, None) if form == 1 else ([it[:2] for it in edges], [it[2:] for it in edges])
    for it in flaws(table.get("qubits"), ends, costs):
        raise NoDevice(f"{path}: {it}")
    return table["qubits"], [tuple(it) for it in ends], costs and [it[0] for it in costs]


def flaws(qubits, edges, costs=None):
    """Why there is no such device, whether it is connected or not. Costs are lists of one."""
    if type(qubits) is not int or not 1 <= qubits <= MOST_QUBITS:
        yield f"`qubits` is {qubits} and not a whole number from 1 to {MOST_QUBITS}"
        return
    for edge in edges:
        if len(edge) != 2 or not all(type(it) is int for it in edge):
            yield f"the edge {list(edge)} is no pair of whole numbers"
        elif not all(0 <= it < qubits for it in edge):
            yield f"the edge {list(edge)} has a qubit that isn't there"
        elif edge[0] == edge[1]:
            yield f"qubit {edge[0]} has an edge to itself"
    for edge, cost in zip(edges, costs or []):
        if len(cost) != 1 or type(cost[0]) is not int:
            yield f"the edge {[*edge, *cost]} is no triple of whole numbers"
        elif not 1 <= cost[0] <= MOST_COST:
            yield f"the edge {list(edge)} costs {cost[0]} and not a number from 1 to {MOST_COST:,}"


def least_costs(edges, costs):
    """What each pair of qubits that an edge joins costs, the lesser qubit first: the least over its edges."""
    found = {}
    for edge, cost in zip(edges, costs):
        pair = (min(edge), max(edge))
        found[pair] = min(cost, found.get(pair, cost))
    return found


def near(edges):
    """Each pair of qubits that an edge joins, the lesser first, each once."""
    return sorted({(min(it), max(it)) for it in edges})


def device_text(qubits, edges, comments, costs=None):
    """A device file: comments, the number of qubits, the edges six on a line, with costs five."""
    lines = [f"# {streams.printable(line)}" for it in comments for line in it.splitlines()]
    if costs is not None:
        lines.append("format = 2")
    lines.append(f"qubits = {qubits}")
    if not edges:
        return "\n".join([*lines, "edges = []", ""])
    entries = [list(it) for it in edges] if costs is None else [[*it, cost] for it, cost in zip(edges, costs)]
    wide = 6 if costs is None else 5
    lines.append("edges = [")
    for i in range(0, len(entries), wide):
        lines.append("    " + " ".join(f"{it}," for it in entries[i : i + wide]))
    return "\n".join([*lines, "]", ""])
