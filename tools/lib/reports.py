"""The lines of JSON that `qroute` writes to standard error: reports and faults."""

import json


def objects(text, key):
    """The objects with this key among the lines of a text, read; other lines are passed over."""
    for line in text.splitlines():
        try:
            told = json.loads(line)
        except (ValueError, RecursionError):
            continue
        if isinstance(told, dict) and key in told:
            yield told


def read(path):
    """The report line in a file."""
    with open(path, encoding="utf-8", errors="replace") as file:
        for told in objects(file.read(), "initial"):
            return told
    raise ValueError(f"{path}: no report line")


def is_count(value):
    return type(value) is int and value >= 0


def is_placement(value, size):
    return isinstance(value, list) and len(value) == size and all(map(is_count, value)) and sorted(value) == list(range(size))


def format_of(told):
    """The number of a report's format, by its keys."""
    return 4 if "spares" in told else 3 if "parts" in told else 2 if "cost" in told else 1


def flaws(told, needed=()):
    """What of a report's swaps, cost, wires and parts can't be; it has to have what is needed."""
    for key in ("swaps", "cost"):
        if key in told and not is_count(told[key]):
            yield f"the report says {key} {told[key]!r}, which is no number"
    for key in needed:
        if key not in told:
            yield f"the report has no {key}"
    qubits, device = told.get("qubits"), told.get("device")
    if not is_count(qubits) or not is_count(device) or qubits > device:
        yield f"the report says qubits {qubits!r} and device {device!r}"
        return
    for key in ("initial", "final"):
        if not is_placement(told.get(key), device):
            yield f"{key} is no placement of {device} wires"
    if "between" in told or "parts" in told:
        yield from flaws_of_parts(told.get("between"), told.get("parts"), told)
    if "spares" in told:
        yield from flaws_of_spares(told["spares"], told)


def flaws_of_spares(spares, told):
    """What can't be of spare wires, which stand after the source's, and of what stands beside them."""
    if not is_count(spares) or spares != told["device"] - told["qubits"] or not 0 < spares < 256:
        yield f"the report says spares {spares!r}, qubits {told['qubits']} and device {told['device']}"
    for key in ("initial", "final"):
        if told.get(key) != list(range(told["device"])):
            yield f"with spare wires {key} isn't the identity"
    for key in ("between", "cost", "parts"):
        if key in told:
            yield f"the report tells of {key} and of spares"
    if told.get("swaps", 0) != 0:
        yield f"the report tells of spares, and says swaps {told['swaps']!r}"


def flaws_of_parts(between, powers, told):
    """What can't be of the placements at barriers and the powers of the parts."""
    if not isinstance(powers, list) or not powers or not all(is_count(it) and it < 8 for it in powers):
        yield "parts is no list of powers from 0 to 7"
    elif is_count(told.get("phase")) and sum(powers) % 8 != told["phase"]:
        yield f"the powers of the parts add up to {sum(powers) % 8}, and the phase is {told['phase']}"
    elif not isinstance(between, list) or not all(is_placement(it, told["device"]) for it in between):
        yield f"between is no list of placements of {told['device']} wires"
    elif len(powers) != len(between) + 1:
        yield f"the report tells of {len(powers)} parts, and of {len(between)} placements between them"
