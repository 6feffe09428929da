"""Gates H, X, P and CNOT, and barriers: drawn, written as a program, and read again from one that the program wrote."""

import re

import gates
import qasm
from cases import HEADING

PHASES = ("t", "s", "u1(3*pi/4)", "z", "u1(5*pi/4)", "sdg", "tdg")


def numbers(state):
    """The numbers that are drawn from a start: the upper 31 bits of a linear congruence modulo 2^64."""
    while True:
        state = (state * 6364136223846793005 + 1442695040888963407) % 2**64
        yield state >> 33


def drawn(found, wires, count, kinds):
    """So many gates on drawn wires, each of one of the kinds: H, X, P and C, and with its k the P of that k."""
    for _ in range(count):
        wire, kind = next(found) % wires, kinds[next(found) % len(kinds)]
        if kind == "P":
            yield "P", next(found) % 7 + 1, wire
        elif kind == "C":
            yield "C", wire, (wire + 1 + next(found) % (wires - 1)) % wires
        elif isinstance(kind, int):
            yield "P", kind, wire
        else:
            yield kind, wire


def line_of(gate):
    """A gate as programs are written."""
    match gate:
        case "C", control, target:
            return f"cx q[{control}],q[{target}];\n"
        case "P", k, wire:
            return f"{PHASES[k - 1]} q[{wire}];\n"
        case "barrier", *wires:
            return f"barrier {','.join(f'q[{it}]' for it in wires)};\n"
        case name, wire:
            return f"{name.lower()} q[{wire}];\n"


def text_of(wires, found):
    return HEADING + "".join([f"qreg q[{wires}];\n", *map(line_of, found)]).encode()


def gates_in(text):
    """The gates of a written program, in which each statement is a gate."""
    _, operations = qasm.written_out("", text.decode())
    found, turn = gates.expanded(operations)
    assert turn == 0, text
    return found


def parts_in(text, wires):
    """The gates of a written program, those between barriers apart."""
    first, *others = re.split(rb"^barrier .*\n", text, flags=re.MULTILINE)
    return [gates_in(first), *(gates_in(text_of(wires, []) + it) for it in others)]
