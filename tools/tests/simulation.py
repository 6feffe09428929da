"""Programs simulated: gates by their textbook matrices, measurements, resets and conditions, on few wires.

A state of few terms is a dict from basis states, whole numbers in which bit i is wire i, to amplitudes that aren't 0; so wires at zero cost
nothing, however many a device has. An ensemble is a list of pairs, the classical bits as a whole number and a state: its entry
stands for what comes with one series of outcomes, and its norm for their probability.

Matrices are written from the gates' definitions in Qiskit's documentation, up to a global phase, and not from any body: a list of
columns, the first wire the lowest bit.
"""

import cmath
import math
import random

import qasm

R = math.sqrt(0.5)
W = cmath.exp(1j * math.pi / 4)


def u3(t, p, l):
    c, s = math.cos(t / 2), math.sin(t / 2)
    return [[c, cmath.exp(1j * p) * s], [-cmath.exp(1j * l) * s, cmath.exp(1j * (p + l)) * c]]


def phase(l):
    return [[1, 0], [0, cmath.exp(1j * l)]]


def turned(t, pauli):
    """exp(-i t/2 P) for a matrix P whose square is 1."""
    size = range(len(pauli))
    c, s = math.cos(t / 2), math.sin(t / 2)
    return [[(c if row == column else 0) - 1j * s * pauli[column][row] for row in size] for column in size]


def product(one, other):
    """The matrix of `other` after `one`."""
    size = range(len(one))
    return [[sum(other[k][row] * one[column][k] for k in size) for row in size] for column in size]


def tensor(low, high):
    """Two gates side by side, the first on the lower wires."""
    a, b = len(low), len(high)
    return [[low[c % a][r % a] * high[c // a][r // a] for r in range(a * b)] for c in range(a * b)]


def controlled(matrix, controls=1):
    """A matrix under so many controls, which are the first wires."""
    size = len(matrix) << controls
    found = [[complex(row == column) for row in range(size)] for column in range(size)]
    all_on = (1 << controls) - 1
    for column in range(len(matrix)):
        for row in range(len(matrix)):
            found[column << controls | all_on][row << controls | all_on] = matrix[column][row]
    return found


def permuted(image):
    """The matrix that takes basis state i to image[i]."""
    return [[complex(row == it) for row in range(len(image))] for it in image]


def inverse(matrix):
    size = range(len(matrix))
    return [[complex(matrix[row][column]).conjugate() for row in size] for column in size]


ONE = [[1, 0], [0, 1]]
X = [[0, 1], [1, 0]]
Y = [[0, 1j], [-1j, 0]]
Z = [[1, 0], [0, -1]]
H = [[R, R], [R, -R]]
SX = [[(1 + 1j) / 2, (1 - 1j) / 2], [(1 - 1j) / 2, (1 + 1j) / 2]]
ISWAP = [[1, 0, 0, 0], [0, 0, 1j, 0], [0, 1j, 0, 0], [0, 0, 0, 1]]
SWAP = permuted([0, 2, 1, 3])


def xy(t, p, low, high):
    """A turn by t of the two basis states `low` and `high` of two wires, with a phase p between them."""
    found = [[complex(row == column) for row in range(4)] for column in range(4)]
    c, s = math.cos(t / 2), math.sin(t / 2)
    found[low][low] = found[high][high] = c
    found[high][low] = -1j * s * cmath.exp(-1j * p)
    found[low][high] = -1j * s * cmath.exp(1j * p)
    return found


def rccx():
    """A Toffoli gate but for phases: -1 on 101 (wire 2 first), and i and -i where it flips."""
    found = controlled(X, 2)
    found[5][5] = -1
    found[3][7], found[7][3] = 1j, -1j
    return found


# name: number of angles, matrix
GATES = {
    "id": (0, lambda: ONE),
    "u0": (1, lambda g: ONE),
    "x": (0, lambda: X),
    "y": (0, lambda: Y),
    "z": (0, lambda: Z),
    "h": (0, lambda: H),
    "s": (0, lambda: phase(math.pi / 2)),
    "sdg": (0, lambda: phase(-math.pi / 2)),
    "t": (0, lambda: phase(math.pi / 4)),
    "tdg": (0, lambda: phase(-math.pi / 4)),
    "sx": (0, lambda: SX),
    "sxdg": (0, lambda: inverse(SX)),
    "v": (0, lambda: SX),
    "vdg": (0, lambda: inverse(SX)),
    "rx": (1, lambda t: turned(t, X)),
    "ry": (1, lambda t: turned(t, Y)),
    "rz": (1, lambda t: turned(t, Z)),
    "u1": (1, phase),
    "p": (1, phase),
    "u2": (2, lambda p, l: u3(math.pi / 2, p, l)),
    "u3": (3, u3),
    "u": (3, u3),
    "U": (3, u3),
    "r": (2, lambda t, p: turned(t, [[math.cos(p) * X[i][j] + math.sin(p) * Y[i][j] for j in (0, 1)] for i in (0, 1)])),
    "cx": (0, lambda: controlled(X)),
    "CX": (0, lambda: controlled(X)),
    "cy": (0, lambda: controlled(Y)),
    "cz": (0, lambda: controlled(Z)),
    "ch": (0, lambda: controlled(H)),
    "cs": (0, lambda: controlled(phase(math.pi / 2))),
    "csdg": (0, lambda: controlled(phase(-math.pi / 2))),
    "csx": (0, lambda: controlled(SX)),
    "csxdg": (0, lambda: controlled(inverse(SX))),
    "cv": (0, lambda: controlled(SX)),
    "cvdg": (0, lambda: controlled(inverse(SX))),
    "swap": (0, lambda: SWAP),
    "dcx": (0, lambda: permuted([0, 2, 3, 1])),
    "iswap": (0, lambda: ISWAP),
    "iswapdg": (0, lambda: inverse(ISWAP)),
    "ecr": (0, lambda: [[0, R, 0, -1j * R], [R, 0, 1j * R, 0], [0, -1j * R, 0, R], [1j * R, 0, R, 0]]),
    "crx": (1, lambda t: controlled(turned(t, X))),
    "cry": (1, lambda t: controlled(turned(t, Y))),
    "crz": (1, lambda t: controlled(turned(t, Z))),
    "cu1": (1, lambda l: controlled(phase(l))),
    "cp": (1, lambda l: controlled(phase(l))),
    "cu3": (3, lambda t, p, l: controlled(u3(t, p, l))),
    "cu": (4, lambda t, p, l, g: controlled([[cmath.exp(1j * g) * it for it in row] for row in u3(t, p, l)])),
    "rxx": (1, lambda t: turned(t, tensor(X, X))),
    "ryy": (1, lambda t: turned(t, tensor(Y, Y))),
    "rzz": (1, lambda t: turned(t, tensor(Z, Z))),
    "rzx": (1, lambda t: turned(t, tensor(Z, X))),
    "xx_plus_yy": (2, lambda t, p: xy(t, p, 1, 2)),
    "xx_minus_yy": (2, lambda t, p: xy(t, p, 0, 3)),
    "ccx": (0, lambda: controlled(X, 2)),
    "ccz": (0, lambda: controlled(Z, 2)),
    "cswap": (0, lambda: controlled(SWAP)),
    "rccx": (0, rccx),
    "c3x": (0, lambda: controlled(X, 3)),
    "mcx": (0, lambda: controlled(X, 3)),
    "c3sx": (0, lambda: controlled(SX, 3)),
    "c3sqrtx": (0, lambda: controlled(SX, 3)),
    "c4x": (0, lambda: controlled(X, 4)),
}


def matrix_of(name, angles):
    return GATES[name][1](*angles)


def wires_of(name):
    """On how many wires a gate is."""
    return len(matrix_of(name, [0.0] * GATES[name][0])).bit_length() - 1


def same(one, other):
    """Whether two matrices are the same up to a global phase."""
    size = range(len(one))
    c, r = max(((c, r) for c in size for r in size), key=lambda it: abs(other[it[0]][it[1]]))
    turn = one[c][r] / other[c][r]
    return abs(abs(turn) - 1) < 1e-9 and all(abs(one[c][r] - turn * other[c][r]) < 1e-9 for c in size for r in size)


def applied(state, matrix, wires):
    """The state after a gate on these wires."""
    spread = [sum((row >> i & 1) << wire for i, wire in enumerate(wires)) for row in range(len(matrix))]
    mask = ~sum(1 << it for it in wires)
    place = {it: column for column, it in enumerate(spread)}
    columns = [[(spread[row], it) for row, it in enumerate(column) if abs(it) > 1e-15] for column in matrix]
    found = {}
    for x, amplitude in state.items():
        base = x & mask
        for row, entry in columns[place[x & ~mask]]:
            y = base | row
            found[y] = found.get(y, 0) + entry * amplitude
    return {x: it for x, it in found.items() if abs(it) > 1e-13}


def halves(state, wire):
    """What is left of a state where a wire is 0, and where it is 1."""
    parts = ({}, {})
    for x, amplitude in state.items():
        parts[x >> wire & 1][x] = amplitude
    return parts


def measured(bits, state, wire, bit):
    for value, part in enumerate(halves(state, wire)):
        if norm(part) > 1e-12:
            yield bits & ~(1 << bit) | value << bit, part


def reset(bits, state, wire):
    for value, part in enumerate(halves(state, wire)):
        if norm(part) > 1e-12:
            yield bits, {x ^ value << wire: it for x, it in part.items()}


def norm(state):
    return sum(abs(it) ** 2 for it in state.values())


def run(statements, state):
    """The ensemble after some statements: ("gate", matrix, wires), ("measure", wire, bit), ("reset", wire), and
    ("if", bits, value, statement) with the bits of a register."""
    ensemble = [(0, state)]
    for it in statements:
        ensemble = [new for bits, part in ensemble for new in after(it, bits, part)]
    return ensemble


def after(statement, bits, state):
    kind = statement[0]
    if kind == "if":
        _, register, value, inner = statement
        fires = sum((bits >> bit & 1) << i for i, bit in enumerate(register)) == value
        return after(inner, bits, state) if fires else [(bits, state)]
    if kind == "gate":
        return [(bits, applied(state, statement[1], statement[2]))]
    if kind == "measure":
        return list(measured(bits, state, *statement[1:]))
    return list(reset(bits, state, *statement[1:]))


def drawn_state(size, dice, terms=None):
    """A drawn state on so many wires, of all basis states or of so many."""
    basis = range(1 << size) if terms is None or 1 << size <= terms else dice.sample(range(1 << size), terms)
    state = {x: complex(dice.gauss(0, 1), dice.gauss(0, 1)) for x in basis}
    length = math.sqrt(norm(state))
    return {x: it / length for x, it in state.items()}


def placed(state, placement, size):
    """The state with each wire on its qubit, all other qubits at zero."""
    return {sum((x >> wire & 1) << placement[wire] for wire in range(size)): it for x, it in state.items()}


def taken_back(ensemble, placement, size):
    """An ensemble on qubits as one on wires; what isn't at zero elsewhere keeps a bit above."""
    wires = placement[:size]
    mask = sum(1 << it for it in wires)
    found = []
    for bits, state in ensemble:
        back = {}
        for y, it in state.items():
            x = sum((y >> qubit & 1) << wire for wire, qubit in enumerate(wires))
            back[x if not y & ~mask else x | 1 << size] = it
        found.append((bits, back))
    return found


def difference(one, other, size, dice):
    """How far two ensembles are apart: the largest entry by which what their density matrices make of drawn vectors differs."""
    worst = 0.0
    for _ in range(2):
        x = drawn_state(size + 1, dice)
        made = [{}, {}]
        for side, ensemble in enumerate((one, other)):
            for bits, state in ensemble:
                along = sum(it.conjugate() * x[y] for y, it in state.items())
                for y, it in state.items():
                    made[side][bits, y] = made[side].get((bits, y), 0) + it * along
        for key in made[0].keys() | made[1].keys():
            worst = max(worst, abs(made[0].get(key, 0) - made[1].get(key, 0)))
    return worst


def statements(program):
    """A program that the reader of the tools read, as statements."""
    first, registers = 0, {}
    for name, size in program.registers:
        registers[name] = range(first, first + size)
        first += size
    own = {id(it) for it in program.gates.values()} - {id(it) for it in qasm.library().values()}
    for step in program.steps:
        if step.kind == "measure":
            found = [("measure", step.wires[0], step.bit)]
        elif step.kind == "reset":
            found = [("reset", step.wires[0])]
        else:
            found = [] if step.kind == "barrier" else gates(step.gate, step.angles, step.wires, own)
        for it in found:
            yield ("if", registers[step.condition[0]], step.condition[1], it) if step.condition else it


def gates(gate, angles, wires, own):
    """A gate by its matrix, or if it is the program's own by its body."""
    if gate.is_opaque:
        # whatever it is, it is the same on both sides
        yield "gate", u3(0.3, 0.5, 0.7), wires
    elif gate.name in GATES and (id(gate) not in own or gate in (qasm.U, qasm.CX)):
        yield "gate", matrix_of(gate.name, [qasm.as_float(it) for it in angles]), wires
    else:
        for inner, values, on in qasm.body_of(gate, angles, wires):
            yield from gates(inner, values, on, own)


def drawn(seed):
    return random.Random(seed)
