"""The comparisons of large programs: they find what the simulation of all terms finds, and each fault that is planted in a large program."""

import unittest

import drawn_programs
import planted
import simulation
from planted import gate, placed

try:
    import chain
    import stabilisers
except ModuleNotFoundError:
    chain = stabilisers = None  # numpy isn't installed

CLIFFORD = ["x", "y", "z", "h", "s", "sdg", "sx", "sxdg", "cx", "cy", "cz", "swap", "dcx", "iswap", "ecr"]
BITS = 3


def drawn_clifford(dice, size, count):
    """Statements of gates, measurements, resets, and products of Pauli matrices under a bit."""
    found, splits = [], 0
    for _ in range(count):
        kind = dice.random()
        if kind < 0.75 or splits == 4:
            name = dice.choice([it for it in CLIFFORD if simulation.wires_of(it) <= size])
            found.append(gate(name, *dice.sample(range(size), simulation.wires_of(name))))
        elif kind < 0.83:
            found.append(("if", [dice.randrange(BITS)], dice.choice([0, 1, 1, 2]), gate(dice.choice("xyz"), dice.randrange(size))))
        else:
            splits += 1
            wire = dice.randrange(size)
            found.append(("measure", wire, dice.randrange(BITS)) if kind < 0.95 else ("reset", wire))
    return found


def edited(dice, statements, size):
    """The same with one statement left out, doubled, put elsewhere, on another wire or exchanged with the next; or with another bit."""
    found, at = list(statements), dice.randrange(len(statements))
    kind, it = dice.randrange(5), statements[at]
    if kind == 0:
        del found[at]
    elif kind == 1:
        found.insert(at, it)
    elif kind == 2:
        found.insert(dice.randrange(len(found)), found.pop(at))
    elif kind == 3 and it[0] == "measure":
        found[at] = ("measure", it[1], (it[2] + 1) % BITS)
    elif kind == 3 and it[0] == "gate":
        found[at] = ("gate", it[1], dice.sample(range(size), len(it[2])))
    else:
        found[at : at + 2] = reversed(found[at : at + 2])
    return found


def simulated_apart(one, other, size, places=None, seed=0):
    """How far statements are apart by the simulation, from all terms."""
    dice = simulation.drawn(seed)
    state = simulation.drawn_state(size, dice)
    places = places or list(range(size))
    ends = simulation.run(other, simulation.placed(state, places, size))
    return simulation.difference(simulation.run(one, state), simulation.taken_back(ends, places, size), size, dice)


@unittest.skipIf(chain is None, "numpy isn't installed")
class Agree(unittest.TestCase):
    def test_stabilisers(self):
        verdicts = []
        for seed in range(250):
            dice = simulation.drawn(seed)
            size = dice.randint(1, 4)
            one = drawn_clifford(dice, size, dice.randint(1, 14))
            other = edited(dice, one, size)
            qubits = size + dice.randint(0, 2)
            places = dice.sample(range(qubits), qubits)
            wanted = simulated_apart(one, list(placed(other, places)), size, places[:size], seed) < 1e-9
            self.assertEqual(stabilisers.same(one, list(placed(other, places)), size, places, places, BITS), wanted, seed)
            self.assertTrue(stabilisers.same(one, list(placed(one, places)), size, places, places, BITS), seed)
            verdicts.append(wanted)
        self.assertGreater(min(verdicts.count(True), verdicts.count(False)), 80)

    def test_stabilisers_of_known_programs(self):
        """Programs that are the same for reasons of measurements and bits, and for each one that isn't."""
        measured, corrected = ("measure", 0, 0), ("if", [0], 1, gate("x", 0))
        for one, other, wanted in (
            ([measured, corrected], [("measure", 0, 0), ("reset", 0)], True),
            ([measured, corrected], [("reset", 0)], False),
            ([measured, corrected], [("reset", 0), ("measure", 0, 0)], False),
            ([gate("z", 0), measured], [measured], True),
            ([gate("z", 0), measured], [measured, gate("z", 0)], True),
            ([gate("x", 0), measured], [measured, gate("x", 0)], False),
            ([measured, measured], [measured], True),
            ([measured, ("measure", 0, 1)], [("measure", 0, 1), measured], True),
            ([measured, ("measure", 0, 1)], [measured], False),
            ([measured, ("measure", 1, 0)], [("measure", 1, 0)], False),
            ([measured, ("measure", 1, 0)], [("measure", 1, 0), ("measure", 0, 1), ("measure", 1, 1), ("measure", 1, 0)], False),
            ([("reset", 0), measured], [("reset", 0)], True),
            ([("if", [0], 0, gate("x", 1))], [gate("x", 1)], True),
            ([("if", [0], 2, gate("x", 1))], [], True),
            ([gate("s", 0), gate("s", 0)], [gate("z", 0)], True),
            ([gate("s", 0)], [gate("sdg", 0)], False),
            ([gate("cx", 0, 1), gate("cx", 1, 0), gate("cx", 0, 1)], [gate("swap", 0, 1)], True),
        ):
            self.assertEqual(stabilisers.same(one, other, 2, [0, 1], [0, 1], BITS), wanted, (one, other))
            self.assertEqual(simulated_apart(one, other, 2) < 1e-9, wanted, (one, other))
        self.assertTrue(stabilisers.same([gate("h", 0)], [gate("h", 0), *[gate("cx", 0, 1), gate("cx", 1, 0)]], 1, [0, 1], [1, 0], 0))
        self.assertFalse(stabilisers.same([gate("h", 0)], [gate("h", 0), gate("cx", 0, 1)], 1, [0, 1], [1, 0], 0))

    def test_what_is_no_clifford_program(self):
        for it in (gate("t", 0), gate("ch", 0, 1), gate("c3x", 0, 1, 2, 3), ("if", [0], 1, gate("h", 0)), ("if", [0, 1], 1, gate("x", 0)), ("if", [0], 1, ("reset", 0))):
            with self.assertRaises(stabilisers.NotClifford):
                stabilisers.Group(4, [0, 1, 2, 3], 2).run([it])

    def test_chain(self):
        verdicts = []
        for seed in range(80):
            dice = simulation.drawn(seed)
            size = dice.randint(2, 6)
            one = []
            for _ in range(dice.randint(2, 30)):
                name = dice.choice([it for it in drawn_programs.NAMES if simulation.wires_of(it) <= size])
                angles = [dice.choice(drawn_programs.ANGLES)[1] for _ in range(simulation.GATES[name][0])]
                one.append(("gate", simulation.matrix_of(name, angles), dice.sample(range(size), simulation.wires_of(name))))
            other = edited(dice, one, size)
            qubits = size + dice.randint(0, 2)
            places = dice.sample(range(qubits), qubits)
            wanted = simulated_apart(one, list(placed(other, places)), size, places[:size], seed) < 1e-7
            for few in (False, True):
                states = chain.drawn_input(size, few, dice)
                gates = [chain.to_the_measurements(it)[0] for it in (one, list(placed(other, places)), list(placed(one, places)))]
                self.assertLess(chain.compared(gates[0], gates[2], places, places, *states), 1e-9, seed)
                # four terms may miss what only others show
                if wanted or not few:
                    self.assertEqual(chain.compared(gates[0], gates[1], places, places, *states) < 1e-7, wanted, seed)
            verdicts.append(wanted)
        self.assertGreater(min(verdicts.count(True), verdicts.count(False)), 10)

    def test_a_chain_that_is_too_wide(self):
        dice = simulation.drawn(1)
        gates = [gate("cx", *dice.sample(range(16), 2)) if dice.random() < 0.5 else gate("t", dice.randrange(16)) for _ in range(300)]
        gates = [it for one in gates for it in (one, gate("h", dice.randrange(16)))]
        with self.assertRaises(chain.TooWide):
            chain.apart(gates, gates, 16, list(range(16)), list(range(16)))

    def test_a_wire_beside_the_others_is_zero_again(self):
        for more, wanted in (([], 0), ([gate("cx", 2, 3)], 0), ([gate("cx", 0, 2)], 1), ([gate("h", 3)], 1), ([gate("z", 2)], 0)):
            one = [gate("h", 0), gate("t", 1), gate("cx", 0, 1)]
            found = chain.apart(one, one + more, 2, [0, 1], [0, 1])
            (self.assertGreater if wanted else self.assertLess)(found, 1e-3 if wanted else 1e-9, more)
            clifford = [it for it in one if it != gate("t", 1)]
            self.assertEqual(stabilisers.same(clifford, clifford + more, 2, [0, 1, 2, 3], [0, 1, 2, 3], 0), not wanted)

    def test_only_measurements_at_the_end(self):
        for it in (
            [("measure", 0, 0), gate("h", 0)],
            [("measure", 0, 0), gate("cx", 1, 0)],
            [("measure", 0, 0), ("measure", 0, 1)],
            [("measure", 0, 0), ("measure", 1, 0)],
            [("reset", 0)],
            [("if", [0], 1, gate("h", 0))],
        ):
            with self.assertRaises(ValueError):
                chain.to_the_measurements(it)
        found = chain.to_the_measurements([("measure", 0, 1), gate("h", 1), ("measure", 1, 0)])
        self.assertEqual(found, ([gate("h", 1)[1:]], {1: 0, 0: 1}))



@unittest.skipIf(chain is None, "numpy isn't installed")
class Planted(unittest.TestCase):
    """Faults in large programs: so many qubits as wires, so each gate counts."""

    def code(self, size):
        """Checks round a ring, half of the wires being measured: gates of Clifford's on more wires than a state could be kept of."""
        found = []
        for it in range(1, size, 2):
            turned = [gate("h", it)] if it % 4 == 1 else []
            ends = [(it - 1) % size, (it + 1) % size]
            found += [*turned, *(gate("cx", *((it, end) if turned else (end, it))) for end in ends), *turned]
        return found, [("measure", it, it // 2) for it in range(1, size, 2)]

    def transform(self, size):
        """The Fourier transform cut off behind its second phases, and half of the wires measured."""
        found = []
        for it in reversed(range(size)):
            found += [("gate", simulation.matrix_of("cu1", [turn]), [it - by, it]) for by, turn in ((1, 1.6), (2, 0.8)) if it >= by]
            found.append(gate("h", it))
        return found, [("measure", it, it // 2) for it in range(1, size, 2)]

    def test_stabilisers(self):
        size, bits = 48, 24
        gates, measured = self.code(size)
        dice = simulation.drawn(2)
        target, initial, final = planted.routed(gates, size, dice)
        source, target = gates + measured, target + list(placed(measured, final))
        self.assertTrue(stabilisers.same(source, target, size, initial, final, bits))
        count = 0
        # a turn of pi/2, and not about Z, which nothing would show of a wire that is measured next
        for kind, wrong, places in planted.faults(target, final, dice, simulation.SX, 8):
            self.assertFalse(stabilisers.same(source, wrong, size, initial, places, bits), kind)
            count += 1
        self.assertEqual(count, 8 * 8)

    def test_chain(self):
        size = 24
        gates, measured = self.transform(size)
        dice = simulation.drawn(3)
        target, initial, final = planted.routed(gates, size, dice)
        source, target = gates + measured, target + list(placed(measured, final))
        self.assertLess(chain.apart(source, target, size, initial, final), 1e-9)
        count = 0
        for kind, wrong, places in planted.faults(target, final, dice, simulation.matrix_of("rz", [2e-6]), 2):
            self.assertGreater(chain.apart(source, wrong, size, initial, places), 1e-7, kind)
            count += 1
        self.assertEqual(count, 2 * 8)

    def test_chain_from_few_terms(self):
        """Products of two numbers, which are entangled too much if all of both are."""
        each = 5
        size = 3 * each
        gates = [gate("ccx", i, each + j, 2 * each + (i + j) % each) for i in range(each) for j in range(each)]
        measured = [("measure", it, it) for it in range(each)]
        dice = simulation.drawn(4)
        target, initial, final = planted.routed(gates, size, dice)
        source, target = gates + measured, target + list(placed(measured, final))
        with self.assertRaises(chain.TooWide):
            chain.apart(source, target, size, initial, final, may_be_few=False)
        self.assertLess(chain.apart(source, target, size, initial, final), 1e-9)
        count = 0
        for kind, wrong, places in planted.faults(target, final, dice, simulation.matrix_of("rz", [2e-6]), 2):
            self.assertGreater(chain.apart(source, wrong, size, initial, places), 1e-7, kind)
            count += 1
        self.assertEqual(count, 2 * 8)
