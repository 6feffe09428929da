"""Programs with any gates, drawn: their texts, and the same as statements of the simulation, by values of their own."""

import math

import simulation

# angles as texts and as values: multiples of pi/4, other ones, decimals near a multiple, and functions
ANGLES = [
    ("pi/4", math.pi / 4),
    ("-3*pi/4", -3 * math.pi / 4),
    ("pi/2", math.pi / 2),
    ("pi", math.pi),
    ("0", 0.0),
    ("0.785398163397448", 0.785398163397448),
    ("-1.5707963267948966", -math.pi / 2),
    ("pi*0.25", math.pi / 4),
    ("0.1234", 0.1234),
    ("-2.5", -2.5),
    ("pi/7", math.pi / 7),
    ("3*pi/8", 3 * math.pi / 8),
    ("-pi/16", -math.pi / 16),
    ("1.5e-3", 0.0015),
    ("2e-1", 0.2),
    ("(pi+0.5)/2-1", (math.pi + 0.5) / 2 - 1),
    ("sin(0.3)*2", math.sin(0.3) * 2),
    ("-pi^2/3", -(math.pi**2) / 3),
    ("sqrt(2)", math.sqrt(2)),
    ("ln(2)+cos(pi/5)", math.log(2) + math.cos(math.pi / 5)),
]
# gates that a program declares: their text, numbers of angles and of wires, and what they are
OWN = {
    "mix": (
        "gate mix(a,b) x,y { rx(a) x; cx x,y; u3(a,b,a-b) y; cry(b/2) y,x; }",
        2,
        2,
        lambda a, b: [("rx", [a], [0]), ("cx", [], [0, 1]), ("u3", [a, b, a - b], [1]), ("cry", [b / 2], [1, 0])],
    ),
    "exact": (
        "gate exact x,y,z\n{ h x; ccx x,y,z; barrier x,y;\n tdg z; cz z,x; }",
        0,
        3,
        lambda: [("h", [], [0]), ("ccx", [], [0, 1, 2]), ("tdg", [], [2]), ("cz", [], [2, 0])],
    ),
    "nest": (
        "gate nest(t) p,q { mix(t,-t) q,p; rzz(t*2) p,q; sx p; }",
        1,
        2,
        lambda t: [*[(n, a, [1 - i for i in w]) for n, a, w in OWN["mix"][3](t, -t)], ("rzz", [t * 2], [0, 1]), ("sx", [], [0])],
    ),
    "turn": ("gate turn(t) q { rz(t/2) q; h q; u1(t) q; }", 1, 1, lambda t: [("rz", [t / 2], [0]), ("h", [], [0]), ("u1", [t], [0])]),
}
NAMES = [it for it in simulation.GATES if it not in ("CX", "c4x", "mcx", "c3sqrtx")]
WEIGHTS = [1 if simulation.wires_of(it) > 3 else 3 if it in ("rz", "u3", "rx", "cx", "cp", "rzz", "t", "h") else 2 for it in NAMES]


class Drawn:
    """A program on so many wires, from a seed; `text` and `statements`."""

    def __init__(self, seed, most_wires=8):
        self.dice = simulation.drawn(seed)
        self.size = min(self.dice.randint(1, most_wires), self.dice.randint(2, most_wires))
        self.first = self.dice.randint(1, self.size)  # wires of register a, the others are of register b
        self.lines = ["OPENQASM 2.0;", 'include "qelib1.inc";', *(text for text, *_ in OWN.values())]
        self.lines.append(f"qreg a[{self.first}];" + (f" qreg b[{self.size - self.first}];" if self.first < self.size else ""))
        self.lines.append("creg c[2]; creg d[3];")
        self.statements = []
        self.splits = 0
        for _ in range(self.dice.randint(4, 22)):
            self.lines.append(self.one())
        if self.dice.random() < 0.5:
            self.ends()
        self.text = "\n".join(self.lines) + "\n"

    def wire(self, i):
        return f"a[{i}]" if i < self.first else f"b[{i - self.first}]"

    def one(self):
        kind = self.dice.random()
        if kind < 0.72:
            text, found = self.gate()
            self.statements += found
            return text
        if kind < 0.78:
            return self.on_register()
        if kind < 0.84:
            wires = self.dice.sample(range(self.size), self.dice.randint(1, self.size))
            return f"barrier {','.join(map(self.wire, wires))};"
        if kind < 0.92:
            return self.conditional()
        return self.splitting()

    def gate(self):
        if self.dice.random() < 0.2:
            name = self.dice.choice([it for it in OWN if OWN[it][2] <= self.size])
            _, count, size, rows = OWN[name]
        else:
            fits = [(it, weight) for it, weight in zip(NAMES, WEIGHTS) if simulation.wires_of(it) <= self.size]
            name = self.dice.choices([it for it, _ in fits], [weight for _, weight in fits])[0]
            count, size = simulation.GATES[name][0], simulation.wires_of(name)
            rows = lambda *values: [(name, values, range(size))]
        angles = [self.dice.choice(ANGLES) for _ in range(count)]
        wires = self.dice.sample(range(self.size), size)
        said = f"({','.join(text for text, _ in angles)})" if angles else ""
        found = [
            ("gate", simulation.matrix_of(inner, values), [wires[it] for it in on])
            for inner, values, on in rows(*(value for _, value in angles))
        ]
        return f"{name}{said} {', '.join(map(self.wire, wires))};", found

    def on_register(self):
        """A gate on each wire of a register."""
        name = self.dice.choice(["h", "t", "sx", "rz(0.3)"])
        matrix = simulation.matrix_of("rz", [0.3]) if "(" in name else simulation.matrix_of(name, [])
        self.statements += [("gate", matrix, [it]) for it in range(self.first)]
        return f"{name} a;"

    def conditional(self):
        register, bits = self.dice.choice([("c", [0, 1]), ("d", [2, 3, 4])])
        value = self.dice.choice([0, 1, 1, 2, 3])
        text, found = self.gate()
        if self.dice.random() < 0.15 and self.splits < 3:
            wire = self.dice.randrange(self.size)
            text, found = f"reset {self.wire(wire)};", [("reset", wire)]
            self.splits += 1
        self.statements += [("if", bits, value, it) for it in found]
        return f"if({register}=={value}) {text}"

    def splitting(self):
        """A measurement or a reset, of which there are few, since each doubles what is simulated."""
        if self.splits == 3:
            return "// nothing here"
        self.splits += 1
        wire = self.dice.randrange(self.size)
        if self.dice.random() < 0.3:
            self.statements.append(("reset", wire))
            return f"reset {self.wire(wire)};"
        bit = self.dice.randrange(5)
        self.statements.append(("measure", wire, bit))
        return f"measure {self.wire(wire)} -> {'c' if bit < 2 else 'd'}[{bit if bit < 2 else bit - 2}];"

    def ends(self):
        """Measurements of the last wires."""
        for bit, wire in enumerate(self.dice.sample(range(self.size), min(self.size, 2))):
            self.statements.append(("measure", wire, bit))
            self.lines.append(f"measure {self.wire(wire)} -> c[{bit}];")
