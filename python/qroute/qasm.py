"""OpenQASM 2.0, read the plain way: for the tools that stand beside `qroute`, and for programs with any gates.

`read(text)` gives a `Program`: its wires and classical bits in order of declaration, and its steps, in which whole
registers are written out. `operations(program)` gives the operations `("U", a, b, c, wire)`, with angles in units of pi/4
below 8, and `("CX", control, target)`, with gates written out by their bodies. What `qroute` refuses is refused here too: a
`Fault` with an offset, or of angles and operations a ValueError. Only a gate after a measurement is read, which
`has_gates_behind_measurements` tells, and the text may have any length.

`read(text, whole=True)` reads the whole language: conditions, `reset`, opaque gates, gates after measurements, and angles
without an exact value, each of which is a float then. It also reads more than the language has: gates' names with capitals, the
tables included again, numbers with an exponent and no point, and a byte order mark, which it skips.
"""

import contextlib
import dataclasses
import fractions
import math
import operator
import re
import typing

# what `qroute` reads at most; a program that it writes may have more operations
MOST_WIRES = 256
MOST_BITS = 1_024
MOST_DEPTH = 64
MOST_PART = 2**62  # of a number in lowest terms
MOST_OPERATIONS = 65_536
MOST_ITEMS = 1_048_576  # operations, and gates that are written out by others on the way
MOST_DIGITS = 4_300  # of a number that an `if` compares with: Python reads no more

MARK = "\xef\xbb\xbf"  # a byte order mark, a character for each of its bytes

TOKEN = re.compile(
    r"""(?P<blank>(?:[ \t\r\n]|//[^\n]*)+)
      | (?P<real>(?:[0-9]+\.[0-9]*|[0-9]*\.[0-9]+)(?:[eE][-+]?[0-9]+)?)
      | (?P<whole>0|[1-9][0-9]*)
      | (?P<word>[A-Za-z][A-Za-z0-9_]*)
      | (?P<text>"[^"\n]*")
      | (?P<sign>->|==|[;,()\[\]{}+\-*/^])""",
    re.VERBOSE,
)

# a real number as some exporters write it, without a point
BARE = re.compile(r"([0-9]+)([eE][-+]?[0-9]+)(?![A-Za-z0-9_.])")

FUNCTIONS = "sin cos tan exp ln sqrt".split()
CAPITALS = "OPENQASM U CX".split()
KEYWORDS = "include qreg creg gate opaque measure reset if barrier pi".split() + FUNCTIONS
LATER = "u p cp swap cswap sx sxdg".split()  # names of the library that a program may declare again
LIBRARY = """
gate u3(t,p,l) q { U(t,p,l) q; } gate u2(p,l) q { U(pi/2,p,l) q; } gate u1(l) q { U(0,0,l) q; }
gate cx c,t { CX c,t; } gate id a { U(0,0,0) a; } gate x a { u3(pi,0,pi) a; } gate y a { u3(pi,pi/2,pi/2) a; }
gate z a { u1(pi) a; } gate h a { u2(0,pi) a; } gate s a { u1(pi/2) a; } gate sdg a { u1(-pi/2) a; }
gate t a { u1(pi/4) a; } gate tdg a { u1(-pi/4) a; } gate rx(t) a { u3(t,-pi/2,pi/2) a; }
gate ry(t) a { u3(t,0,0) a; } gate rz(p) a { u1(p) a; } gate cz a,b { h b; cx a,b; h b; }
gate cy a,b { sdg b; cx a,b; s b; }
gate ch a,b { h b; sdg b; cx a,b; h b; t b; cx a,b; t b; h b; s b; x b; s a; }
gate ccx a,b,c { h c; cx b,c; tdg c; cx a,c; t c; cx b,c; tdg c; cx a,c; t b; t c; h c; cx a,b; t a; tdg b; cx a,b; }
gate crz(l) a,b { u1(l/2) b; cx a,b; u1(-l/2) b; cx a,b; }
gate cu1(l) a,b { u1(l/2) a; cx a,b; u1(-l/2) b; cx a,b; u1(l/2) b; }
gate u(t,p,l) q { U(t,p,l) q; } gate p(l) q { U(0,0,l) q; }
gate cp(l) a,b { u1(l/2) a; cx a,b; u1(-l/2) b; cx a,b; u1(l/2) b; }
gate swap a,b { cx a,b; cx b,a; cx a,b; } gate cswap a,b,c { cx c,b; ccx a,b,c; cx c,b; }
gate sx a { sdg a; h a; sdg a; } gate sxdg a { s a; h a; s a; }
"""


class Fault(Exception):
    """The text can't be made sense of from the byte at `offset` on."""

    def __init__(self, says, offset):
        super().__init__(says)
        self.offset = offset


@dataclasses.dataclass
class Token:
    kind: str
    text: str
    offset: int


@dataclasses.dataclass
class Step:
    """A gate, a measurement, a barrier or a reset on wires; `bit` is a measurement's, `angles` are a gate's.

    `gate` is what a gate's name means at this place: a name of the library may mean another gate further on. `said` is a gate's
    name with its angles, as the text spells them, `offset` where the statement begins, and `condition` the register and the
    value of an `if`.
    """

    kind: str
    name: str
    angles: list
    wires: list
    bit: int = -1
    gate: typing.Any = None
    said: str = ""
    offset: int = -1
    condition: tuple[str, int] | None = None


@dataclasses.dataclass
class Program:
    wires: list  # the names of the wires, as q[0]
    bits: list  # the names of the classical bits
    registers: list  # name and size of each classical register
    steps: list
    gates: dict
    borrowed: dict = dataclasses.field(default_factory=dict)  # gates that neither the program nor the tables declare

    def reads(self):
        """For each bit the wire that is measured last into it, or None."""
        found = [None] * len(self.bits)
        for step in self.steps:
            if step.kind == "measure":
                found[step.bit] = step.wires[0]
        return found

    def barriers(self):
        """The wires of each barrier."""
        return [step.wires for step in self.steps if step.kind == "barrier"]

    def measured(self):
        return {step.wires[0] for step in self.steps if step.kind == "measure"}

    def has_gates_behind_measurements(self):
        measured = set()
        for step in self.steps:
            if step.kind == "measure":
                measured.add(step.wires[0])
            elif step.kind == "gate" and not measured.isdisjoint(step.wires):
                return True
        return False


@dataclasses.dataclass
class Gate:
    params: list
    qubits: list
    body: list  # of (gate, expressions, qubits)
    operations: int = 1  # that it is written out as; one more than MOST_ITEMS stands for any number above
    items: int = 1  # the same with the gates on the way
    name: str = ""
    is_opaque: bool = False
    text: str = ""  # of its declaration, on one line
    offset: int = 0  # where its declaration begins


U = Gate(["theta", "phi", "lambda"], ["q"], [], name="U")
CX = Gate([], ["control", "target"], [], name="CX")


def gate_of(params, qubits, body, name="", text="", barriers=0):
    """A gate with a body, in which so many barriers stand besides."""
    operations = sum(gate.operations for gate, _, _ in body)
    items = 1 + barriers + sum(gate.items for gate, _, _ in body)
    return Gate(params, qubits, body, min(operations, MOST_ITEMS + 1), min(items, MOST_ITEMS + 1), name, text=text)


def text_of(data):
    """The text of bytes, a character for each byte, so that an offset in one is an offset in the other."""
    return data.decode("latin-1")


def text_in(path):
    """The text in a file."""
    with open(path, "rb") as file:
        return text_of(file.read())


def tokens(text, whole=False):
    """The tokens of a text; with `whole` a number may have an exponent without a point, which its token has then."""
    found = []
    if text.startswith(MARK) and not whole:
        raise Fault("the text begins with a byte order mark, which `qroute` doesn't read", 0)
    offset = len(MARK) if text.startswith(MARK) else 0
    while offset < len(text):
        match = TOKEN.match(text, offset)
        if whole and match is not None and match.lastgroup == "whole" and (bare := BARE.match(text, offset)):
            found.append(Token("real", f"{bare[1]}.0{bare[2]}", offset))
            offset = bare.end()
            continue
        if match is None or (not whole and match.lastgroup == "word" and match.group()[0].isupper() and match.group() not in CAPITALS):
            raise Fault(f"no token begins with {text[offset]!r}", offset)
        if not whole and match.lastgroup in ("whole", "real") and number(match.group()) is None:
            raise Fault("a number with a part above 2^62", offset)
        if match.lastgroup != "blank":
            found.append(Token(str(match.lastgroup), match.group(), offset))
        offset = match.end()
    return found


def plain(value):
    return (fractions.Fraction(value), fractions.Fraction(0))


PI = (fractions.Fraction(0), fractions.Fraction(1))


def eighths(angle):
    """The multiple of pi/4 that an angle is, below 8; None if it is none."""
    if isinstance(angle, float):
        return None
    eight = angle[1] * 4
    if angle[0] != 0 or eight.denominator != 1:
        return None
    return int(eight) % 8


def is_large(value):
    return max(abs(value.numerator), value.denominator) > MOST_PART


def fitted(angle):
    """The angle, if its parts aren't too large."""
    if is_large(angle[0]) or is_large(angle[1]):
        raise ValueError("a number with a part above 2^62")
    return angle


def number(text):
    """The value of a number; None if a part of it is above 2^62, which is seen before a large power of ten is made."""
    if len(text) < 19 and text.isdigit():
        return fractions.Fraction(int(text))
    mantissa, _, exponent = text.lower().partition("e")
    whole, _, behind = mantissa.partition(".")
    digits = (whole + behind).rstrip("0")
    bare, steps = digits.lstrip("0"), exponent.lstrip("+-0")
    if not bare:
        return fractions.Fraction(0)
    if len(steps) > 9:
        return None
    # The value is `bare` times this power of ten, and as `bare` ends with no 0, only 2 or only 5 can be reduced.
    shift = int(steps or "0") * (-1 if exponent.startswith("-") else 1) + len(whole) - len(digits)
    if abs(shift) > 62 or len(bare) > 62 + 19:
        return None
    value = int(bare) * fractions.Fraction(10) ** shift
    return None if is_large(value) else value


def product(a, b):
    if a[1] and b[1]:
        raise ValueError("a product of two multiples of pi")
    return fitted((a[0] * b[0], a[0] * b[1] + a[1] * b[0]))


def quotient(a, b):
    if b[1]:
        if a[0] or b[0]:
            raise ValueError("a quotient by a multiple of pi")
        return fitted((a[1] / b[1], fractions.Fraction(0)))
    if b[0] == 0:
        raise ValueError("a division by 0")
    return fitted((a[0] / b[0], a[1] / b[0]))


def power(a, b):
    if b[1] or b[0].denominator != 1:
        raise ValueError("a power that isn't whole")
    if b[0] == 1:
        return a
    if b[0] == 0:
        return plain(1)
    if a[1]:
        raise ValueError("a power of a multiple of pi")
    if a[0] == 0 and b[0] < 0:
        raise ValueError("a division by 0")
    if abs(b[0]) > 62 and a[0] not in (-1, 0, 1):
        raise ValueError("a number with a part above 2^62")
    return fitted(plain(a[0] ** int(b[0])))


def summed(a, b):
    return fitted((a[0] + b[0], a[1] + b[1]))


def minus(a):
    return (-a[0], -a[1])


def less(a, b):
    return summed(a, minus(b))


IN_FLOATS = {
    summed: operator.add,
    less: operator.sub,
    product: operator.mul,
    quotient: operator.truediv,
    power: math.pow,
    minus: operator.neg,
}
CALLED = dict(zip(FUNCTIONS, (math.sin, math.cos, math.tan, math.exp, math.log, math.sqrt)))


def as_float(angle):
    """The value of an angle, exact or not."""
    return angle if isinstance(angle, float) else float(angle[0]) + float(angle[1]) * math.pi


def in_floats(rule, *parts):
    """What a rule for floats makes of some angles; a ValueError if that is no number."""
    try:
        found = rule(*map(as_float, parts))
    except (ArithmeticError, ValueError):
        found = math.inf
    if not math.isfinite(found):
        raise ValueError("an angle that has no value")
    return found


def computed(rule, *parts):
    """What a rule makes of some angles: exact if all are and the rule has an exact value, else a float."""
    if not any(isinstance(it, float) for it in parts):
        try:
            return rule(*parts)
        except ValueError:
            pass
    return in_floats(IN_FLOATS[rule], *parts)


@dataclasses.dataclass
class Expression:
    depth: int
    value: typing.Callable  # of the values of names; an angle


class Reader:
    """Reads tokens from the front; with `whole` also what has no exact value."""

    def __init__(self, text, whole=False):
        self.list = tokens(text, whole)
        self.text = text
        self.angles = []  # with `whole`, each expression with the offsets at which it begins and ends, and its gate
        self.at = 0
        self.end = len(text)
        self.level = 0
        self.params = ()  # of the gate that is declared
        self.whole = whole

    def peek(self):
        return self.list[self.at].text if self.at < len(self.list) else ""

    def fail(self, says):
        offset = self.list[self.at].offset if self.at < len(self.list) else self.end
        raise Fault(says, offset)

    def take(self, text=None, kind=None):
        if self.at == len(self.list):
            self.fail(f"the text ends where {text or kind} is wanted")
        token = self.list[self.at]
        if (text is not None and token.text != text) or (kind is not None and token.kind != kind):
            self.fail(f"{token.text!r} where {text or kind} is wanted")
        self.at += 1
        return token.text

    def number(self, text):
        """The value of the number that was just taken."""
        found = number(text)
        if found is None:
            self.at -= 1
            self.fail("a number with a part above 2^62")
        return found

    def compared(self):
        """The whole number that a condition compares with, of any size."""
        text = self.take(kind="whole")
        if len(text) > MOST_DIGITS:
            self.at -= 1
            self.fail(f"a number of more than {MOST_DIGITS:,} digits")
        return int(text)

    def constant(self, text):
        """The angle that a number is."""
        if self.whole and number(text) is None:
            if math.isinf(float(text)):
                self.at -= 1
                self.fail("an angle that has no value")
            return float(text)
        return plain(self.number(text))

    def index(self):
        """A whole number in brackets."""
        self.take("[")
        found = self.number(self.take(kind="whole"))
        self.take("]")
        return int(found)

    def skips(self, text):
        if self.peek() != text:
            return False
        self.at += 1
        return True

    def names(self):
        found = [self.take(kind="word")]
        while self.skips(","):
            found.append(self.take(kind="word"))
        return found

    def argument(self):
        name = self.take(kind="word")
        return name, self.index() if self.peek() == "[" else None

    def arguments(self):
        found = [self.argument()]
        while self.skips(","):
            found.append(self.argument())
        return found

    def expression(self):
        left = self.term()
        while self.peek() in ("+", "-"):
            rule = summed if self.take() == "+" else less
            left = self.joined(rule, left, self.term())
        return left

    def term(self):
        left = self.signed()
        while self.peek() in ("*", "/"):
            rule = product if self.take() == "*" else quotient
            left = self.joined(rule, left, self.signed())
        return left

    def signed(self):
        # each level of a part that isn't the first goes through here, so that none is read that is too deep
        self.level += 1
        self.look_at_depth(self.level)
        if self.skips("-"):
            part = self.signed()
            rule = self.ruled(minus)
            found = self.deeper(part.depth, lambda env: rule(part.value(env)))
        else:
            found = self.atom()
            if self.skips("^"):
                found = self.joined(power, found, self.signed())
        self.level -= 1
        return found

    def atom(self):
        if self.skips("("):
            part = self.expression()
            self.take(")")
            return self.deeper(part.depth, part.value)
        token = self.list[self.at] if self.at < len(self.list) else None
        if token is not None and token.kind in ("whole", "real"):
            value = self.constant(self.take())
            return Expression(1, lambda env: value)
        name = self.take(kind="word")
        if name == "pi":
            return Expression(1, lambda env: PI)
        if name in FUNCTIONS:
            return self.called(name)
        if name not in self.params:
            self.at -= 1
            self.fail(f"{name} is no number here (bind the parameter first)")
        return Expression(1, lambda env: env[name])

    def called(self, name):
        """A function of the language; without `whole` it has no value."""
        self.take("(")
        part = self.expression()
        self.take(")")
        if self.whole:
            return self.deeper(part.depth, lambda env: in_floats(CALLED[name], part.value(env)))

        def none(env):
            raise ValueError(f"{name} has no exact value here")

        return self.deeper(part.depth, none)

    def ruled(self, rule):
        """A rule for exact angles, or for any."""
        return (lambda *parts: computed(rule, *parts)) if self.whole else rule

    def joined(self, rule, left, right):
        either = self.ruled(rule)
        return self.deeper(max(left.depth, right.depth), lambda env: either(left.value(env), right.value(env)))

    def deeper(self, depth, value):
        """An expression whose deepest part has this depth."""
        self.look_at_depth(depth + 1)
        return Expression(depth + 1, value)

    def look_at_depth(self, depth):
        if depth > MOST_DEPTH:
            self.fail(f"an expression deeper than {MOST_DEPTH}")

    def expressions(self, gate):
        """The angles of a gate."""
        if not self.skips("("):
            return []
        if self.skips(")"):
            return []
        found = [self.angle(gate)]
        while self.skips(","):
            found.append(self.angle(gate))
        self.take(")")
        return found

    def angle(self, gate):
        """An expression that is a whole angle of a gate."""
        begins = self.at
        found = self.expression()
        if self.whole:
            last = self.list[self.at - 1].offset
            end = BARE.match(self.text, last) or TOKEN.match(self.text, last)
            self.angles.append((self.list[begins].offset, end.end() if end else last, found, gate))
        return found


class ProgramReader(Reader):
    """Reads statements into a program that is written out as so many operations at most.

    With `whole` it reads the whole language, and `known` has declarations of gates by name, which are taken if the tables are
    included and lack a name.
    """

    def __init__(self, text, most, whole=False, known=None):
        super().__init__(text, whole)
        self.most = most
        self.known = known or {}
        self.operations = 0
        self.items = 0
        self.quantum = {}  # register: first wire and size
        self.classical = {}
        self.declared = set()  # the gates of the program
        self.is_included = False
        self.begins = 0  # the token at which the statement begins
        self.offset = 0  # of the statement
        self.condition = None
        self.program = Program([], [], [], [], {"U": U, "CX": CX})

    def all(self):
        self.take("OPENQASM")
        version = self.take(kind="real")
        if number(version) != 2:
            self.at -= 1
            self.fail("the version must be 2.0")
        self.take(";")
        while self.at < len(self.list):
            self.begins, self.offset = self.at, self.list[self.at].offset
            self.condition = None
            self.statement()
        return self.program

    def statement(self):
        word = self.peek()
        known = {
            "include": self.include,
            "qreg": lambda: self.register(self.quantum, self.program.wires),
            "creg": lambda: self.register(self.classical, self.program.bits),
            "gate": self.gate,
            "measure": self.measure,
            "barrier": self.barrier,
            "opaque": self.opaque,
        }
        if self.whole:
            known |= {"if": self.conditional, "reset": self.reset}
        if word in ("if", "reset") and not self.whole:
            self.fail(f"{word} is not for this tool")
        if word in known:
            self.at += 1
            known[word]()
        else:
            self.application()

    def conditional(self):
        if self.condition is not None:
            self.at -= 1
            self.fail("an `if` under another")
        self.take("(")
        name = self.take(kind="word")
        if name not in self.classical:
            self.at -= 1
            self.fail(f"no classical register {name}")
        self.take("==")
        value = self.compared()
        self.take(")")
        if self.peek() in ("include", "qreg", "creg", "gate", "barrier", "opaque"):
            self.fail(f"{self.peek()} under an `if`")
        self.condition = (name, value)
        self.statement()

    def reset(self):
        wires, _ = self.wires_of(self.argument(), self.quantum)
        self.take(";")
        for wire in wires:
            self.step("reset", "reset", [], [wire])

    def opaque(self):
        name, params = self.named()
        qubits = self.own_names(params)
        self.take(";")
        self.declare(Gate(params, qubits, [], name=name, is_opaque=True, text=self.said()))

    def step(self, *what, **more):
        told: dict[str, typing.Any] = {"offset": self.offset, "condition": self.condition, **more}
        self.program.steps.append(Step(*what, **told))

    def said(self):
        """The statement up to the last token, on one line and without comments."""
        spaced = " ".join(it.text for it in self.list[self.begins : self.at])
        return re.sub(r" (?=[(),;])|(?<=[(,]) ", "", spaced)

    def include(self):
        if self.take(kind="text") != '"qelib1.inc"':
            self.at -= 1
            self.fail("another file than qelib1.inc is included")
        if self.is_included and not self.whole:
            self.at -= 1
            self.fail("qelib1.inc is included already")
        if taken := [it for it in self.declared if it in library() and it not in LATER and not self.whole]:
            self.at -= 1
            self.fail(f"the name {min(taken)} is taken")
        self.take(";")
        self.is_included = True
        for name, gate in library().items():
            self.program.gates.setdefault(name, gate)

    def is_reserved(self, name):
        return name in KEYWORDS or (not self.whole and name in CAPITALS)

    def look_whether_taken(self, name, is_register):
        """Whether the name that was just read may be declared."""
        if self.is_reserved(name):
            self.at -= 1
            self.fail(f"the name {name} is a word of the language")
        registers = name in self.quantum or name in self.classical
        if is_register:
            is_taken = registers or name in self.declared or name in library()
        else:
            is_taken = registers or name in self.declared or name in self.program.borrowed
            is_taken = is_taken or (self.is_included and name in library() and name not in LATER)
        if is_taken:
            self.at -= 1
            is_hidden = is_register and name in library() and not self.is_included
            self.fail(f"the name {name} is taken{': the tables are always included' if is_hidden else ''}")

    def register(self, known, numbered):
        name = self.take(kind="word")
        self.look_whether_taken(name, True)
        if self.whole and known is self.classical and not name[0].islower():
            self.at -= 1
            self.fail(f"the name {name} doesn't begin with a small letter")
        size = self.index()
        most = MOST_WIRES if known is self.quantum else MOST_BITS
        if size == 0:
            self.fail("a register must have a size of at least 1")
        if len(numbered) + size > most:
            self.fail(f"with this register more than {most} {'qubits' if known is self.quantum else 'classical bits'}")
        self.take(";")
        known[name] = (len(numbered), size)
        numbered += [f"{name}[{i}]" for i in range(size)]
        if known is self.classical:
            self.program.registers.append((name, size))

    def named(self):
        """The name of a gate that is declared, and its parameters."""
        name = self.take(kind="word")
        self.look_whether_taken(name, False)
        params = []
        if self.skips("(") and not self.skips(")"):
            params = self.own_names([])
            self.take(")")
        return name, params

    def own_names(self, before):
        """Names of a declaration's parameters or qubits, which aren't those before."""
        begins, found = self.at, self.names()
        for i, it in enumerate(found):
            if self.is_reserved(it) or it in before or it in found[:i]:
                self.at = begins + 2 * i
                self.fail(f"the name {it} is {'a word of the language' if self.is_reserved(it) else 'taken'}")
        return found

    def gate(self):
        name, params = self.named()
        qubits = self.own_names(params)
        self.take("{")
        lines = []
        self.params = params
        while not self.skips("}"):
            lines.append(self.line_of_body(qubits))
        self.params = ()
        body = [it for it in lines if it is not None]
        self.declare(gate_of(params, qubits, body, name, self.said(), len(lines) - len(body)))

    def declare(self, gate):
        gate.offset = self.offset
        self.program.gates[gate.name] = gate
        self.declared.add(gate.name)

    def line_of_body(self, qubits):
        """A line of a gate's body: a gate with its angles and some of the qubits, or with a barrier None."""
        gate = None if self.skips("barrier") else self.gate_of_name()
        angles = self.expressions(gate) if gate else []
        places = self.names()
        for it in places:
            if it not in qubits:
                self.fail(f"no qubit {it}")
        if gate:
            self.look_at_sizes(gate, angles, places)
        self.take(";")
        return (gate, angles, places) if gate else None

    def gate_of_name(self):
        name = self.peek()
        found = self.program.gates.get(name)
        if found is None and self.is_included and name in self.known:
            found = self.program.borrowed[name] = known_gate(self.known[name])
        if found is None:
            self.fail(f"no gate {name}")
        elif found.is_opaque and not self.whole:
            self.fail(f"the gate {name} has no body")
        self.at += 1
        if found is CX and self.peek() == "(" and not self.whole:
            self.fail("CX takes no parentheses")
        return found

    def look_at_sizes(self, gate, angles, on):
        """Whether a gate takes so many angles and wires, and no wire twice."""
        if len(angles) != len(gate.params) or len(on) != len(gate.qubits):
            self.fail(f"the gate takes {len(gate.params)} angles and {len(gate.qubits)} wires")
        if len(set(on)) != len(on):
            self.fail("one wire twice")

    def count(self, gate):
        self.operations += gate.operations
        self.items += gate.items
        if self.operations > self.most:
            self.fail(f"more than {self.most:,} operations")
        if self.items > MOST_ITEMS:
            self.fail(f"more than {MOST_ITEMS:,} gates of gates")

    def wires_of(self, argument, known):
        name, index = argument
        if name not in known:
            self.fail(f"no register {name}")
        first, size = known[name]
        if index is None:
            return [first + i for i in range(size)], True
        if index >= size:
            self.fail(f"{name} has no index {index}")
        return [first + index], False

    def measure(self):
        wires, is_register = self.wires_of(self.argument(), self.quantum)
        self.take("->")
        bits, is_whole = self.wires_of(self.argument(), self.classical)
        if len(wires) != len(bits) or (is_register != is_whole and not self.whole):
            self.fail("a measurement between different sizes")
        if self.condition is not None and len(wires) > 1 and self.classical[self.condition[0]][0] <= bits[0] < sum(self.classical[self.condition[0]]):
            self.fail("the register that is measured is the one that its `if` reads")
        self.take(";")
        for wire, bit in zip(wires, bits):
            self.step("measure", "measure", [], [wire], bit)

    def barrier(self):
        wires = []
        for argument in self.arguments():
            wires += self.wires_of(argument, self.quantum)[0]
        self.take(";")
        # each once, in the order in which they are named
        self.step("barrier", "barrier", [], list(dict.fromkeys(wires)))

    def values(self, gate):
        """The angles that a gate is applied with."""
        found = []
        for i, it in enumerate(expressions := self.expressions(gate)):
            try:
                found.append(it.value({}))
            except ValueError as fault:
                if not self.whole:
                    self.fail(str(fault))
                raise Fault(str(fault), self.angles[i - len(expressions)][0]) from None
        return found

    def application(self):
        name, begins = self.peek(), self.at
        gate = self.gate_of_name()
        seen = len(self.angles)
        angles = self.values(gate)
        if gate.is_opaque:
            del self.angles[seen:]  # what it takes may be no angles
        said = "".join(it.text for it in self.list[begins : self.at])
        arguments = [self.wires_of(it, self.quantum) for it in self.arguments()]
        whole = {len(wires) for wires, is_whole in arguments if is_whole}
        if len(whole) > 1:
            self.fail("whole registers of different sizes")
        for i in range(whole.pop() if whole else 1):
            on = [wires[i] if is_whole else wires[0] for wires, is_whole in arguments]
            self.look_at_sizes(gate, angles, on)
            self.count(gate)
            self.step("gate", name, angles, on, gate=gate, said=said)
        self.take(";")


_LIBRARY: dict[str, typing.Any] = {}


def library():
    """The gates of `qelib1.inc`, and those that today's tools write beside them."""
    if not _LIBRARY:
        reader = ProgramReader(f"OPENQASM 2.0; {LIBRARY}", MOST_OPERATIONS, whole=True)
        _LIBRARY.update(reader.all().gates)
    return _LIBRARY


def is_of_tables(gate):
    """Whether a gate is `U`, `CX` or one of the library, and none of the program's own."""
    return library().get(gate.name) is gate


_KNOWN = {}


def known_gate(text):
    """The gate that a text declares over the tables."""
    if text not in _KNOWN:
        reader = ProgramReader(f'OPENQASM 2.0; include "qelib1.inc"; {text}', MOST_OPERATIONS, whole=True)
        _KNOWN[text] = list(reader.all().gates.values())[-1]
        _KNOWN[text].text, _KNOWN[text].offset = text, 0
    return _KNOWN[text]


def read(text, most=MOST_OPERATIONS, whole=False, known=None):
    """The program of a text, which is written out as so many operations at most.

    With `whole` it is one of the whole language, and `known` has declarations by name for names that the tables lack.
    """
    return ProgramReader(text, most, whole, known).all()


@contextlib.contextmanager
def placed(offset):
    """Makes a Fault at this offset of what has no value."""
    try:
        yield
    except ValueError as fault:
        raise Fault(str(fault), offset) from None


def applied(gate, angles, wires):
    """A gate and those that it is written out by, each before those of its body, with angles and wires."""
    waiting = [iter([(gate, angles, wires)])]
    while waiting:
        found = next(waiting[-1], None)
        if found is None:
            waiting.pop()
        else:
            yield found
            waiting.append(body_of(*found))


def body_of(gate, angles, wires):
    """What the body of a gate applies: gates with angles and wires."""
    env = dict(zip(gate.params, angles))
    on = dict(zip(gate.qubits, wires))
    for inner, expressions, places in gate.body:
        yield inner, [it.value(env) for it in expressions], [on[it] for it in places]


def turns(angles):
    found = [eighths(it) for it in angles]
    if None in found:
        raise ValueError("an angle that is no multiple of pi/4")
    return found


def operations(program):
    """The operations of a program's gates, in order."""
    return [it for part in parts(program) for it in part]


def parts(program):
    """The same, those before the first barrier, between two barriers and after the last one by themselves."""
    found: list[typing.Any] = [[]]
    known = {}  # those of a gate with some angles, on its own wires from 0 on
    for step in program.steps:
        if step.kind == "barrier":
            found.append([])
        if step.kind != "gate":
            continue
        key = (id(step.gate), *step.angles)
        if key not in known:
            known[key] = list(written(step.gate, step.angles, range(len(step.wires))))
        on = step.wires
        found[-1] += [(it[0], on[it[1]], on[it[2]]) if it[0] == "CX" else (*it[:4], on[it[4]]) for it in known[key]]
    return found


def written(gate, angles, wires):
    """The operations of one gate."""
    for inner, values, on in applied(gate, angles, wires):
        if inner is CX:
            yield ("CX", *on)
        elif inner is U:
            yield ("U", *turns(values), on[0])


def written_out(path, text, most=MOST_OPERATIONS):
    """The program of a file's text, and its operations, at most so many; otherwise a ValueError that says where it fails."""
    try:
        program = read(text, most)
        if program.has_gates_behind_measurements():
            raise ValueError("a gate is on a qubit that was measured before")
        return program, operations(program)
    except Fault as fault:
        raise ValueError(f"{path}:{text.count(chr(10), 0, fault.offset) + 1}: {fault}") from None
    except ValueError as fault:
        raise ValueError(f"{path}: {fault}") from None
    except (RecursionError, MemoryError):
        raise ValueError(f"{path}: too much for this tool") from None
    except (ArithmeticError, LookupError, TypeError) as fault:
        raise ValueError(f"{path}: this tool can't write it out: {type(fault).__name__}") from None


def t_count(found):
    """The T gates that the operations take."""
    total = 0
    for it in found:
        if it[0] == "U":
            a, b, c = it[1:4]
            total += (b + c) % 2 if a == 0 else a % 2 + b % 2 + c % 2
    return total


def cx_count(found):
    return sum(it[0] == "CX" for it in found)


def gate_count(program):
    """The gates of a program: those on one wire and CNOTs count one each, others as many as their bodies have."""
    known = {}

    def size(gate):
        if gate is CX or len(gate.qubits) == 1:
            return 1
        if id(gate) not in known:
            known[id(gate)] = sum(size(inner) for inner, _, _ in gate.body)
        return known[id(gate)]

    return sum(size(it.gate) for it in program.steps if it.kind == "gate")
