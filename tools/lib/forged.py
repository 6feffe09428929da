"""Forged traces: true ones of small drawn programs, with lines of all kinds, and what becomes of them by altering them.

`drawn` makes a true one, and `altered` forges it. `texts` gives the two texts that `verify` reads. All of it comes from the dice
that are handed in, so that the same seed makes the same texts.
"""

import dataclasses

import gates as gate_lists
import qasm
import traces

HEAD = 'OPENQASM 2.0;\ninclude "qelib1.inc";\n'
MOST_WIRES = 4
# how a gate may be spelt
PLAIN = {"H": ["h {};", "u2(0,pi) {};"], "X": ["x {};", "u3(pi,0,pi) {};"], "C": ["cx {},{};", "CX {},{};"]}
PHASES = {1: "t {};", 2: "s {};", 4: "z {};", 6: "sdg {};", 7: "tdg {};"}
# what a program may have besides, with its number of wires
OTHERS = [
    ("y {};", 1),
    ("ry(pi/4) {};", 1),
    ("sx {};", 1),
    ("cz {},{};", 2),
    ("cu1(pi) {},{};", 2),
    ("swap {},{};", 2),
    ("ccx {},{},{};", 3),
]
# what lines take away or rewrite, on the first wires of some
PATTERNS = [
    (1, lambda a: [("H", a), ("P", 2, a), ("H", a)]),
    (1, lambda a: [("H", a), ("P", 6, a), ("H", a)]),
    (1, lambda a: [("H", a), ("P", 4, a), ("H", a)]),
    (1, lambda a: [("H", a), ("X", a), ("H", a)]),
    (1, lambda a: [("H", a), ("H", a)]),
    (1, lambda a: [("X", a), ("P", 1, a), ("X", a)]),
    (1, lambda a: [("P", 3, a), ("P", 5, a)]),
    (1, lambda a: [("P", 1, a), ("P", 1, a)]),
    (2, lambda a, b: [("H", a), ("H", b), ("C", a, b), ("H", b), ("H", a)]),
    (2, lambda a, b: [("H", b), ("P", 2, b), ("C", a, b), ("P", 6, b), ("H", b)]),
    (2, lambda a, b: [("H", b), ("P", 6, b), ("C", a, b), ("P", 2, b), ("H", b)]),
    (2, lambda a, b: [("C", a, b), ("C", b, a), ("C", a, b)]),
    (2, lambda a, b: [("C", b, a), ("C", a, b), ("C", b, a)]),
    (2, lambda a, b: [("C", a, b), ("P", 1, a), ("C", a, b)]),
    (2, lambda a, b: [("C", a, b), ("P", 7, b), ("C", a, b), ("P", 1, b)]),
]
# a number and words of wires: phases of the number, and of its negative on words of even length, come to nothing on their sums
NOTHING = [(4, 2), (2, 3), (6, 3), (1, 4)]


@dataclasses.dataclass
class Trace:
    """A source, the target without its trace, and the lines of the trace."""

    source: str
    target: str
    lines: list[str]
    end: str = "\n"  # of each line
    mark: str = "//!"
    last: str = "\n"  # of the last line


def texts(trace):
    """The two texts, as bytes."""
    told = trace.end.join(f"{trace.mark}{it}" for it in trace.lines) + (trace.last if trace.lines else "")
    return trace.source.encode("latin-1"), (trace.target + told).encode("latin-1")


# true traces


def spelt(dice, gate, register):
    """A gate as a statement."""
    if gate[0] == "P":
        form = PHASES.get(gate[1]) if dice.random() < 0.5 else None
        form = form or f"u1({gate[1]}*pi/4) {{}};"
    else:
        form = dice.choice(PLAIN[gate[0]])
    return form.format(*(f"{register}[{it}]" for it in gate_lists.wires_of(gate)))


def gate_on(dice, size):
    """Any gate on so many wires."""
    a, b = dice.sample(range(max(size, 2)), 2)
    kinds = [("H", a % size), ("X", a % size), ("P", dice.randint(1, 7), a % size)] + [("C", a, b)] * (2 if size > 1 else 0)
    return dice.choice(kinds)


def pattern(dice, size):
    """Gates that some line takes away or rewrites."""
    count, make = dice.choice([it for it in PATTERNS if it[0] <= size])
    return make(*dice.sample(range(size), count))


def exchanged(dice, listed, times):
    """The list with some neighbours exchanged that commute."""
    found = list(listed)
    for _ in range(times if len(found) > 1 else 0):
        i = dice.randrange(len(found) - 1)
        if gate_lists.commute(found[i], found[i + 1]):
            found[i : i + 2] = found[i + 1], found[i]
    return found


def source_of(dice, size):
    """A program's text."""
    parts = [pattern(dice, size) if dice.random() < 0.6 else [gate_on(dice, size)] for _ in range(dice.randint(0, 6))]
    listed = exchanged(dice, [gate for part in parts for gate in part], 20)
    lines = [spelt(dice, it, "q") for it in listed]
    for form, count in dice.sample(OTHERS, dice.choice([0, 0, 0, 1, 2])):
        if count <= size:
            on = (f"q[{it}]" for it in dice.sample(range(size), count))
            lines.insert(dice.randint(0, len(lines)), form.format(*on))
    return f"{HEAD}qreg q[{size}];\n" + "".join(f"{it}\n" for it in lines)


def nothing(dice, size):
    """Gates whose phases come to nothing, though each stands on a sum of its own; none on one wire."""
    fits = [it for it in NOTHING if it[1] <= size]
    if not fits:
        return []
    number, count = dice.choice(fits)
    return sums_of(dice.sample(range(size), count), lambda on: number)


def sums_of(wires, phase_of):
    """Gates that bring wires to each sum of them and back, with a phase there."""
    found = []
    for i, wire in enumerate(wires):
        on = 1 << i
        for step in range(1, (1 << i) + 1):
            found.append(("P", phase_of(on) % 8, wire))
            if i:
                added = min((step & -step).bit_length() - 1, i - 1)
                found.append(("C", wires[added], wire))
                on ^= 1 << added
    return [it for it in found if it[:2] != ("P", 0)]


def same_sums(dice, size, listed, is_function=False):
    """Another list with the same path sum up to a turn; with `is_function` one whose phases are the same function."""
    found = list(listed)
    for _ in range(dice.randint(1, 5)):
        i = dice.randint(0, len(found))
        kind = dice.randrange(4)
        if kind == 0:
            found[i:i] = inverses(dice, size)
        elif kind == 1 and (both := moved(found[i : i + 2])):
            found[i : i + 2] = both
        elif kind == 2 and is_function:
            found[i:i] = nothing(dice, size)
        else:
            found = exchanged(dice, found, 3)
    return found


def inverses(dice, size):
    """Two gates that do nothing, and no H."""
    gate = next(it for it in iter(lambda: gate_on(dice, size), None) if it[0] != "H")
    return [gate, ("P", 8 - gate[1], gate[2]) if gate[0] == "P" else gate]


def moved(pair):
    """What an X and the gate after it on its wire are, with the X after it; None if they aren't such."""
    if len(pair) < 2 or pair[0][0] != "X":
        return None
    (_, wire), gate = pair
    if gate[0] == "P" and gate[-1] == wire:
        return [("P", 8 - gate[1], wire), ("X", wire)]
    if gate == ("H", wire):
        return [gate, ("P", 4, wire)]
    if gate[0] == "C" and gate[1] == wire:
        return [gate, ("X", wire), ("X", gate[2])]
    return None


def listed_lines(word, listed):
    """A line that takes gates, and theirs."""
    return [f"{word} {len(listed)}", *map(gate_lists.shown, listed)]


def undone(dice, size, listed):
    """A list that some lines turn into this one, and these lines."""
    i = dice.randint(0, len(listed))
    gate = listed[i] if i < len(listed) else None
    new, line = backwards(dice, size, gate, i)
    if new is not None:
        return listed[:i] + new + listed[i + (gate is not None and not line.startswith("both")) :], [line]
    kind = dice.randrange(3)
    if kind == 0:
        return same_sums(dice, size, listed), listed_lines("sums", listed)
    if kind == 1:
        return same_sums(dice, size, listed, True), listed_lines("phases", listed)
    j = dice.randint(i, len(listed))
    new = same_sums(dice, size, listed[i:j])
    return listed[:i] + new + listed[j:], listed_lines(f"part {i} {i + len(new)}", listed[i:j])


def backwards(dice, size, gate, i):
    """Gates in place of one at place i, or before it, and the line that turns them into what was there; None for other lines."""
    kind = gate and dice.choice([gate[0], "pair", "other"])
    wire = gate and gate[-1]
    if kind == "P" and gate[1] == 4:
        return [("H", wire), ("X", wire), ("H", wire)], f"rule 4 {i}"
    if kind == "P":
        first = dice.choice([k for k in range(1, 8) if k != gate[1]])
        return [("P", first, wire), ("P", (gate[1] - first) % 8, wire)], f"join {i} {i + 1}"
    if kind == "X":
        return [("H", wire), ("P", 4, wire), ("H", wire)], f"rule 3 {i}"
    if kind == "C":
        around = [("H", gate[1]), ("H", wire)]
        return [*around, ("C", wire, gate[1]), *around], f"rule 5 {i}"
    if kind != "other":
        on = dice.randrange(size)
        return [("H", on), ("H", on)] if dice.random() < 0.5 else inverses(dice, size), f"both {i} {i + 1}"
    return None, ""


class Author:
    """Writes a true trace of a source, line by line, with the checker of `traces` at hand."""

    def __init__(self, dice, source):
        self.dice = dice
        self.size, operations = traces.side("source", source)
        self.qubits = self.size + dice.choice([0, 0, 1])
        self.check = traces.Check((self.size, operations), (self.qubits, []), ["TRACE 2", "part 0 0 0"])
        self.more([])

    def more(self, lines):
        """The next lines."""
        self.check.lines += lines
        while self.check.done < len(self.check.lines):
            self.check.step()

    def listed(self):
        return self.check.list.listed()

    def steps(self):
        """All windows and pairs that there are, as lines."""
        check, found = self.check, []
        for i in range(len(check.list)):
            slot = check.slot(i)
            found += [f"rule {k} {i}" for k, row in traces.TURNED.items() if check.turned(slot, *row)]
            found += [f"rule 5 {i}"] if check.surrounded(slot) else []
            found += [f"rule {k} {i}" for k, phase in traces.CONJUGATED.items() if check.conjugated(slot, phase)]
            for j in range(i + 1, len(check.list)):
                left = gate_lists.cancelled(check.gate(slot), check.gate(check.slot(j)))
                if left and all(gate_lists.commute(check.gate(slot), check.gate(it)) for it in check.list.between(slot, check.slot(j))):
                    found.append(f"{left[0]} {i} {j}")
        return found

    def rewrite(self, is_in_goal=False):
        """A step above `place`, of any kind."""
        dice, listed = self.dice, self.listed()
        kind = dice.choice(["step", "step", "step", "step", "sums", "phases", "part", "goal"])
        if kind == "step":
            # of each word, and of each rule, as often
            steps = self.steps()
            found = {it[:6] if it.startswith("rule") else it[:4]: it for it in dice.sample(steps, len(steps))}
            self.more([dice.choice(list(found.values()))] if found else [])
        elif kind in ("sums", "phases"):
            self.more(listed_lines(kind, same_sums(dice, self.size, listed, kind == "phases")))
        elif kind == "part":
            i = dice.randint(0, len(listed))
            j = dice.randint(i, len(listed))
            self.more(listed_lines(f"part {i} {j}", same_sums(dice, self.size, listed[i:j])))
        elif not is_in_goal:
            self.goal(listed)

    def goal(self, listed):
        """Steps that are told backwards."""
        told = []
        for _ in range(self.dice.randint(0, 3)):
            listed, lines = undone(self.dice, self.size, listed)
            told = [lines, *told]
        self.more(listed_lines("goal", listed))
        for lines in told:
            self.more(lines)
        self.more(["meet"])

    def write(self):
        """All lines behind `place`."""
        self.more([f"place {' '.join(map(str, self.dice.sample(range(self.qubits), self.qubits)))}".strip()])
        while len(self.check.list) or self.dice.random() < 0.1:
            if self.qubits > 1 and self.dice.random() < 0.15:
                u, v = self.dice.sample(range(self.qubits), 2)
                self.more([f"{self.dice.choice(['swap', 'turn'])} {u} {v}"])
            elif len(self.check.list):
                self.more([self.dice.choice(self.ready())])

    def ready(self):
        """The lines that take a gate before which none stands."""
        check, found = self.check, []
        for i in range(len(check.list)):
            slot = check.slot(i)
            gate = check.gate(slot)
            if any((slot, wire) in check.list.before for wire in gate_lists.wires_of(gate)):
                continue
            found.append(f"emit {i}")
            if gate[0] == "C":
                found += [f"back {i}"] + [f"elide {i}"] * (9 if self.begins_swap(slot, gate) else 0)
        return found

    def begins_swap(self, slot, gate):
        _, control, target = gate
        for wanted in (("C", target, control), gate):
            found = {self.check.list.behind.get((slot, it)) for it in (control, target)}
            slot = found.pop()
            if found or slot is None or self.check.gate(slot) != wanted:
                return False
        return True

    def whole(self):
        """The target's text, and all lines."""
        body = "".join(f"{spelt(self.dice, it, 'r')}\n" for it in self.check.written)
        target = f"{HEAD}qreg r[{self.qubits}];\n{body}"
        _, operations = traces.side("target", target)
        self.check.target, self.check.target_turns = gate_lists.expanded(operations)
        self.more([f"end {(self.check.turns - self.check.target_turns) % 8}"])
        first, filler, *rest = self.check.lines
        is_second = any(it.startswith(tuple(traces.LATER)) for it in rest)
        if self.dice.random() < 0.8:
            return target, [first if is_second else "TRACE 1", *rest]
        return target, [first, filler, *rest]


def drawn(dice):
    """A true trace."""
    source = source_of(dice, dice.randint(1, MOST_WIRES))
    author = Author(dice, source)
    for _ in range(dice.randint(0, 6)):
        author.rewrite()
    author.write()
    return Trace(source, *author.whole())


# what is altered


def dropped(dice, lines):
    del lines[dice.randrange(len(lines))]


def doubled(dice, lines):
    i = dice.randrange(len(lines))
    lines.insert(i, lines[i])


def moved_away(dice, lines):
    line = lines.pop(dice.randrange(len(lines)))
    lines.insert(dice.randint(0, len(lines)), line)


def with_neighbour(dice, lines):
    i = dice.randrange(max(1, len(lines) - 1))
    lines[i : i + 2] = lines[i : i + 2][::-1]


def cut_off(dice, lines):
    del lines[dice.randrange(len(lines)) :]


def inserted(dice, lines):
    wire, other = dice.randrange(4), dice.randrange(4)
    forms = ["part 0 0 0", "sums 0", "phases 0", "goal 0", "meet", "end 0", "TRACE 1", "TRACE 2", "", "emit 0", f"swap {wire} {other}"]
    forms += [f"both {wire} {other}", f"join {wire} {other}", f"part {wire} {other} 0", f"back {wire}", f"elide {wire}", "place 0 1"]
    lines.insert(dice.randint(0, len(lines)), dice.choice(forms))


def numbered(dice, lines):
    """One number of a line another."""
    i = dice.randrange(len(lines))
    word, *numbers = lines[i].split(" ")
    found = [j for j, it in enumerate(numbers) if it.isascii() and it.isdecimal()]
    if found:
        j = dice.choice(found)
        number = int(numbers[j])
        other = dice.choice([number + 1, number - 1, number + 1, number - 1, 0, number + 8, 2**32 - 1, 2**32, 2**64 + number])
        numbers[j] = str(other)
        lines[i] = " ".join([word, *numbers])


def numbers_exchanged(dice, lines):
    """Two numbers of a line exchanged."""
    i = dice.randrange(len(lines))
    word, *numbers = lines[i].split(" ")
    if len(numbers) > 1:
        a, b = dice.sample(range(len(numbers)), 2)
        numbers[a], numbers[b] = numbers[b], numbers[a]
        lines[i] = " ".join([word, *numbers])


def reworded(dice, lines):
    i = dice.randrange(len(lines))
    word, *numbers = lines[i].split(" ")
    words = [*traces.WORDS, *traces.LATER, "H", "X", "P", "C", word.upper(), word.lower(), word[:-1], f"{word}s"]
    lines[i] = " ".join([dice.choice(words), *numbers])


def another_edition(dice, lines):
    lines[0] = dice.choice(["TRACE 1", "TRACE 2", "TRACE 2", "TRACE 3", "TRACE 0", "TRACE", "TRACE 1 1"])


def blanks(dice, lines):
    """Blanks, signs, zeros and ends of lines where none belong."""
    i = dice.randrange(len(lines))
    line = lines[i]
    j = dice.randint(0, len(line))
    at_digit = [j for j, it in enumerate(line) if it.isascii() and it.isdecimal()]
    forms = [f"{line} ", f" {line}", f"{line}\r", f"{line}\t", line.replace(" ", "  ", 1), line.replace(" ", "\t", 1), f"{line[:j]}\x00{line[j:]}"]
    forms += [f"{line}//", f"{line[:j]}\xe9{line[j:]}", f"{line[:j]}\n{line[j:]}", line[:j], f"{line[:j]}\x0c{line[j:]}", f"{line}\x0b"]
    for sign in ("0", "+", "-") if at_digit else ():
        j = dice.choice(at_digit)
        forms.append(f"{line[:j]}{sign}{line[j:]}")
    lines[i] = dice.choice(forms)


LINES = [dropped, doubled, moved_away, with_neighbour, cut_off, inserted, numbered, numbered, numbered, numbers_exchanged, reworded, another_edition, blanks]


def statement_altered(dice, text):
    """A program with one of its statements dropped, doubled, moved, altered or added."""
    lines = text.split("\n")[:-1]
    first = 3 if len(lines) > 3 and dice.random() < 0.95 else 0
    i = dice.randrange(first, len(lines))
    kind = dice.randrange(6)
    if kind == 0:
        del lines[i]
    elif kind == 1:
        lines.insert(i, lines[i])
    elif kind == 2:
        j = dice.randrange(first, len(lines))
        lines[i], lines[j] = lines[j], lines[i]
    elif kind == 3:
        was, now = dice.choice([("[0]", "[1]"), ("[1]", "[0]"), ("[1]", "[2]"), ("t", "tdg"), ("x", "y"), ("pi", "2*pi"), ("/4", "/2"), ("*pi/4", "*pi/8")])
        lines[i] = lines[i].replace(was, now, 1)
    elif kind == 4:
        lines.insert(i, dice.choice(["h q[0];", "x r[0];", "barrier q;", "id q[0];", "t r[0];", "u1(8*pi/4) q[0];", "// nothing", ""]))
    else:
        lines.insert(i, dice.choice(FOREIGN))
    return "".join(f"{it}\n" for it in lines)


# statements that some place of a program refuses, and some don't
FOREIGN = [
    'include "qelib1.inc";', "include 'qelib1.inc';", "qreg q[1];", "qreg r[1];", "creg q[1];", "qreg h[1];", "qreg p[1];", "creg c[2];",
    "gate h a { x a; }", "gate p(t) a { u1(t) a; }", "gate g a,a { cx a,a; }", "gate g(a) a { x a; }", "gate g a { barrier b; }",
    "gate g a { x a; } gate g a { x a; }", "gate g a { g a; }", "gate g a { x a; }", "gate U a { x a; }", "gate Up a { x a; }", "gate pi a { }",
    "opaque g a; g q[0];", "opaque g a;", "opaque h a;", "reset q[0];", "if(c==0) x q[0];", "creg c[1]; measure q -> c[0];",
    "creg c[1]; measure q[0] -> c[0];", "creg c[1]; measure q[0] -> c[0]; x q[0];", "OPENQASM 2.0;", "CX() q[0],q[1];", "h() q[0];",
    "u1(pi/8) q[0];", "u1(0*1.0e-20) q[0];", "u1(sin(0)) q[0];", "qreg s[0];", "qreg s[256];", "x q[4294967296];", "cx q[0],q[0];", "id q",
    "barrier q,q;", "barrier s;", "rx(1/0) q[0];", "u1((((pi)))) q[0];", "\x0c", "\xe9", "U(0,0) q[0];", "gate g(t) a { u1(u) a; }",
]  # fmt: skip
HEADS = [
    ("OPENQASM 2.0;", "OPENQASM 3.0;"), ("OPENQASM 2.0;", "OPENQASM 2.00;"), ("OPENQASM 2.0;", "OPENQASM 2.1;"), ("OPENQASM 2.0;", "OPENQASM 2;"),
    ("OPENQASM 2.0;", "OPENQASM 0.2e1;"), ('include "qelib1.inc";\n', ""), ('include "qelib1.inc";', 'include "stdgates.inc";'),
    ('include "qelib1.inc";', "gate t a { x a; }"), ('include "qelib1.inc";', 'gate x a { U(pi,0,pi) a; } include "qelib1.inc";'),
    ('include "qelib1.inc";', 'gate sx a { U(pi,0,pi) a; } include "qelib1.inc";'), ("OPENQASM", "\xef\xbb\xbfOPENQASM"), (";\n", ";\r\n"),
    ("qreg q[4]", "qreg q[2]; qreg p2[2]"), ("qreg q[2]", "qreg q[3]"), ("qreg q[3]", "qreg q[2]"), ("qreg r[3]", "qreg r[4]"),
]  # fmt: skip


def altered(dice, trace):
    """A trace with alterations, mostly one."""
    found = dataclasses.replace(trace, lines=list(trace.lines))
    for _ in range(dice.choice([0, 1, 1, 1, 1, 1, 2, 3])):
        kind = dice.random()
        if kind < 0.72:
            if found.lines:
                dice.choice(LINES)(dice, found.lines)
        elif kind < 0.80:
            found.source = statement_altered(dice, found.source)
        elif kind < 0.90:
            found.target = statement_altered(dice, found.target)
        elif kind < 0.96:
            was, now = dice.choice(HEADS)
            which = dice.choice(["source", "target"])
            setattr(found, which, getattr(found, which).replace(was, now, 1))
        else:
            ends_altered(dice, found)
    return found


def ends_altered(dice, trace):
    """Other ends of lines, or another mark before each."""
    kind = dice.randrange(6)
    if kind == 0:
        trace.end = "\r\n"
    elif kind == 1:
        trace.mark = dice.choice(["// !", " //!", "//! ", "//!!", "///"])
    elif kind == 2:
        trace.last = ""
    elif kind == 3:
        trace.end = "\n\n// nothing\n"
    elif kind == 4:
        trace.target = trace.target[:-1]
    else:
        trace.target, trace.lines = "".join(f"//!{it}\n" for it in trace.lines) + trace.target, []
