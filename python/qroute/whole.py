"""Whole programs: any angle, `reset`, `if`, measurements anywhere, by barriers that are kept.

A statement on one wire that `qroute` can't take becomes a barrier on that wire. The report tells on which qubit the wire is at
each barrier, and there the statement is put back. Gates on more wires are written out to CNOTs and gates on one wire first.

What is proved and what is not is said in one sentence, `PROVED`.
"""

from __future__ import annotations

import collections
import collections.abc
import dataclasses
import heapq
import os
import re
import tempfile
import typing

import qroute

from . import angles as near
from . import declarations, qasm

PROVED = (
    "Proved, part by part: the CNOTs, the Clifford+T gates, the placements and the order on each qubit, of the program with barriers "
    "in place of its other gates; tested and not proved: that this is the source written out, with angles near a multiple of pi/4 made "
    "exact as `exact` tells, and that each other gate is put back unchanged where its wire is."
)
TRIES = 20


class Unreadable(qroute.QrouteError):
    """The text can't be read. `line` and `column`, from 1, tell where, and `offset` in bytes."""

    def __init__(self, says: str, text: str, offset: int) -> None:
        self.offset = offset
        self.line, self.column = near.Places(text).of(offset)
        super().__init__(f"line {self.line}, column {self.column}: {says}")


@dataclasses.dataclass(frozen=True)
class AnyGates:
    """What was done so that a program with any gates could be taken.

    `put_back` counts the statements put back by name, at so many `barriers`. `exact` are the angles that were made exact, and
    `declared` the gates that the program applies and neither it nor the tables have. `tries` is how many tries the router was
    asked for, None if the program doesn't know that. `told` is the report of the program with its barriers, and `proved` says
    what of the result is proved.
    """

    put_back: dict[str, int]
    barriers: int
    exact: tuple[near.Change, ...]
    declared: tuple[str, ...]
    tries: int | None
    told: dict[str, typing.Any] = dataclasses.field(repr=False)
    proved: str = PROVED


@dataclasses.dataclass
class Statement:
    """A statement: what stands before its wires and after them. One that isn't exact is put back at a barrier."""

    name: str
    before: str
    wires: list[int]
    offset: int
    is_exact: bool
    bits: collections.abc.Sequence[int] = ()
    after: str = ""
    gate: typing.Any = None

    def written(self, qubits: collections.abc.Sequence[str]) -> str:
        return f"{self.before} {','.join(qubits[it] for it in self.wires)}{self.after};"


class Whole:
    """A program, read and cut in statements that `qroute` takes and those that are put back."""

    def __init__(self, text: str, keep_barriers: bool, within: float) -> None:
        self.text = text
        self.within = within
        self.places = near.Places(text)
        self.exact: dict[near.Change, None] = {}  # each once, in the order of the text
        try:
            self.program = qasm.read(text, whole=True, known=declarations.TABLE)
        except qasm.Fault as fault:
            raise Unreadable(str(fault), text, fault.offset) from None
        self.bits = self.registers()
        self.known = {id(it): it for it in self.program.borrowed.values()}
        self.by_name = self.kept_by_name()
        self.checked: dict[typing.Any, bool] = {}
        self.statements: list[Statement] = []
        for step in self.program.steps:
            if step.kind != "barrier" or keep_barriers:
                self.read(step)
        self.look_at_opaque()
        self.mark_last_measurements()

    def registers(self) -> dict[str, range]:
        """The bits of each classical register."""
        found, first = {}, 0
        for name, size in self.program.registers:
            found[name] = range(first, first + size)
            first += size
        return found

    def kept_by_name(self) -> set[int]:
        """The gates that `qroute` may be handed by name: those of the tables, and declared ones over these under names of their own."""
        library = qasm.library()
        found = {id(it) for it in library.values()} | set(self.known)
        for name, gate in self.program.gates.items():
            is_own = name not in library and name not in declarations.TABLE and not gate.is_opaque
            is_own = is_own and all(it[0].islower() and it not in qasm.KEYWORDS for it in (name, *gate.params, *gate.qubits))
            if is_own and all(id(inner) in found for inner, _, _ in gate.body):
                found.add(id(gate))
        return found

    # From steps to statements

    def read(self, step: qasm.Step) -> None:
        try:
            if step.kind == "gate" and step.condition is not None:
                self.conditional(step)
            elif step.kind == "gate":
                self.applied(step)
            else:
                self.other(step)
        except ValueError as fault:
            raise Unreadable(str(fault), self.text, step.offset) from None

    def other(self, step: qasm.Step) -> None:
        """A measurement, a reset or a barrier."""
        after = f" -> {self.program.bits[step.bit]}" if step.kind == "measure" else ""
        bits = [step.bit] if step.kind == "measure" else []
        self.add(Statement(step.kind, step.kind, step.wires, step.offset, False, bits, after), step.condition)

    def add(self, found: Statement, condition: tuple[str, int] | None = None) -> None:
        """Adds a statement, under a condition if there is one."""
        if condition is not None:
            name, value = condition
            found.before = f"if({name}=={value}) {found.before}"
            found.bits = [*self.bits[name], *found.bits]
        self.statements.append(found)

    def applied(self, step: qasm.Step) -> None:
        """A gate, whole if it is exact or on one wire, else written out."""
        if id(step.gate) in self.by_name and self.take(step.gate, step.angles, step.wires, step.offset, step.said):
            return
        self.written_out(step)

    def written_out(self, step: qasm.Step) -> None:
        waiting = [iter([(step.gate, step.angles, step.wires)])]
        while waiting:
            piece = next(waiting[-1], None)
            if piece is None:
                waiting.pop()
            elif not self.piece(*piece, step):
                waiting.append(qasm.body_of(*piece))

    def piece(self, gate: qasm.Gate, angles: list[typing.Any], wires: list[int], step: qasm.Step) -> bool:
        """Adds a gate of a gate's body if it needn't be written out further."""
        if gate is qasm.CX:
            self.add(Statement("cx", "cx", wires, step.offset, True))
        elif gate.is_opaque and len(wires) > 1:
            raise ValueError(f"the opaque gate {gate.name} is on {len(wires)} wires")
        elif gate.is_opaque:
            said = step.said if gate is step.gate else called(gate, angles)
            self.add(Statement(gate.name, said, wires, step.offset, False, gate=gate))
        elif qasm.is_of_tables(gate):
            return self.take(gate, angles, wires, step.offset)
        else:
            return False
        return True

    def take(self, gate: qasm.Gate, angles: list[typing.Any], wires: list[int], offset: int, said: str = "") -> bool:
        """Adds a gate of the tables, or one that may be handed on by name, if it is exact, or on one wire and the tables' own.

        Near angles of the tables' own gates and of exporters' are made exact; one of the program's own may multiply what it is given.
        """
        is_own = not qasm.is_of_tables(gate) and id(gate) not in self.known
        settled = [(it, 0.0) if is_own else near.nearest(it, self.within) for it in angles]
        values = [it for it, _ in settled]
        if self.is_exact(gate, values):
            self.tell(offset, angles, settled)
            is_as_said = said and all(one is other for one, other in zip(angles, values))
            self.add(Statement(gate.name, said if is_as_said else called(gate, values), wires, offset, True, gate=gate))
            return True
        if len(wires) == 1 and qasm.is_of_tables(gate):
            self.add(Statement(gate.name, said or called(gate, angles), wires, offset, False))
            return True
        return False

    def tell(self, offset: int, angles: list[typing.Any], settled: list[typing.Any]) -> None:
        """Notes the angles that were made exact."""
        for old, (new, distance) in zip(angles, settled):
            if new is not old:
                self.exact[near.Change(*self.places.of(offset), near.spelled(old), near.spelled(new), distance)] = None

    def is_exact(self, gate: qasm.Gate, angles: list[typing.Any]) -> bool:
        """Whether a gate with these angles has multiples of pi/4 alone when it is written out."""
        key = (id(gate), *angles)
        if key not in self.checked:
            wires = range(len(gate.qubits))
            self.checked[key] = all(is_plain(inner, values) for inner, values, _ in qasm.applied(gate, angles, wires))
        return self.checked[key]

    def conditional(self, step: qasm.Step) -> None:
        """A gate under a condition: its gates on one wire are under it, its CNOTs are made so that without them nothing happens."""
        pieces = list(leaves(step.gate, step.angles, step.wires))
        is_nothing = undoes_itself([wires for gate, _, wires in pieces if gate is qasm.CX])
        for gate, angles, wires in pieces:
            if gate is not qasm.CX:
                is_whole = len(step.wires) == 1 and gate is step.gate
                before = step.said if is_whole else called(gate, angles)
                kept = gate if gate.is_opaque else None
                self.add(Statement(gate.name, before, wires, step.offset, False, gate=kept), step.condition)
            elif is_nothing:
                self.add(Statement("cx", "cx", wires, step.offset, True))
            else:
                self.conditional_cnot(wires, step)

    def conditional_cnot(self, wires: list[int], step: qasm.Step) -> None:
        """A CNOT under a condition: h t; s c; s t; cx; sdg t; cx; h t, of which the three phases alone are under it."""
        control, target = wires
        rows = [("h", [target], 0), ("s", [control], 1), ("s", [target], 1), ("cx", wires, 0), ("sdg", [target], 1)]
        for name, on, is_under in [*rows, ("cx", wires, 0), ("h", [target], 0)]:
            gate = qasm.library()[name]
            self.add(Statement(name, name, on, step.offset, not is_under, gate=gate), step.condition if is_under else None)

    def mark_last_measurements(self) -> None:
        """Measurements with nothing after them on their bit, and only such ones on their wire, are `qroute`'s own."""
        wires: set[int] = set()
        bits: set[int] = set()
        for it in reversed(self.statements):
            if it.before == "measure" and wires.isdisjoint(it.wires) and bits.isdisjoint(it.bits):
                it.is_exact = True
            elif it.name != "barrier":
                wires.update(it.wires)
            bits.update(it.bits)

    # From statements to the text that `qroute` is handed

    def groups(self) -> collections.abc.Iterator[list[Statement]]:
        """The statements in an order that keeps that of each wire and bit: by turns exact ones, and ones that are put back.

        Each is as early as can be, so that there are few groups. Measurements that are `qroute`'s own come last.
        """
        listed = [it for it in self.statements if not (it.is_exact and it.before == "measure")]
        size = len(self.program.wires)
        last: dict[int, int] = {}
        after: list[list[int]] = [[] for _ in listed]
        missing = []
        for i, it in enumerate(listed):
            on = range(size) if it.name == "barrier" else it.wires
            touched = [*on, *(size + bit for bit in it.bits)]
            before = {last[key] for key in touched if key in last}
            missing.append(len(before))
            for other in before:
                after[other].append(i)
            last.update(dict.fromkeys(touched, i))
        ready: tuple[list[int], list[int]] = ([], [])
        for i, it in enumerate(listed):
            if not missing[i]:
                ready[it.is_exact].append(i)
        kind = True
        while ready[0] or ready[1]:
            group = []
            while ready[kind]:
                i = heapq.heappop(ready[kind])
                group.append(listed[i])
                for other in after[i]:
                    missing[other] -= 1
                    if not missing[other]:
                        heapq.heappush(ready[listed[other].is_exact], other)
            if group:
                yield group
            kind = not kind
        if ends := [it for it in self.statements if it.is_exact and it.before == "measure"]:
            yield ends

    def handed(self) -> "Handed":
        """The text that `qroute` is handed, and what is to be put back at each of its barriers."""
        names = {it for it, _ in self.program.registers} | set(self.program.gates) | set(declarations.TABLE)
        register = next(f"q{'_' * i}" for i in range(len(names) + 1) if f"q{'_' * i}" not in names)
        qubits = [f"{register}[{i}]" for i in range(len(self.program.wires))]
        groups = list(self.groups())
        lines = [("OPENQASM 2.0;", 0), ('include "qelib1.inc";', 0)]
        lines += [(it.text, it.offset) for it in self.needed(groups)]
        lines += [(f"qreg {register}[{len(qubits)}];", 0)] if qubits else []
        lines += [(f"creg {name}[{size}];", 0) for name, size in self.program.registers]
        put_back = []
        for group in groups:
            if group[0].is_exact:
                lines += [(it.written(qubits), it.offset) for it in group]
            else:
                wires = list(dict.fromkeys(wire for it in group for wire in it.wires))
                lines.append((f"barrier {','.join(qubits[it] for it in wires)};", group[0].offset))
                put_back.append((wires, group))
        return Handed("".join(f"{line}\n" for line, _ in lines), [it for _, it in lines], put_back)

    def needed(self, groups: list[list[Statement]]) -> list[qasm.Gate]:
        """The gates whose declarations are handed on, in order."""
        wanted = {id(it.gate) for group in groups for it in group if it.is_exact}
        declared = [it for name, it in self.program.gates.items() if name not in qasm.library()]
        for gate in reversed(declared):
            if id(gate) in wanted:
                wanted |= {id(inner) for inner, _, _ in gate.body}
        return [it for it in [*self.known.values(), *declared] if id(it) in wanted and it.text]

    def opaque(self) -> dict[str, str]:
        """The declarations of the opaque gates that are put back, by their names."""
        return {it.gate.name: it.gate.text for it in self.statements if it.gate is not None and it.gate.is_opaque}

    def look_at_opaque(self) -> None:
        """Whether what is written, which includes the tables, means each opaque gate by its name."""
        by_tables = {it.name for it in self.statements if not it.is_exact and (it.gate is None or not it.gate.is_opaque)}
        for it in self.statements:
            is_clear = it.name not in qasm.library() or (it.name in qasm.LATER and it.name not in by_tables)
            if it.gate is not None and it.gate.is_opaque and not is_clear:
                raise Unreadable(f"the opaque gate {it.name} has the name of another gate", self.text, it.offset)


@dataclasses.dataclass
class Handed:
    """A text for `qroute`, the offset in the source of each of its lines, and the statements at each barrier, with its wires."""

    text: str
    offsets: list[int]
    put_back: list[tuple[list[int], list[Statement]]]


def is_plain(gate: qasm.Gate, angles: list[typing.Any]) -> bool:
    """Whether a gate's angles have exact values, and if it is U are multiples of pi/4."""
    if gate is qasm.U:
        return None not in map(qasm.eighths, angles)
    return not gate.is_opaque and not any(isinstance(it, float) for it in angles)


def called(gate: qasm.Gate, angles: list[typing.Any]) -> str:
    """A gate's name with its angles."""
    return f"{gate.name}({','.join(map(near.spelled, angles))})" if angles else gate.name


def leaves(gate: qasm.Gate, angles: list[typing.Any], wires: list[int]) -> collections.abc.Iterator[tuple[qasm.Gate, list[typing.Any], list[int]]]:
    """A gate written out to CNOTs and gates of the tables on one wire."""
    waiting = [iter([(gate, angles, wires)])]
    while waiting:
        piece = next(waiting[-1], None)
        if piece is None:
            waiting.pop()
        elif piece[0].is_opaque and len(piece[2]) > 1:
            raise ValueError(f"the opaque gate {piece[0].name} is on {len(piece[2])} wires")
        elif piece[0] in (qasm.CX, qasm.U) or piece[0].is_opaque:
            yield piece
        elif len(piece[2]) == 1 and qasm.library().get(piece[0].name) is piece[0]:
            yield piece
        else:
            waiting.append(qasm.body_of(*piece))


def undoes_itself(cnots: list[list[int]]) -> bool:
    """Whether CNOTs one after another do nothing."""
    rows = {wire: {wire} for pair in cnots for wire in pair}
    for control, target in cnots:
        rows[target] = rows[target] ^ rows[control]
    return all(row == {wire} for wire, row in rows.items())


def opt(text: str | bytes, *, keep_barriers: bool, within: float, timeout: float | None) -> qroute.Result:
    """`qroute.opt` of a program with any gates."""
    return _made(text, keep_barriers, within, lambda handed: _run(["opt", "--keep-barriers"], handed, timeout), None)


def route(
    text: str | bytes,
    device: qroute.Device,
    begins: list[str],
    tries: int | None,
    *,
    keep_barriers: bool,
    clean: bool,
    within: float,
    timeout: float | None,
) -> qroute.Result:
    """`qroute.route` of a program with any gates; `begins` are the words that say where its wires begin, if they are told."""
    if tries is None and not begins:
        tries = TRIES
    flags = begins + qroute.tries_words(tries) + qroute.flags(keep_barriers=True, clean=clean)

    def run(handed: str) -> tuple[str, dict[str, typing.Any]]:
        with tempfile.TemporaryDirectory() as room:
            path = os.path.join(room, "device.toml")
            with open(path, "w", encoding="utf-8") as file:
                file.write(device.text)
            return _run(["route", "--device", path, *flags], handed, timeout)

    return _made(text, keep_barriers, within, run, tries)


def _run(words: list[str], handed: str, timeout: float | None) -> tuple[str, dict[str, typing.Any]]:
    return qroute.run(words, handed.encode("latin-1"), timeout)


def _made(
    text: str | bytes,
    keep_barriers: bool,
    within: float,
    run: collections.abc.Callable[[str], tuple[str, dict[str, typing.Any]]],
    tries: int | None,
) -> qroute.Result:
    near.look_at_within(within)
    data = qroute.as_bytes(text)
    source = Whole(qasm.text_of(data), keep_barriers, within)
    handed = source.handed()
    try:
        written, told = run(handed.text)
    except qroute.Refused as fault:
        raise _moved(fault, handed, data) from None
    qroute.look_at_report(told, "between", "parts", "barriers")
    found = [it for _, group in handed.put_back for it in group]
    any_gates = AnyGates(
        put_back=dict(collections.Counter(it.name for it in found if it.name != "barrier")),
        barriers=len(handed.put_back),
        exact=tuple(source.exact),
        declared=tuple(source.program.borrowed),
        tries=tries,
        told=told,
    )
    whole = _put_back(written, told, handed, source.opaque())
    report = _report(told, handed, source, keep_barriers)
    return dataclasses.replace(qroute.result(whole, report), any_gates=any_gates)


def _moved(fault: qroute.Refused, handed: Handed, data: bytes) -> qroute.Refused:
    """A refusal of the text that was handed on, at the place of the source that its line comes from."""
    told = {key: value for key, value in fault.told.items() if key not in ("statement", "place")}
    if fault.line is not None:
        told["place"] = handed.offsets[min(fault.line, len(handed.offsets)) - 1]
    return qroute.Refused(told, fault.status, data)


def _put_back(written: str, told: dict[str, typing.Any], handed: Handed, opaque: dict[str, str]) -> str:
    """The written program with each barrier replaced by its statements, on the qubits of their wires."""
    lines = written.split("\n")
    register = next((line.split()[1].partition("[")[0] for line in lines if line.startswith("qreg ")), "q")
    if register in opaque:
        taken = {*opaque, *(line.split()[1].partition("[")[0] for line in lines if line.startswith("creg "))}
        own = next(it for it in (register + "_" * i for i in range(len(taken) + 1)) if it not in taken)
        lines = [re.sub(rf"\b{register}\[", f"{own}[", line) for line in lines]
        register = own
    if len(told["between"]) != len(handed.put_back):
        raise qroute.QrouteError(f"the report tells of {len(told['between'])} barriers, and {len(handed.put_back)} were asked for")
    waiting = iter(zip(handed.put_back, told["between"]))
    found = []
    for line in lines:
        if not line.startswith("barrier "):
            found.append(line)
            continue
        (wires, group), placement = next(waiting)
        qubits = [f"{register}[{it}]" for it in placement]
        if line != f"barrier {','.join(qubits[it] for it in wires)};":
            raise qroute.QrouteError(f"the written program has {line!r} where wires {wires} were asked for")
        found += [it.written(qubits) for it in group]
    if next(waiting, None) is not None:
        raise qroute.QrouteError("the written program has fewer barriers than it was asked for")
    return "\n".join([*found[:2], *opaque.values(), *found[2:]])


def _report(told: dict[str, typing.Any], handed: Handed, source: Whole, keep_barriers: bool) -> dict[str, typing.Any]:
    """The report of the whole: barriers and parts are the source's own, the others being put back."""
    ends = [i for i, (_, group) in enumerate(handed.put_back) for it in group if it.name == "barrier"]
    found = told | {"barriers": sum(it.kind == "barrier" for it in source.program.steps)}
    if not keep_barriers:
        found = {key: value for key, value in found.items() if key not in ("between", "parts")}
        return found | {"format": 2 if "cost" in told else 1}
    sums = [sum(told["parts"][: end + 1]) for end in ends] + [sum(told["parts"])]
    parts = [(one - other) % 8 for one, other in zip(sums, [0, *sums])]
    return found | {"between": [told["between"][it] for it in ends], "parts": parts}
