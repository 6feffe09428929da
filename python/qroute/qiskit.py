"""Between Qiskit and `qroute`: passes for its transpiler, its plugins, and a circuit routed in one call.

    from qroute.qiskit import route_circuit
    routed = route_circuit(circuit, backend)             # a circuit on the backend's qubits, with its layout
    transpile(circuit, backend, routing_method="qroute", optimization_method="qroute")

Written for the documented interface of Qiskit 1.0 and later, and tried with a small stand-in of the names that it uses; it
wasn't run with Qiskit itself. Only this file imports Qiskit, so whoever doesn't import it needs none.

A circuit that `qroute` refuses, for an angle that is no multiple of pi/4 say, raises a TranspilerError with the reason. Barriers
of a circuit are kept. The global phase is Qiskit's, exactly, as long as each gate's matrix is known to both; with `any_gates` it
isn't set.

Conditions go by text alone, by `qroute.route` and `qroute.opt`: Qiskit 2 has no `c_if`, and `qasm2.dumps` refuses an `if_else` with
an exception of its own.
"""

from __future__ import annotations

import cmath
import collections.abc
import math
import typing

from qiskit import ClassicalRegister, QuantumCircuit, QuantumRegister, qasm2
from qiskit.converters import circuit_to_dag, dag_to_circuit
from qiskit.dagcircuit import DAGCircuit
from qiskit.transpiler import CouplingMap, Layout, PassManager, PassManagerConfig, Target
from qiskit.transpiler.basepasses import TransformationPass
from qiskit.transpiler.exceptions import TranspilerError
from qiskit.transpiler.preset_passmanagers.common import generate_translation_passmanager
from qiskit.transpiler.preset_passmanagers.plugin import PassManagerStagePlugin

import qroute

from .metrics import cost_of

__all__ = ["OptimizationPlugin", "Optimize", "Route", "RoutingPlugin", "device_of", "opt_circuit", "route_circuit"]

# A CNOT has the direction of its pair; one that is made of another gate of two qubits may have either.
CNOT = "cx"
# What the matrices of written gates have more than Qiskit's, as a power of exp(i pi/4); other written gates have the same.
WRITTEN = {"h": 1, "x": 2}


def rates_of(target: Target) -> dict[tuple[int, int], float | None]:
    """The pairs of qubits on which a target has a gate of two, each with the least rate of errors; None if it has none."""
    found: dict[tuple[int, int], float | None] = {}
    for name in target.operation_names:
        for pair, properties in target[name].items():
            if pair is None or len(pair) != 2:
                continue
            error = getattr(properties, "error", None)
            a, b = pair
            for each in [(a, b)] if name == CNOT else [(a, b), (b, a)]:
                rates = [it for it in (error, found.get(each)) if it is not None]
                found[each] = min(rates) if rates else None
    return found


def device_of_target(target: Target) -> qroute.Device:
    """The device of a target; its edges have costs if each of its pairs tells a rate of errors."""
    rates = rates_of(target)
    if not rates or target.num_qubits is None:
        raise TranspilerError("the target names no pairs of qubits, so nothing has to be routed")
    told = {pair: rate for pair, rate in rates.items() if rate is not None}
    if len(told) < len(rates):
        return qroute.Device.of(sorted(rates), target.num_qubits)
    return qroute.Device.of([(a, b, cost_of(rate)) for (a, b), rate in sorted(told.items())], target.num_qubits)


def device_of(where: typing.Any) -> qroute.Device:
    """The device of a backend, a Target, a CouplingMap, a list of pairs, or a Device as it is.

    CNOTs follow the pairs as they stand. A target's rates of errors are costs: what `route` adds up is what its CNOTs fail with.
    """
    if isinstance(where, qroute.Device):
        return where
    if isinstance(where, Target):
        return device_of_target(where)
    if isinstance(where, CouplingMap):
        return qroute.Device.of(where.get_edges(), where.size())
    if getattr(where, "target", None) is not None:
        return device_of_target(where.target)
    if isinstance(where, collections.abc.Iterable):
        return qroute.Device.of(where)
    raise TranspilerError(f"{where!r} is no backend, target or coupling map")


def plain(dag: DAGCircuit) -> QuantumCircuit:
    """The same operations on one register of qubits and one of bits, in the order of the circuit's own."""
    circuit = dag_to_circuit(dag)
    registers = [QuantumRegister(len(circuit.qubits), "q")] if circuit.qubits else []
    found = QuantumCircuit(*registers, *([ClassicalRegister(len(circuit.clbits), "c")] if circuit.clbits else []))
    for it in circuit.data:
        qubits = [circuit.find_bit(bit).index for bit in it.qubits]
        found.append(it.operation, qubits, [circuit.find_bit(bit).index for bit in it.clbits])
    return found


def refilled(empty: QuantumCircuit, text: str) -> DAGCircuit:
    """A circuit without operations, with those of a text: qubit i is the text's i-th, and so is each bit.

    Gates that are put back may be p, u, sx and others that `qelib1.inc` lacks for Qiskit's reader, so it is told of them.
    """
    read = qasm2.loads(text, custom_instructions=qasm2.LEGACY_CUSTOM_INSTRUCTIONS)
    for it in read.data:
        qubits = [empty.qubits[read.find_bit(bit).index] for bit in it.qubits]
        empty.append(it.operation, qubits, [empty.clbits[read.find_bit(bit).index] for bit in it.clbits])
    return circuit_to_dag(empty)


def excess(operation: typing.Any) -> float | None:
    """The angle by which the matrix that `qroute` has for a gate is ahead of Qiskit's; None if one of the two isn't known."""
    size = operation.num_qubits
    alone = QuantumCircuit(QuantumRegister(size, "q"))
    alone.append(operation, list(range(size)), [])
    try:
        matrix = operation.to_matrix()
        column = [complex(matrix[row][0]) for row in range(2**size)]
        ends = max(range(2**size), key=lambda row: abs(column[row]))
        # a basis state is wire 0 first, and the lowest bit of Qiskit's row
        bits = "".join(str(ends >> wire & 1) for wire in range(size))
        a, b, c, d, e = qroute.amplitude(qasm2.dumps(alone), "0" * size, bits)
    except (qroute.Fault, AttributeError, TypeError, NotImplementedError):
        return None
    power = cmath.exp(0.25j * math.pi)
    return cmath.phase((a + b * power + c * power**2 + d * power**3) / 2**e / column[ends])


def global_phase(source: QuantumCircuit, found: qroute.Result) -> float | None:
    """What has to be added to the global phase, so that the written circuit is the source in Qiskit's matrices too."""
    known: dict[tuple[str, tuple[float, ...]], float | None] = {}
    ahead = found.phase * math.pi / 4
    for it in source.data:
        operation = it.operation
        if operation.name in ("barrier", "measure"):
            continue
        key = (operation.name, tuple(map(float, operation.params)))
        if key not in known:
            known[key] = excess(operation)
        angle = known[key]
        if angle is None:
            return None
        ahead += angle
    words = [line.split(" ", 1)[0] for line in found.text.splitlines()]
    return sum(WRITTEN.get(it, 0) for it in words) * math.pi / 4 - ahead


def options_for(dag: DAGCircuit, options: dict[str, typing.Any]) -> dict[str, typing.Any]:
    """The options of a call: a circuit's barriers are kept, unless something else was asked for."""
    has_barriers = "barrier" in dag.count_ops()
    return {"keep_barriers": True} | options if has_barriers and "trace" not in options and "spares" not in options else options


def answered(call: collections.abc.Callable[[], qroute.Result]) -> qroute.Result:
    """What the module answers; what it refuses, options that don't go together among it, as Qiskit's exception."""
    try:
        return call()
    except (qroute.Refused, qroute.DeviceRefused, qroute.NoMemory, qroute.Unreadable, ValueError) as fault:
        raise TranspilerError(f"qroute: {fault}") from fault


class QroutePass(TransformationPass):
    """What the passes have in common. `found` is what the module answered for the circuit that was passed last."""

    found: qroute.Result | None = None

    options: dict[str, typing.Any]

    def filled(self, dag: DAGCircuit, source: QuantumCircuit, found: qroute.Result, register: QuantumRegister | None) -> DAGCircuit:
        """The written circuit, on the qubits of a register or on the same ones, with the name and the bits of the one before."""
        self.found = found
        ahead = None if "any_gates" in self.options else global_phase(source, found)
        registers = [*dag.qregs.values()] if register is None else [register]
        qubits = list(dag.qubits) if register is None else list(register)
        empty = QuantumCircuit(qubits, list(dag.clbits), *registers, *dag.cregs.values(), name=dag.name, metadata=dag.metadata)
        empty.global_phase = dag.global_phase + (ahead or 0.0)
        return refilled(empty, found.text)


class Route(QroutePass):
    """Routes a circuit for a device.

    With `keep_layout`, as in Qiskit's stage for routing, the circuit is on the device's qubits already, and each of them begins
    where it is. Without it the circuit is of a program's own qubits, and `qroute` finds where they begin: the layout is set
    then as by Qiskit's own passes for layouts. In both cases `final_layout` tells where they end. Other options are those of
    `qroute.route`.
    """

    def __init__(self, where: typing.Any, keep_layout: bool = True, **options: typing.Any) -> None:
        super().__init__()
        self.device = device_of(where)
        self.keep_layout = keep_layout
        self.options = options

    def run(self, dag: DAGCircuit) -> DAGCircuit:
        """The routed circuit."""
        source = plain(dag)
        options = options_for(dag, self.options)
        if self.keep_layout:
            options = options | {"trivial": True}
        found = answered(lambda: qroute.route(qasm2.dumps(source), self.device, **options))
        if self.keep_layout and len(dag.qubits) != found.device:
            raise TranspilerError(f"the circuit has {len(dag.qubits)} qubits and the device {found.device}: it has no layout yet")
        return self.placed(dag, source, found)

    def placed(self, dag: DAGCircuit, source: QuantumCircuit, found: qroute.Result) -> DAGCircuit:
        """The written circuit, and the layouts that say where its qubits are."""
        register = None if self.keep_layout else QuantumRegister(found.device, "q")
        qubits = list(dag.qubits) if register is None else list(register)
        if register is not None:
            spare = found.device - len(dag.qubits)
            wires = [*dag.qubits, *(list(QuantumRegister(spare, "ancilla")) if spare else [])]
            self.property_set["layout"] = Layout(dict(zip(wires, found.initial)))
            self.property_set["original_qubit_indices"] = {wire: index for index, wire in enumerate(wires)}
        moved = Layout(dict(zip(qubits, found.permutation)))
        before = self.property_set["final_layout"]
        self.property_set["final_layout"] = moved if before is None else before.compose(moved, qubits)
        return self.filled(dag, source, found, register)


class Optimize(QroutePass):
    """Rewrites a circuit with fewer gates: on its own qubits by `qroute.opt`; or, with a device, one that is routed already by
    `qroute.route`, which keeps to the edges. It is left as it is if that would take more CNOTs or T gates, or no fewer of both.
    Other options are those of the function.
    """

    def __init__(self, where: typing.Any = None, **options: typing.Any) -> None:
        super().__init__()
        self.router = None if where is None else Route(where, **options)
        self.options = options

    def run(self, dag: DAGCircuit) -> DAGCircuit:
        """The rewritten circuit, or the same one."""
        source = plain(dag)
        if self.router is None:
            found = answered(lambda: qroute.opt(qasm2.dumps(source), **options_for(dag, self.options)))
            return self.filled(dag, source, found, None)
        options: dict[str, typing.Any] = options_for(dag, self.options) | {"trivial": True}
        device = self.router.device
        found = answered(lambda: qroute.route(qasm2.dumps(source), device, **options))
        before, after = (found.cx_before, found.t_before), (found.cx_after, found.t_after)
        if after == before or any(a > b for a, b in zip(after, before)):
            return dag
        self.router.property_set = self.property_set
        self.found = found
        return self.router.placed(dag, source, found)


def where_of(config: PassManagerConfig) -> typing.Any:
    """What a configuration says of the device; None if it says nothing."""
    target = config.target
    if target is not None and rates_of(target):
        return target
    return config.coupling_map


class RoutingPlugin(PassManagerStagePlugin):
    """`transpile(.., routing_method="qroute")`: the layout is kept that Qiskit has found."""

    def pass_manager(self, pass_manager_config: PassManagerConfig, optimization_level: int | None = None) -> PassManager:
        """The stage; it has no pass if there is no device."""
        where = where_of(pass_manager_config)
        return PassManager([] if where is None else [Route(where)])


class OptimizationPlugin(PassManagerStagePlugin):
    """`transpile(.., optimization_method="qroute")`: fewer gates, on the device's edges, and in the target's gates again."""

    def pass_manager(self, pass_manager_config: PassManagerConfig, optimization_level: int | None = None) -> PassManager:
        """The stage: the pass, and Qiskit's own translation of what it writes."""
        config = pass_manager_config
        stage = PassManager([Optimize(where_of(config))])
        if config.target is not None or config.basis_gates:
            method = config.translation_method or "translator"
            stage += generate_translation_passmanager(config.target, basis_gates=config.basis_gates, method=method)
        return stage


def route_circuit(circuit: QuantumCircuit, where: typing.Any, **options: typing.Any) -> QuantumCircuit:
    """The circuit on the qubits of a backend, a Target, a CouplingMap, a list of pairs or a Device.

    Its `layout` tells where each qubit begins and ends, as after Qiskit's `transpile`, so that `final_index_layout()` is where to
    measure afterwards. Measured bits read what they read before. It is in the gates that `qroute` writes: h, x, z, s, sdg, t, tdg
    and cx. Options are those of `qroute.route`.
    """
    routed: QuantumCircuit = PassManager([Route(where, keep_layout=False, **options)]).run(circuit)
    return routed


def opt_circuit(circuit: QuantumCircuit, **options: typing.Any) -> QuantumCircuit:
    """The circuit on its own qubits, with fewer gates. Options are those of `qroute.opt`."""
    written: QuantumCircuit = PassManager([Optimize(**options)]).run(circuit)
    return written
