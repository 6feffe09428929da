// In the form in which pytket's circuit_to_qasm_str writes programs; written by hand from that form, and not its output.
OPENQASM 2.0;
include "qelib1.inc";

qreg q[1];
creg c[2];
ry(0.3*pi) q[0];
measure q[0] -> c[0];
ry(0.4*pi) q[0];
measure q[0] -> c[1];
