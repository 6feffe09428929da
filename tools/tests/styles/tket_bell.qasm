// In the form in which pytket's circuit_to_qasm_str writes programs; written by hand from that form, and not its output.
OPENQASM 2.0;
include "qelib1.inc";

qreg q[2];
creg c[2];
h q[0];
cx q[0],q[1];
measure q[0] -> c[0];
measure q[1] -> c[1];
