// In the form in which pytket's circuit_to_qasm_str writes programs; written by hand from that form, and not its output.
OPENQASM 2.0;
include "qelib1.inc";

qreg q[3];
creg c[3];
rz(0.7*pi) q[0];
barrier q[0],q[1];
cx q[1],q[2];
barrier q[0],q[1],q[2];
rx(1.3*pi) q[2];
measure q[0] -> c[0];
measure q[1] -> c[1];
measure q[2] -> c[2];
