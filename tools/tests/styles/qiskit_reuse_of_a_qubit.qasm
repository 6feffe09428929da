// In the form in which Qiskit's qasm2.dumps writes programs; written by hand from that form, and not its output.
OPENQASM 2.0;
include "qelib1.inc";
qreg q[2];
creg c[4];
h q[0];
cx q[0],q[1];
measure q[1] -> c[0];
reset q[1];
cx q[0],q[1];
rx(0.3) q[0];
measure q[1] -> c[1];
reset q[1];
cx q[0],q[1];
measure q[1] -> c[2];
measure q[0] -> c[3];
