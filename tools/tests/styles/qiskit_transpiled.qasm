// In the form in which Qiskit's qasm2.dumps writes programs; written by hand from that form, and not its output.
OPENQASM 2.0;
include "qelib1.inc";
qreg q[3];
creg c[3];
rz(pi/2) q[0];
sx q[0];
rz(pi/2) q[0];
rz(-2.356194490192345) q[1];
sx q[1];
rz(1.1502619915109316) q[1];
cx q[0],q[1];
x q[2];
sx q[1];
rz(-pi/16) q[1];
cx q[1],q[2];
measure q[0] -> c[0];
measure q[1] -> c[1];
measure q[2] -> c[2];
