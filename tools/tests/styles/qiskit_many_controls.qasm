// In the form in which Qiskit's qasm2.dumps writes programs; written by hand from that form, and not its output.
OPENQASM 2.0;
include "qelib1.inc";
qreg q[5];
h q[0];
h q[1];
x q[2];
c3x q[0],q[1],q[2],q[3];
c4x q[0],q[1],q[2],q[3],q[4];
c3sqrtx q[1],q[2],q[3],q[0];
rccx q[0],q[1],q[2];
rc3x q[0],q[1],q[2],q[4];
