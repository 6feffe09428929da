// In the form in which Qiskit's qasm2.dumps writes programs; written by hand from that form, and not its output.
OPENQASM 2.0;
include "qelib1.inc";
qreg q[4];
ry(0.11) q[0];
ry(-1.3) q[1];
ry(2.7) q[2];
ry(0) q[3];
cz q[0],q[1];
cz q[1],q[2];
cz q[2],q[3];
ry(pi/3) q[0];
ry(-pi/5) q[1];
ry(0.01) q[2];
ry(3.0) q[3];
