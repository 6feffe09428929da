// In the form in which Qiskit's qasm2.dumps writes programs; written by hand from that form, and not its output.
OPENQASM 2.0;
include "qelib1.inc";
qreg q[2];
rz(1e-05) q[0];
u3(0,0,5*pi/4) q[0];
u2(0,pi) q[1];
rx(-1.2345e-03) q[1];
cx q[0],q[1];
rz(0.7853981633974483) q[1];
u1(6.283185307179586) q[0];
