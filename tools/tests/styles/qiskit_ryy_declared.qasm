// In the form in which Qiskit's qasm2.dumps writes programs; written by hand from that form, and not its output.
OPENQASM 2.0;
include "qelib1.inc";
gate ryy(param0) q0,q1 { sxdg q0; sxdg q1; cx q0,q1; rz(param0) q1; cx q0,q1; sx q0; sx q1; }
qreg q[3];
h q[0];
ryy(0.25) q[0],q[1];
rxx(0.5) q[1],q[2];
rzz(-0.75) q[0],q[2];
