// In the form in which Qiskit's qasm2.dumps writes programs; written by hand from that form, and not its output.
OPENQASM 2.0;
include "qelib1.inc";
gate rzx(param0) q0,q1 { h q1; cx q0,q1; rz(param0) q1; cx q0,q1; h q1; }
gate ecr q0,q1 { rzx(pi/4) q0,q1; x q0; rzx(-pi/4) q0,q1; }
qreg q[3];
sx q[0];
ecr q[0],q[1];
rz(2.0943951023931957) q[1];
ecr q[2],q[1];
sx q[2];
