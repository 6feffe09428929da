// In the form in which Qiskit's qasm2.dumps writes programs; written by hand from that form, and not its output.
OPENQASM 2.0;
include "qelib1.inc";
gate mcphase(param0) q0,q1,q2 { cx q1,q2; cp(-param0/4) q1,q2; cx q0,q1; cx q1,q2; cp(param0/4) q1,q2; cx q0,q1; cp(param0/2) q0,q2; }
qreg q[3];
h q[0];
h q[1];
h q[2];
mcphase(0.9) q[0],q[1],q[2];
h q[2];
