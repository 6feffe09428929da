// In the form in which Qiskit's qasm2.dumps writes programs; written by hand from that form, and not its output.
OPENQASM 2.0;
include "qelib1.inc";
gate ccz q0,q1,q2 { h q2; ccx q0,q1,q2; h q2; }
qreg q[3];
creg meas[3];
h q[0];
h q[1];
h q[2];
ccz q[0],q[1],q[2];
h q[0];
h q[1];
h q[2];
x q[0];
x q[1];
x q[2];
ccz q[0],q[1],q[2];
x q[0];
x q[1];
x q[2];
h q[0];
h q[1];
h q[2];
measure q[0] -> meas[0];
measure q[1] -> meas[1];
measure q[2] -> meas[2];
