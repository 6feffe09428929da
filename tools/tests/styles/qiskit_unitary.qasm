// In the form in which Qiskit's qasm2.dumps writes programs; written by hand from that form, and not its output.
OPENQASM 2.0;
include "qelib1.inc";
gate unitary q0 { u(1.2,0.3,-0.4) q0; }
gate unitary_140 q0,q1 { u(1.5707963267948966,0,3.141592653589793) q0; cx q0,q1; u(0.1,-pi/2,pi/2) q1; cx q0,q1; }
qreg q[3];
unitary q[0];
unitary_140 q[0],q[2];
unitary_140 q[2],q[1];
