// In the form in which Qiskit's qasm2.dumps writes programs; written by hand from that form, and not its output.
OPENQASM 2.0;
include "qelib1.inc";
gate iswap q0,q1 { s q0; s q1; h q0; cx q0,q1; cx q1,q0; h q1; }
qreg q[3];
h q[0];
iswap q[0],q[2];
t q[2];
iswap q[2],q[1];
