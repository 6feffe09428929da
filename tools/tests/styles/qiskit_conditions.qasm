// In the form in which Qiskit's qasm2.dumps writes programs; written by hand from that form, and not its output.
OPENQASM 2.0;
include "qelib1.inc";
qreg q[3];
creg c[2];
creg out[1];
h q[0];
h q[1];
measure q[0] -> c[0];
measure q[1] -> c[1];
if(c==3) x q[2];
if(c==1) ry(0.4) q[2];
if(c==2) cx q[0],q[2];
measure q[2] -> out[0];
