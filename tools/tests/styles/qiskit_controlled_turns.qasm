// In the form in which Qiskit's qasm2.dumps writes programs; written by hand from that form, and not its output.
OPENQASM 2.0;
include "qelib1.inc";
qreg q[3];
h q[0];
crx(0.1) q[0],q[1];
cry(pi/8) q[1],q[2];
crz(-0.7) q[2],q[0];
cu3(0.1,0.2,0.3) q[0],q[2];
cu(0.4,0.5,0.6,0.7) q[2],q[1];
csx q[0],q[1];
ch q[1],q[2];
cy q[0],q[2];
