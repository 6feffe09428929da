// The Fourier transform on 8 wires, cut off behind its controlled phases of pi/2.
// Coppersmith, "An approximate Fourier transform useful in quantum factoring", 1994.
OPENQASM 2.0;
include "qelib1.inc";
qreg q[8];
h q[7];
cu1(pi/2) q[6],q[7];
h q[6];
cu1(pi/2) q[5],q[6];
h q[5];
cu1(pi/2) q[4],q[5];
h q[4];
cu1(pi/2) q[3],q[4];
h q[3];
cu1(pi/2) q[2],q[3];
h q[2];
cu1(pi/2) q[1],q[2];
h q[1];
cu1(pi/2) q[0],q[1];
h q[0];
swap q[0],q[7];
swap q[1],q[6];
swap q[2],q[5];
swap q[3],q[4];
