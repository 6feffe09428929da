// One layer on eight wires: each wire goes into an equal sum of 0 and 1 (H), takes a phase on its 1,
// and goes back through H. The phase of wire i is i eighths of a turn, written with T, S, Z and the
// inverses of S and T.
// No gate joins two wires, so the unitary is a product of eight one-qubit unitaries.
// 25 gates, 4 of them T or its inverse.
OPENQASM 2.0;
include "qelib1.inc";

qreg q[8];

// into the sum
h q[0];
h q[1];
h q[2];
h q[3];
h q[4];
h q[5];
h q[6];
h q[7];

// the phase of wire i is i eighths of a turn
t q[1];
s q[2];
s q[3];
t q[3];
z q[4];
z q[5];
t q[5];
sdg q[6];
tdg q[7];

// and back
h q[0];
h q[1];
h q[2];
h q[3];
h q[4];
h q[5];
h q[6];
h q[7];
