// Bernstein and Vazirani's algorithm: one question to a function that sums a secret choice of the input's bits modulo 2, and
// the bits tell the choice. The secret is 101101, wire 0 first, so that is what the bits are in each run.
// On a device, the CNOTs onto wire 6 are what has to be routed.
OPENQASM 2.0;
include "qelib1.inc";

qreg q[7];
creg c[6];

// all inputs at once, and wire 6 so that an added 1 is a sign
x q[6];
h q[0];
h q[1];
h q[2];
h q[3];
h q[4];
h q[5];
h q[6];

// the function
cx q[0],q[6];
cx q[2],q[6];
cx q[3],q[6];
cx q[5],q[6];

// the signs as bits
h q[0];
h q[1];
h q[2];
h q[3];
h q[4];
h q[5];

measure q[0] -> c[0];
measure q[1] -> c[1];
measure q[2] -> c[2];
measure q[3] -> c[3];
measure q[4] -> c[4];
measure q[5] -> c[5];
