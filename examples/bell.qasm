// A Bell pair, measured: each bit is 0 or 1, and both are the same.
OPENQASM 2.0;
include "qelib1.inc";

qreg q[2];
creg c[2];

h q[0]; // an equal sum of 0 and 1
cx q[0],q[1]; // the other wire like it
measure q[0] -> c[0];
measure q[1] -> c[1];
