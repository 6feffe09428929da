// The first program: a Hadamard gate and a T gate on one qubit.
OPENQASM 2.0;
include "qelib1.inc";

qreg q[1];

h q[0]; // an equal sum of 0 and 1
t q[0]; // an eighth of a turn on the 1
