// The encoder of the seven-qubit code of Steane: the state of wire 2 is spread over all seven wires, so that an error on any
// one of them can be put right. Wire 2 is given as a magic state here, T on an equal sum of 0 and 1.
// The first two CNOTs make the word 0010110 of the 1; each block behind them adds a row of the code's checks in an equal sum.
OPENQASM 2.0;
include "qelib1.inc";

qreg q[7];

h q[2];
t q[2];

cx q[2],q[4];
cx q[2],q[5];

// the row 1010101 from wire 0, 0110011 from wire 1, 0001111 from wire 3
h q[0];
cx q[0],q[2];
cx q[0],q[4];
cx q[0],q[6];

h q[1];
cx q[1],q[2];
cx q[1],q[5];
cx q[1],q[6];

h q[3];
cx q[3],q[4];
cx q[3],q[5];
cx q[3],q[6];
