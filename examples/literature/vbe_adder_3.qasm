// Adds two numbers of three bits: b = q[2], q[5], q[8] becomes a + b with a = q[1], q[4], q[7], the carry in on q[0] and the carry
// out on q[9]; q[3] and q[6] are clean. The two CNOTs in the middle stand between the last carry and its sum; the published
// benchmark has dropped them. Vedral, Barenco and Ekert, "Quantum networks for elementary arithmetic operations", 1996.
OPENQASM 2.0;
include "qelib1.inc";
qreg q[10];
ccx q[1],q[2],q[3];
cx q[1],q[2];
ccx q[0],q[2],q[3];
ccx q[4],q[5],q[6];
cx q[4],q[5];
ccx q[3],q[5],q[6];
ccx q[7],q[8],q[9];
cx q[7],q[8];
ccx q[6],q[8],q[9];
cx q[7],q[8];
cx q[7],q[8];
cx q[6],q[8];
ccx q[3],q[5],q[6];
cx q[4],q[5];
ccx q[4],q[5],q[6];
cx q[4],q[5];
cx q[3],q[5];
ccx q[0],q[2],q[3];
cx q[1],q[2];
ccx q[1],q[2],q[3];
cx q[1],q[2];
cx q[0],q[2];
