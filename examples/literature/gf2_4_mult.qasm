// Multiplies two elements of GF(2^4), with x a root of x^4 + x + 1: c = q[8] to q[11] becomes ab, where it was 0,
// for a = q[0] to q[3] and b = q[4] to q[7], the lowest coefficient first. The high half of the product first, which the CNOTs
// multiply by x^4, then the low half: Maslov, Mathew, Cheung and Pradhan, "An O(m^2)-depth quantum algorithm for the elliptic curve
// discrete logarithm problem over GF(2^m)", 2009; as gf2_4_mult of the benchmarks of Amy, Maslov and Mosca, 2014.
OPENQASM 2.0;
include "qelib1.inc";
qreg q[12];
ccx q[1],q[7],q[8];
ccx q[2],q[6],q[8];
ccx q[3],q[5],q[8];
ccx q[2],q[7],q[9];
ccx q[3],q[6],q[9];
ccx q[3],q[7],q[10];
cx q[10],q[11];
cx q[9],q[10];
cx q[8],q[9];
ccx q[0],q[4],q[8];
ccx q[0],q[5],q[9];
ccx q[1],q[4],q[9];
ccx q[0],q[6],q[10];
ccx q[1],q[5],q[10];
ccx q[2],q[4],q[10];
ccx q[0],q[7],q[11];
ccx q[1],q[6],q[11];
ccx q[2],q[5],q[11];
ccx q[3],q[4],q[11];
