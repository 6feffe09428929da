// Multiplies two elements of GF(2^5), with x a root of x^5 + x^2 + 1: c = q[10] to q[14] becomes ab, where it was 0,
// for a = q[0] to q[4] and b = q[5] to q[9], the lowest coefficient first. The high half of the product first, which the CNOTs
// multiply by x^5, then the low half: Maslov, Mathew, Cheung and Pradhan, "An O(m^2)-depth quantum algorithm for the elliptic curve
// discrete logarithm problem over GF(2^m)", 2009; as gf2_5_mult of the benchmarks of Amy, Maslov and Mosca, 2014.
OPENQASM 2.0;
include "qelib1.inc";
qreg q[15];
ccx q[1],q[9],q[10];
ccx q[2],q[8],q[10];
ccx q[3],q[7],q[10];
ccx q[4],q[6],q[10];
ccx q[2],q[9],q[11];
ccx q[3],q[8],q[11];
ccx q[4],q[7],q[11];
ccx q[3],q[9],q[12];
ccx q[4],q[8],q[12];
ccx q[4],q[9],q[13];
cx q[13],q[10];
cx q[12],q[14];
cx q[11],q[13];
cx q[10],q[12];
ccx q[0],q[5],q[10];
ccx q[0],q[6],q[11];
ccx q[1],q[5],q[11];
ccx q[0],q[7],q[12];
ccx q[1],q[6],q[12];
ccx q[2],q[5],q[12];
ccx q[0],q[8],q[13];
ccx q[1],q[7],q[13];
ccx q[2],q[6],q[13];
ccx q[3],q[5],q[13];
ccx q[0],q[9],q[14];
ccx q[1],q[8],q[14];
ccx q[2],q[7],q[14];
ccx q[3],q[6],q[14];
ccx q[4],q[5],q[14];
