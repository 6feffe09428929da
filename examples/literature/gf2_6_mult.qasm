// Multiplies two elements of GF(2^6), with x a root of x^6 + x + 1: c = q[12] to q[17] becomes ab, where it was 0,
// for a = q[0] to q[5] and b = q[6] to q[11], the lowest coefficient first. The high half of the product first, which the CNOTs
// multiply by x^6, then the low half: Maslov, Mathew, Cheung and Pradhan, "An O(m^2)-depth quantum algorithm for the elliptic curve
// discrete logarithm problem over GF(2^m)", 2009; as gf2_6_mult of the benchmarks of Amy, Maslov and Mosca, 2014.
OPENQASM 2.0;
include "qelib1.inc";
qreg q[18];
ccx q[1],q[11],q[12];
ccx q[2],q[10],q[12];
ccx q[3],q[9],q[12];
ccx q[4],q[8],q[12];
ccx q[5],q[7],q[12];
ccx q[2],q[11],q[13];
ccx q[3],q[10],q[13];
ccx q[4],q[9],q[13];
ccx q[5],q[8],q[13];
ccx q[3],q[11],q[14];
ccx q[4],q[10],q[14];
ccx q[5],q[9],q[14];
ccx q[4],q[11],q[15];
ccx q[5],q[10],q[15];
ccx q[5],q[11],q[16];
cx q[16],q[17];
cx q[15],q[16];
cx q[14],q[15];
cx q[13],q[14];
cx q[12],q[13];
ccx q[0],q[6],q[12];
ccx q[0],q[7],q[13];
ccx q[1],q[6],q[13];
ccx q[0],q[8],q[14];
ccx q[1],q[7],q[14];
ccx q[2],q[6],q[14];
ccx q[0],q[9],q[15];
ccx q[1],q[8],q[15];
ccx q[2],q[7],q[15];
ccx q[3],q[6],q[15];
ccx q[0],q[10],q[16];
ccx q[1],q[9],q[16];
ccx q[2],q[8],q[16];
ccx q[3],q[7],q[16];
ccx q[4],q[6],q[16];
ccx q[0],q[11],q[17];
ccx q[1],q[10],q[17];
ccx q[2],q[9],q[17];
ccx q[3],q[8],q[17];
ccx q[4],q[7],q[17];
ccx q[5],q[6],q[17];
