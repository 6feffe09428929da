// A NOT with 8 controls, q[0] to q[7], on q[14], with 6 borrowed wires, which may hold anything and hold it again at the end.
// Barenco and others, "Elementary gates for quantum computation", 1995, lemma 7.2; wires and order as barenco_tof_8 of the benchmarks of
// Amy, Maslov and Mosca, "Polynomial-time T-depth optimization of Clifford+T circuits via matroid partitioning", 2014.
OPENQASM 2.0;
include "qelib1.inc";
qreg q[15];
ccx q[7],q[13],q[14];
ccx q[6],q[12],q[13];
ccx q[5],q[11],q[12];
ccx q[4],q[10],q[11];
ccx q[3],q[9],q[10];
ccx q[2],q[8],q[9];
ccx q[0],q[1],q[8];
ccx q[2],q[8],q[9];
ccx q[3],q[9],q[10];
ccx q[4],q[10],q[11];
ccx q[5],q[11],q[12];
ccx q[6],q[12],q[13];
ccx q[7],q[13],q[14];
ccx q[6],q[12],q[13];
ccx q[5],q[11],q[12];
ccx q[4],q[10],q[11];
ccx q[3],q[9],q[10];
ccx q[2],q[8],q[9];
ccx q[0],q[1],q[8];
ccx q[2],q[8],q[9];
ccx q[3],q[9],q[10];
ccx q[4],q[10],q[11];
ccx q[5],q[11],q[12];
ccx q[6],q[12],q[13];
