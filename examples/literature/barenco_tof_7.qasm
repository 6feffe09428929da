// A NOT with 7 controls, q[0] to q[6], on q[12], with 5 borrowed wires, which may hold anything and hold it again at the end.
// Barenco and others, "Elementary gates for quantum computation", 1995, lemma 7.2; wires and order as barenco_tof_7 of the benchmarks of
// Amy, Maslov and Mosca, "Polynomial-time T-depth optimization of Clifford+T circuits via matroid partitioning", 2014.
OPENQASM 2.0;
include "qelib1.inc";
qreg q[13];
ccx q[6],q[11],q[12];
ccx q[5],q[10],q[11];
ccx q[4],q[9],q[10];
ccx q[3],q[8],q[9];
ccx q[2],q[7],q[8];
ccx q[0],q[1],q[7];
ccx q[2],q[7],q[8];
ccx q[3],q[8],q[9];
ccx q[4],q[9],q[10];
ccx q[5],q[10],q[11];
ccx q[6],q[11],q[12];
ccx q[5],q[10],q[11];
ccx q[4],q[9],q[10];
ccx q[3],q[8],q[9];
ccx q[2],q[7],q[8];
ccx q[0],q[1],q[7];
ccx q[2],q[7],q[8];
ccx q[3],q[8],q[9];
ccx q[4],q[9],q[10];
ccx q[5],q[10],q[11];
