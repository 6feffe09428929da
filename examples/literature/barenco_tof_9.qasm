// A NOT with 9 controls, q[0] to q[8], on q[16], with 7 borrowed wires, which may hold anything and hold it again at the end.
// Barenco and others, "Elementary gates for quantum computation", 1995, lemma 7.2; wires and order as barenco_tof_9 of the benchmarks of
// Amy, Maslov and Mosca, "Polynomial-time T-depth optimization of Clifford+T circuits via matroid partitioning", 2014.
OPENQASM 2.0;
include "qelib1.inc";
qreg q[17];
ccx q[8],q[15],q[16];
ccx q[7],q[14],q[15];
ccx q[6],q[13],q[14];
ccx q[5],q[12],q[13];
ccx q[4],q[11],q[12];
ccx q[3],q[10],q[11];
ccx q[2],q[9],q[10];
ccx q[0],q[1],q[9];
ccx q[2],q[9],q[10];
ccx q[3],q[10],q[11];
ccx q[4],q[11],q[12];
ccx q[5],q[12],q[13];
ccx q[6],q[13],q[14];
ccx q[7],q[14],q[15];
ccx q[8],q[15],q[16];
ccx q[7],q[14],q[15];
ccx q[6],q[13],q[14];
ccx q[5],q[12],q[13];
ccx q[4],q[11],q[12];
ccx q[3],q[10],q[11];
ccx q[2],q[9],q[10];
ccx q[0],q[1],q[9];
ccx q[2],q[9],q[10];
ccx q[3],q[10],q[11];
ccx q[4],q[11],q[12];
ccx q[5],q[12],q[13];
ccx q[6],q[13],q[14];
ccx q[7],q[14],q[15];
