// A NOT with 5 controls, q[0] to q[4], on q[8], with 3 borrowed wires, which may hold anything and hold it again at the end.
// Barenco and others, "Elementary gates for quantum computation", 1995, lemma 7.2; wires and order as barenco_tof_5 of the benchmarks of
// Amy, Maslov and Mosca, "Polynomial-time T-depth optimization of Clifford+T circuits via matroid partitioning", 2014.
OPENQASM 2.0;
include "qelib1.inc";
qreg q[9];
ccx q[4],q[7],q[8];
ccx q[3],q[6],q[7];
ccx q[2],q[5],q[6];
ccx q[0],q[1],q[5];
ccx q[2],q[5],q[6];
ccx q[3],q[6],q[7];
ccx q[4],q[7],q[8];
ccx q[3],q[6],q[7];
ccx q[2],q[5],q[6];
ccx q[0],q[1],q[5];
ccx q[2],q[5],q[6];
ccx q[3],q[6],q[7];
