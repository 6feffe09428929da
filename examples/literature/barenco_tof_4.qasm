// A NOT with 4 controls, q[0] to q[3], on q[6], with 2 borrowed wires, which may hold anything and hold it again at the end.
// Barenco and others, "Elementary gates for quantum computation", 1995, lemma 7.2; wires and order as barenco_tof_4 of the benchmarks of
// Amy, Maslov and Mosca, "Polynomial-time T-depth optimization of Clifford+T circuits via matroid partitioning", 2014.
OPENQASM 2.0;
include "qelib1.inc";
qreg q[7];
ccx q[3],q[5],q[6];
ccx q[2],q[4],q[5];
ccx q[0],q[1],q[4];
ccx q[2],q[4],q[5];
ccx q[3],q[5],q[6];
ccx q[2],q[4],q[5];
ccx q[0],q[1],q[4];
ccx q[2],q[4],q[5];
