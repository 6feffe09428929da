// A NOT with 3 controls, q[0] to q[2], on q[4], with 1 borrowed wire, which may hold anything and hold it again at the end.
// Barenco and others, "Elementary gates for quantum computation", 1995, lemma 7.2; wires and order as barenco_tof_3 of the benchmarks of
// Amy, Maslov and Mosca, "Polynomial-time T-depth optimization of Clifford+T circuits via matroid partitioning", 2014.
OPENQASM 2.0;
include "qelib1.inc";
qreg q[5];
ccx q[2],q[3],q[4];
ccx q[0],q[1],q[3];
ccx q[2],q[3],q[4];
ccx q[0],q[1],q[3];
