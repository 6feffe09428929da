// A NOT with 6 controls, q[0] to q[5], on q[10], of Toffoli gates that collect the controls on 4 clean wires and take them off again.
// Nielsen and Chuang, Quantum Computation and Quantum Information, 2000, figure 4.10; wires and order as tof_6 of the benchmarks of
// Amy, Maslov and Mosca, "Polynomial-time T-depth optimization of Clifford+T circuits via matroid partitioning", 2014.
OPENQASM 2.0;
include "qelib1.inc";
qreg q[11];
ccx q[0],q[1],q[6];
ccx q[2],q[6],q[7];
ccx q[3],q[7],q[8];
ccx q[4],q[8],q[9];
ccx q[5],q[9],q[10];
ccx q[4],q[8],q[9];
ccx q[3],q[7],q[8];
ccx q[2],q[6],q[7];
ccx q[0],q[1],q[6];
