// A NOT with 3 controls, q[0] to q[2], on q[4], of Toffoli gates that collect the controls on 1 clean wire and take them off again.
// Nielsen and Chuang, Quantum Computation and Quantum Information, 2000, figure 4.10; wires and order as tof_3 of the benchmarks of
// Amy, Maslov and Mosca, "Polynomial-time T-depth optimization of Clifford+T circuits via matroid partitioning", 2014.
OPENQASM 2.0;
include "qelib1.inc";
qreg q[5];
ccx q[0],q[1],q[3];
ccx q[2],q[3],q[4];
ccx q[0],q[1],q[3];
