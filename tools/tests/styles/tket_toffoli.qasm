// In the form in which pytket's circuit_to_qasm_str writes programs; written by hand from that form, and not its output.
OPENQASM 2.0;
include "qelib1.inc";

qreg q[4];
h q[3];
ccx q[0],q[1],q[3];
cswap q[0],q[2],q[3];
swap q[1],q[2];
cz q[0],q[3];
cy q[1],q[3];
ch q[2],q[0];
