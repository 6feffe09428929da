// In the form in which pytket's circuit_to_qasm_str writes programs; written by hand from that form, and not its output.
OPENQASM 2.0;
include "qelib1.inc";

qreg q[2];
sx q[0];
sxdg q[1];
csx q[0],q[1];
s q[0];
sdg q[1];
tdg q[0];
