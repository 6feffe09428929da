// In the form in which pytket's circuit_to_qasm_str writes programs; written by hand from that form, and not its output.
OPENQASM 2.0;
include "qelib1.inc";

qreg q[3];
rzz(0.3*pi) q[0],q[1];
rxx(0.5*pi) q[1],q[2];
rzz(1.5*pi) q[0],q[2];
h q[1];
