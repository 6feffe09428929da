// In the form in which pytket's circuit_to_qasm_str writes programs; written by hand from that form, and not its output.
OPENQASM 2.0;
include "qelib1.inc";

qreg q[2];
rz(0.25*pi) q[0];
rz(1.75*pi) q[1];
cx q[0],q[1];
u1(0.5*pi) q[1];
rx(1.0*pi) q[0];
