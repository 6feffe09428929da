// In the form in which pytket's circuit_to_qasm_str writes programs; written by hand from that form, and not its output.
OPENQASM 2.0;
include "qelib1.inc";

qreg q[4];
cx q[0],q[1];
rz(0.1*pi) q[1];
cx q[0],q[1];
rx(0.2*pi) q[0];
cx q[1],q[2];
rz(0.2*pi) q[2];
cx q[1],q[2];
rx(0.4*pi) q[1];
cx q[2],q[3];
rz(0.3*pi) q[3];
cx q[2],q[3];
rx(0.6*pi) q[2];
