// In the form in which pytket's circuit_to_qasm_str writes programs; written by hand from that form, and not its output.
OPENQASM 2.0;
include "qelib1.inc";

qreg q[2];
rx(0.5*pi) q[0];
ry(0.25*pi) q[1];
rz(3.5*pi) q[0];
u3(0.5*pi,0.0*pi,1.0*pi) q[1];
u2(0.3*pi,0.7*pi) q[0];
u1(0.125*pi) q[1];
