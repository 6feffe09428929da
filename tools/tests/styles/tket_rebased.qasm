// In the form in which pytket's circuit_to_qasm_str writes programs; written by hand from that form, and not its output.
OPENQASM 2.0;
include "qelib1.inc";

qreg q[3];
u3(0.5*pi,0.0*pi,0.75*pi) q[0];
cx q[0],q[1];
u3(0.0*pi,0.0*pi,1.8333333333333333*pi) q[1];
cx q[1],q[2];
u3(1.0*pi,1.5*pi,0.5*pi) q[2];
cx q[2],q[0];
