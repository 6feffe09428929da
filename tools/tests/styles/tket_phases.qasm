// In the form in which pytket's circuit_to_qasm_str writes programs; written by hand from that form, and not its output.
OPENQASM 2.0;
include "qelib1.inc";

qreg q[3];
h q[0];
cu1(0.5*pi) q[0],q[1];
cu1(0.25*pi) q[0],q[2];
crz(0.2*pi) q[1],q[2];
crx(0.4*pi) q[0],q[2];
cry(1.75*pi) q[2],q[1];
cu3(0.1*pi,0.2*pi,0.3*pi) q[0],q[1];
