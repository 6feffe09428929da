// In the form in which Qiskit's qasm2.dumps writes programs; written by hand from that form, and not its output.
OPENQASM 2.0;
include "qelib1.inc";
gate multiplex1_reverse_dg q0 { ry(1.2309594173407747) q0; }
gate multiplex2_reverse_dg q0,q1 { ry(0.955316618124509) q0; cx q1,q0; ry(-0.6154797086703873) q0; cx q1,q0; }
gate state_preparation(param0,param1,param2,param3) q0,q1 { multiplex1_reverse_dg q1; multiplex2_reverse_dg q0,q1; }
qreg q[2];
reset q[0];
reset q[1];
state_preparation(0.5,0.5,0.5,0.5) q[0],q[1];
