// In the form in which pytket's circuit_to_qasm_str writes programs; written by hand from that form, and not its output.
OPENQASM 2.0;
include "qelib1.inc";

qreg q[3];
creg c[2];
h q[0];
measure q[0] -> c[0];
if(c==1) x q[1];
if(c==1) rz(0.3*pi) q[2];
if(c==1) cx q[1],q[2];
measure q[2] -> c[1];
