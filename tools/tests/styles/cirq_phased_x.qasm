// In the form in which Cirq's to_qasm writes programs; written by hand from that form, and not its output.
// Generated from Cirq v1.3.0

OPENQASM 2.0;
include "qelib1.inc";


// Qubits: [q(0)]
qreg q[1];


// Gate: PhXZ(a=0.25,x=0.5,z=0.75)
u3(pi*0.5,pi*1.5,pi*0.25) q[0];

// Gate: PhX(0.3)**0.7
u3(pi*0.7,pi*1.8,pi*0.2) q[0];
