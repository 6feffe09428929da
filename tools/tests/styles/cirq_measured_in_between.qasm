// In the form in which Cirq's to_qasm writes programs; written by hand from that form, and not its output.
// Generated from Cirq v1.3.0

OPENQASM 2.0;
include "qelib1.inc";


// Qubits: [q(0), q(1)]
qreg q[2];
creg m_a[1];  // Measurement: a
creg m_b[1];  // Measurement: b


h q[0];
measure q[0] -> m_a[0];
cx q[0],q[1];
rx(pi*0.3) q[1];
measure q[1] -> m_b[0];
