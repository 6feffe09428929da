// In the form in which pytket's circuit_to_qasm_str writes programs; written by hand from that form, and not its output.
OPENQASM 2.0;
include "qelib1.inc";

qreg q[2];
creg c[1];
creg tk_SCRATCH_BIT[2];
sx q[0];
measure q[0] -> tk_SCRATCH_BIT[0];
if(tk_SCRATCH_BIT==1) z q[1];
h q[1];
measure q[1] -> c[0];
