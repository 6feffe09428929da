// In the form in which pytket's circuit_to_qasm_str writes programs; written by hand from that form, and not its output.
OPENQASM 2.0;
include "qelib1.inc";

qreg ancilla[1];
qreg data[3];
creg syndrome[2];
cx data[0],ancilla[0];
cx data[1],ancilla[0];
measure ancilla[0] -> syndrome[0];
reset ancilla[0];
cx data[1],ancilla[0];
cx data[2],ancilla[0];
measure ancilla[0] -> syndrome[1];
if(syndrome==1) x data[0];
if(syndrome==2) x data[2];
if(syndrome==3) x data[1];
