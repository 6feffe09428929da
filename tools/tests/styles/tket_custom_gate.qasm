// In the form in which pytket's circuit_to_qasm_str writes programs; written by hand from that form, and not its output.
OPENQASM 2.0;
include "qelib1.inc";

gate layer(p0,p1) layerq0,layerq1 {
rz(p0*pi) layerq0;
cx layerq0,layerq1;
ry(p1*pi) layerq1;
}
qreg q[3];
layer(0.1,0.2) q[0],q[1];
layer(0.25,0.5) q[1],q[2];
