// A spin echo, the least of what is called dynamical decoupling: while wire 0 waits for what the wires 1 and 2 do, it is
// turned round in the middle of its wait and at the end, so that what a constant field has turned it by goes back by itself.
// As a unitary the two X are nothing, and `opt` takes them out; `opt --keep-barriers` leaves each where it stands, between its
// barriers. Within a part it still rewrites: the two T on wire 1 become one S.
// Wire 0 is 0 in each run, as it is in the sum of 0 and 1 all the time between its two H.
OPENQASM 2.0;
include "qelib1.inc";
qreg q[3];
creg c[3];
h q[0];
barrier q;
h q[1];
t q[1];
t q[1];
cx q[1],q[2];
barrier q;
x q[0];
barrier q;
cx q[1],q[2];
tdg q[1];
h q[1];
barrier q;
x q[0];
barrier q;
h q[0];
measure q -> c;
