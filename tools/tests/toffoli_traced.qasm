OPENQASM 2.0;
include "qelib1.inc";
qreg q[5];
creg c[3];
h q[1];
cx q[0],q[1];
tdg q[1];
cx q[2],q[1];
t q[1];
cx q[0],q[1];
tdg q[1];
cx q[2],q[1];
t q[0];
t q[1];
h q[1];
cx q[0],q[1];
cx q[1],q[0];
cx q[0],q[1];
cx q[2],q[1];
t q[2];
tdg q[1];
cx q[2],q[1];
measure q[2] -> c[0];
measure q[1] -> c[1];
measure q[0] -> c[2];
//!TRACE 1
//!place 2 0 1 3 4
//!emit 0
//!emit 0
//!emit 0
//!emit 0
//!emit 0
//!emit 0
//!emit 0
//!emit 0
//!emit 0
//!emit 0
//!emit 0
//!swap 0 1
//!emit 0
//!emit 0
//!emit 0
//!emit 0
//!end 0
