// Adds two numbers of three bits, by the ripple-carry adder of Cuccaro, Draper, Kutin and Moulton (2004).
// Here a is 5 and b is 6, so that sum, the lowest bit first, is 1101: 11.
// 6 Toffoli gates: 42 T gates or inverses, 49 CNOTs.
OPENQASM 2.0;
include "qelib1.inc";

// the carry of the lower bits, b and a: b becomes their sum, and a the carry for the next ones
gate majority c,b,a { cx a,b; cx a,c; ccx c,b,a; }
// back, but for the sum, which stays on b
gate unmajority c,b,a { ccx c,b,a; cx a,c; cx c,b; }

qreg carry_in[1];
qreg a[3];
qreg b[3];
qreg carry_out[1];
creg sum[4];

// a = 5, b = 6
x a[0];
x a[2];
x b[1];
x b[2];

majority carry_in[0],b[0],a[0];
majority a[0],b[1],a[1];
majority a[1],b[2],a[2];
cx a[2],carry_out[0];
unmajority a[1],b[2],a[2];
unmajority a[0],b[1],a[1];
unmajority carry_in[0],b[0],a[0];

measure b[0] -> sum[0];
measure b[1] -> sum[1];
measure b[2] -> sum[2];
measure carry_out[0] -> sum[3];
