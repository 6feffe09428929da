// A Clifford+T word on one wire that comes close to a gate which no such word reaches: the square root
// of T, which is the phase of a sixteenth of a turn, diag(1, exp(i pi/8)).
// Up to a global phase the word is within 0.0141 of it (operator norm), the nearest with 16 T gates of
// all words in the normal form of Matsumoto and Amano: a T or none, then steps H T and S H T (the last
// factor acts first), then one of the 24 Clifford gates. So in circuit order the Clifford gate stands first.
// 42 gates, 16 of them T.
OPENQASM 2.0;
include "qelib1.inc";

qreg q[1];

// the Clifford gate
x q[0]; h q[0];

// sixteen steps
t q[0]; h q[0];
t q[0]; h q[0];
t q[0]; h q[0]; s q[0];
t q[0]; h q[0];
t q[0]; h q[0];
t q[0]; h q[0];
t q[0]; h q[0]; s q[0];
t q[0]; h q[0]; s q[0];
t q[0]; h q[0]; s q[0];
t q[0]; h q[0]; s q[0];
t q[0]; h q[0];
t q[0]; h q[0]; s q[0];
t q[0]; h q[0];
t q[0]; h q[0]; s q[0];
t q[0]; h q[0]; s q[0];
t q[0]; h q[0];
