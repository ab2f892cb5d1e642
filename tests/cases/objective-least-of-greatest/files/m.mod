range R 1..3;
var int x[R] in 1..4;
minimize max(i in R) x[i] subject to { alldifferent(x); x[1] > 1; };
