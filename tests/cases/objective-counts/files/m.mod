range R 1..3;
var int x[R] in 0..2;
maximize sum(i in R) (x[i] = i - 1) - sum(i in R) x[i] subject to { x[3] > 0; };
