range R 1..3000;
var int x[R] in 0..1;
maximize prod(i in R) x[i] subject to { };
