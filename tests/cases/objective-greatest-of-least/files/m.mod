range R 1..3;
var int x[R] in 1..4;
maximize min(i in R) x[i] * 10 + abs(x[1] - x[3]) subject to { sum(i in R) x[i] = 9; };
