int w[1..3] = ...;
var int x[1..3] in 0..1;
maximize sum(i in 1..3) w[i] * x[i] subject to { sum(i in 1..3) x[i] <= 2; };
