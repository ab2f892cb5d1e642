range R 1..4;
int d[R] = [3,9,1,5];
int s = sum(i in R : i < 4) d[i];
var int x[R] in 0..s + 1;
solve { forall(i in R : i < 4) x[i] + d[i] <= x[i + 1]; };
