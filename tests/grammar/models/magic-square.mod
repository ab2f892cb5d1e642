int n = 3;
range R 1..n;
var int square[R,R] in 1..n * n;
solve {
  forall(i in R) sum(j in R) square[i,j] = n * (n * n + 1) div 2;
  forall(j in R) sum(i in R) square[i,j] = n * (n * n + 1) div 2;
  sum(i in R) square[i,i] = n * (n * n + 1) div 2;
  forall(ordered a,b in {<i,j> | i in R, j in R}) 1 = 1;
};
