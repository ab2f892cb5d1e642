int n = ...;
range R 1..n;
var R q[R];
solve {
  forall(ordered i,j in R) {
    q[i] <> q[j];
    q[i] + i <> q[j] + j;
    q[i] - i <> q[j] - j;
  };
};
