int n = 5;
int longest = n * n;
range M 1..n;
var int mark[M] in 0..longest;
minimize mark[n] subject to {
  mark[1] = 0;
  forall(i in 1..n - 1) mark[i] < mark[i + 1];
  forall(ordered i,j in M, ordered k,l in M : i <> k \/ j <> l) mark[j] - mark[i] <> mark[l] - mark[k];
};
