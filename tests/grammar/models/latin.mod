range R 1..4;
var R x[R,R];
solve { forall(i in R & ordered j,k in R) { x[i,j] <> x[i,k]; x[j,i] <> x[k,i]; }; };
