range R 1..9;
int given[R,R] = ...;
var R cell[R,R];
solve {
  forall(i in R, j in R : given[i,j] > 0) cell[i,j] = given[i,j];
  forall(i in R, ordered j,k in R) { cell[i,j] <> cell[i,k]; cell[j,i] <> cell[k,i]; };
  forall(a in 0..2, b in 0..2, ordered p,q in 0..8)
    cell[3 * a + p div 3 + 1, 3 * b + p mod 3 + 1] <> cell[3 * a + q div 3 + 1, 3 * b + q mod 3 + 1];
};
search { forall(i in R, j in R ordered by increasing dsize(cell[i,j])) tryall(v in R) cell[i,j] = v };
