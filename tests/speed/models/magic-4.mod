// Magic squares of order 4, the least corner first and leaning to the right: 880 of them.
int n = 4;
range Line 1..n;
int total = n * (n * n + 1) div 2;
var int cell[Line,Line] in 1..n * n;
solve {
  alldifferent(cell);
  forall(r in Line) sum(c in Line) cell[r,c] = total;
  forall(c in Line) sum(r in Line) cell[r,c] = total;
  sum(i in Line) cell[i,i] = total;
  sum(i in Line) cell[i,n + 1 - i] = total;
  cell[1,1] < cell[1,n]; cell[1,1] < cell[n,1]; cell[1,1] < cell[n,n];
  cell[1,n] < cell[n,1];
};
