// The same by three constraints of all queens.
int n = 12;
range Line 1..n;
var Line row[Line];
var int up[Line] in 1 - n..2 * n;
var int down[Line] in 1 - n..2 * n;
solve {
  alldifferent(row);
  forall(i in Line) { up[i] = row[i] + i; down[i] = row[i] - i; };
  alldifferent(up);
  alldifferent(down);
};
