/* Queens on a board, one in each column, of which none attacks another: not in a row, nor in a diagonal.
   The size of the board comes from a data file: `./opl solve examples/queens.mod examples/queens-6.dat`. */
int n = ...;
range Line 1..n;
var Line row[Line];             // the row of the queen in each column
solve {
  alldifferent(row);
  forall(ordered i, j in Line) {
    row[i] + i <> row[j] + j;
    row[i] - i <> row[j] - j;
  };
};
