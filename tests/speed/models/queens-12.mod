// Twelve queens, each pair by three constraints: 14,200 solutions.
int n = 12;
range Line 1..n;
var Line row[Line];
solve {
  forall(ordered i, j in Line) {
    row[i] <> row[j];
    row[i] + i <> row[j] + j;
    row[i] - i <> row[j] - j;
  };
};
