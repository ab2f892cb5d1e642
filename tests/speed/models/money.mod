// SEND + MORE = MONEY.
var int s in 1..9; var int e in 0..9; var int n in 0..9; var int d in 0..9;
var int m in 1..9; var int o in 0..9; var int r in 0..9; var int y in 0..9;
solve {
  s <> e; s <> n; s <> d; s <> m; s <> o; s <> r; s <> y; e <> n; e <> d; e <> m; e <> o; e <> r; e <> y; n <> d; n <> m; n <> o;
  n <> r; n <> y; d <> m; d <> o; d <> r; d <> y; m <> o; m <> r; m <> y; o <> r; o <> y; r <> y;
  1000 * s + 100 * e + 10 * n + d + 1000 * m + 100 * o + 10 * r + e = 10000 * m + 1000 * o + 100 * n + 10 * e + y;
};
