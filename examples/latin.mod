// A Latin square of order 3: each number once in each row and column. The first row is given, and the centre.
var int a1 in 1..3; var int a2 in 1..3; var int a3 in 1..3;
var int b1 in 1..3; var int b2 in 1..3; var int b3 in 1..3;
var int c1 in 1..3; var int c2 in 1..3; var int c3 in 1..3;
solve {
  a1 = 1; a2 = 2; a3 = 3; b2 = 3;
  b1 <> b2; b2 <> b3; b1 <> b3;
  c1 <> c2; c2 <> c3; c1 <> c3;
  a1 <> b1; a1 <> c1; b1 <> c1;
  a2 <> b2; a2 <> c2; b2 <> c2;
  a3 <> b3; a3 <> c3; b3 <> c3;
};
