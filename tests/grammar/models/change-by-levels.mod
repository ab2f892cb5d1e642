int d[0..3] = [8,3,1,1];
var int level in min(i in 0..3) d[i]..max(i in 0..3 : i > 0) d[i] * 2;
solve { level mod 2 = 1; level <> prod(i in 2..3) d[i]; };
