var int x in 0..3;
var int y in 0..3;
solve {
  x = 1 \/ x = 2 & y = 3;
  not (x = 1 & y < 2);
  x = 2 => y = 3 => y > x;
  (x = 1) <=> (y = 2);
};
