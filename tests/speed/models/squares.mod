// Seven hundred as the sum of six squares in order, with cubes that come to at most nine thousand.
range Place 1..6;
var int x[Place] in 0..20;
solve {
  sum(i in Place) x[i] * x[i] = 700;
  sum(i in Place) x[i] * x[i] * x[i] <= 9000;
  forall(i in Place : i < 6) x[i] <= x[i + 1];
};
