range R 0..5;
var int x[R] in 0..9;
solve {
  forall(i in R, j in R & k in R : i < j & (j < k \/ k = 0) & not i = 5)
    if i + j > k then { x[i] + x[j] >= x[k]; }; else x[k] = 0; endif;
  (x[0] = 1) = (x[1] = 1);
  sum(i in R : i mod 2 = 0) (x[i] >= 5) = 1 + sum(i in R : i mod 2 = 1) (x[i] >= 5) * 2 div 3;
};
