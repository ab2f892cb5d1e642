var int x in 1..9; var int y in 1..9;
solve { x + y = 10 };
search {
  { x >= 3; y >= 3 };
  if dmin(x) = 5 & bound(x) then y = 5 else try x < 5 | x > 5 endtry endif;
  select(v in 1..9 : v > 4 ordered by decreasing v) x = v;
  once { tryall(v in 3..6) y = v; };
  while not bound(x) \/ not bound(y) do { once try x = dmin(x) | x = dmax(x) endtry; };
};
