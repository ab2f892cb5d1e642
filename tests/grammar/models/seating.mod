enum Guest {ada,bob,cleo,dan,eva};
struct Pair { Guest left; Guest right; };
{Pair} enemies = {<ada,bob>,<cleo,dan>};
range Seat 1..5;
var Seat seat[Guest];
solve {
  alldifferent(seat);
  forall(<a,b> in enemies) abs(seat[a] - seat[b]) > 1;
  seat[eva] = 1 \/ seat[eva] = 5;
};
