enum E {low,mid,high};
var int cost[E] in 2..5;
var E at;
minimize cost[at] subject to { cost[low] > 3; alldifferent(cost); at <> mid; };
