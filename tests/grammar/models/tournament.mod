int teams = 4;
range T 1..teams;
range W 1..teams - 1;
var T meets[T,W];
solve {
  forall(t in T, w in W) { meets[t,w] <> t; meets[meets[t,w],w] = t; };
  forall(t in T, ordered v,w in W) meets[t,v] <> meets[t,w];
};
