enum Station {a,b,c,d,e};
{Station} near[Station] = #[a:{a,b}, b:{a,b,c}, c:{b,c,d}, d:{c,d,e}, e:{d,e}]#;
var int built[Station] in 0..1;
minimize sum(s in Station) built[s] subject to {
  forall(s in Station) sum(t in near[s]) built[t] >= 1;
};
