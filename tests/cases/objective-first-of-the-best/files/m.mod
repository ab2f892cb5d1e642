enum Nurse {Ann,Ben,Cleo};
var Nurse on[1..3];
minimize sum(n in Nurse) (sum(d in 1..3) (on[d] = n) > 1) subject to { on[1] <> Ann; };
