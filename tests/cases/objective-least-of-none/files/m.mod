var int x[1..2] in 0..1;
minimize min(i in 1..2 : i > 2) x[i] subject to { };
