int big = 170141183460469231731687303715884105727;
var int x in 0..1;
minimize x + (big + 1) subject to { };
