int a[1..2] = [5,6];
var int x in 0..1;
minimize x * a[3] subject to { };
