int a[1..3] = [5,7,6];
var int x in 0..4;
maximize a[x] subject to { };
