var int x in 0..2;
var int y in 0..1;
maximize y + 6 mod (x * y * (1 - y)) subject to { };
