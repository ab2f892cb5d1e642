var int x in 1..3;
var int y in 1..3;
maximize x subject to { x < y; y < x; };
