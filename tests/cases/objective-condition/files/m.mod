var int x in 1..2;
var int y in 1..2;
maximize x = y & x > 1 subject to { };
