var int x in 0..3;
var int y in 0..3;
maximize x + y subject to { x + y <= 3; };
