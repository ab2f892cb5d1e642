var int x in 0..2;
var int y in 0..1;
maximize y * (0 * (6 div x)) subject to { };
