var int x in 1..3;
maximize x subject to { x > 3; };
