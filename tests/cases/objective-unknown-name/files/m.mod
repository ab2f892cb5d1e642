var int x in 0..1;
maximize z subject to { y = 1; };
