var int x in 1..3;
maximize -7 subject to { x <> 1; };
