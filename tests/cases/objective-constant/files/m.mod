var int x in 1..3;
minimize 1 + 2 subject to { x <> 1; };
