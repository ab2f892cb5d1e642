var int x in 1..2;
solve { x <> 1; };
