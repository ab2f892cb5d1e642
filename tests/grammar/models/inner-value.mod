var int x in 1..3; var int y in 1..3; solve { x <> 2; x = y; };
