var int x in 0..9; var int y in 0..9; solve { 2*x + 3*y = 5; };
