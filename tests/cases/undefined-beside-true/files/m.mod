var int x in 0..3; solve { x = 0 \/ 6 div x = 3; };
