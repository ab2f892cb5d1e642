var int x in 1..3; solve { not (x = 1 \/ x = 3); };
