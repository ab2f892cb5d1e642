solve { x = 1; };
