solve { x = = 1; };
