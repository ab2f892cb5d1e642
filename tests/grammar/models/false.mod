solve { 1 = 2; };
