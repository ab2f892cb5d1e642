maximize 1 subject to { 1 = 2; };
