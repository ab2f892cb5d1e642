int k = 8 - 3 - 2; var int x in k..3; solve { };
