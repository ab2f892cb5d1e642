var int x in 2..1; solve { };
