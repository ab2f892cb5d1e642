var int x in 0..1; var int y in 0..1; var int z in 0..1; solve { };
