range R 1..60; var int x[R] in 0..1; solve { };
