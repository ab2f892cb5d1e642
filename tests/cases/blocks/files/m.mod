var int x in 1..4;
solve { { x > 1; { x < 4 } }; { }; x <> 3; };
