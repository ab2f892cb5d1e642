var int x in 1..2;
int n = 1 + x;
solve { };
