var int x in 1..1048577;
int c = 1 div 0;
solve { };