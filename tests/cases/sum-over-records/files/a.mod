struct Arc { int f; int t; };
{Arc} A = {<1,2>,<2,3>};
int c[A] = ...;
var int x in 0..10;
solve { x = sum(e in A) c[e]; };
