struct Arc { int f; int t; };
{Arc} A = {<1,2>,<2,3>};
int c[A] = ...;
int k = c[<1,3>];
solve { };
