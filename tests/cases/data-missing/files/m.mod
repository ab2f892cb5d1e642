int n = ...;
int k = ...;
solve { };