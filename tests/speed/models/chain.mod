// A chain of 2,400 numbers, each at most the next: 2,401 solutions.
range Link 1..2400;
var int x[Link] in 0..1;
solve { forall(i in Link : i < 2400) x[i] <= x[i + 1]; };
