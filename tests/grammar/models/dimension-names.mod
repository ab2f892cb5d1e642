range R 1..3;
{int} even = {2};
int square[i in R] = i * i;
int table[i in R, j in 1..2] = i + j;
var int below[i in R] in 0..square[i];
Activity phase[i in R](i..i + 1);
DiscreteResource pool[i in R](i * 2);
scheduleOrigin = 1; scheduleHorizon = 9;
solve { forall(i in R : i in even) below[i] > 1; phase[1] precedes phase[2]; phase[3] requires(2) pool[3]; };
