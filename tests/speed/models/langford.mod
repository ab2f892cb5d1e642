// Three of each of the numbers 1 to 9 in a row, k places between neighbours of a number k.
range Number 1..9;
range Copy 1..3;
var int at[Number,Copy] in 1..27;
solve {
  alldifferent(at);
  forall(k in Number, c in Copy : c < 3) at[k,c + 1] = at[k,c] + k + 1;
  at[1,1] <= 13;
};
