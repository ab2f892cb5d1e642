/* Three islanders, each of whom always tells the truth (1) or always lies (0).
   Ann: Ben lies. Ben: Cleo lies. Cleo: both Ann and Ben lie. */
var int ann in 0..1;
var int ben in 0..1;
var int cleo in 0..1;
solve {
  ann = 1 <=> ben = 0;
  ben = 1 <=> cleo = 0;
  cleo = 1 <=> ann = 0 & ben = 0;
};
