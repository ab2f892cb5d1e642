/* Four runners, four places, nobody shares one.
   Ann was not last. Ben came in before Cleo. Dan was right in front: nobody beat him but one. */
var int ann in 1..4;
var int ben in 1..4;
var int cleo in 1..4;
var int dan in 1..4;
solve {
  ann <> ben; ann <> cleo; ann <> dan; ben <> cleo; ben <> dan; cleo <> dan;
  ann <> 4;
  ben < cleo;
  dan = 2;
};
