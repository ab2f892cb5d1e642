/* A ruler with few marks that measures each length in one way at most: no two pairs of marks lie equally far apart. The shortest one is
   wanted. How many marks it has comes from a data file: `./opl solve examples/golomb.mod examples/golomb-5.dat`. */
int marks = ...;
range Mark 1..marks;
var int at[Mark] in 0..marks * marks;   // how far each mark lies from the beginning
minimize at[marks]
subject to {
  at[1] = 0;
  forall(i in Mark : i < marks) at[i] < at[i + 1];
  forall(ordered i, j in Mark)
    forall(ordered k, l in Mark : i < k \/ i = k & j < l)
      at[j] - at[i] <> at[l] - at[k];
};
