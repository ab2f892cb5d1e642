// A shortest ruler of seven marks.
int marks = 7;
range Mark 1..marks;
var int at[Mark] in 0..marks * marks;
minimize at[marks]
subject to {
  at[1] = 0;
  forall(i in Mark : i < marks) at[i] < at[i + 1];
  forall(ordered i, j in Mark)
    forall(ordered k, l in Mark : i < k \/ i = k & j < l)
      at[j] - at[i] <> at[l] - at[k];
};
