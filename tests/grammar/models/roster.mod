// Who works which shift: each nurse at most one a day, each shift covered.
enum Nurse ...;
enum Shift {early,late,night,off};
range Day 1..7;
int need[Shift] = ...;
var Shift works[Nurse,Day];
solve {
  forall(d in Day, s in Shift : s <> off)
    sum(n in Nurse) (works[n,d] = s) >= need[s];
  forall(n in Nurse, d in Day : d < 7) {
    works[n,d] = night => works[n,d + 1] = off \/ works[n,d + 1] = night;
    not (works[n,d] = late & works[n,d + 1] = early)
  };
  forall(n in Nurse) sum(d in Day) (works[n,d] = off) >= 2;
};
