/* Five nurses over seven days: each day one is on nights and two are on days. Nobody is on days the day after a night, three days running
   off, or on duty four days running; each has two or three days and one or two nights. */
range Nurse 1..5;
range Day 1..7;
var int shift[Nurse,Day] in 0..2;          // 0 free, 1 days, 2 nights
solve {
  forall(d in Day) { sum(n in Nurse) (shift[n,d] = 2) = 1; sum(n in Nurse) (shift[n,d] = 1) = 2; };
  forall(n in Nurse, d in Day : d < 7) (shift[n,d] = 2) + (shift[n,d + 1] = 1) <= 1;
  forall(n in Nurse, d in Day : d < 6) (shift[n,d] > 0) + (shift[n,d + 1] > 0) + (shift[n,d + 2] > 0) >= 1;
  forall(n in Nurse, d in Day : d < 5) (shift[n,d] > 0) + (shift[n,d + 1] > 0) + (shift[n,d + 2] > 0) + (shift[n,d + 3] > 0) <= 3;
  forall(n in Nurse) {
    sum(d in Day) (shift[n,d] = 1) >= 2; sum(d in Day) (shift[n,d] = 1) <= 3;
    sum(d in Day) (shift[n,d] = 2) >= 1; sum(d in Day) (shift[n,d] = 2) <= 2;
  };
  shift[1,1] = 2; shift[2,1] = 1; shift[3,1] = 1; shift[4,2] = 1; shift[1,7] = 0;
};
