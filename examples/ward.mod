/* A roster of a ward: who is on duty in each night? Each night needs so many nurses, nobody is on duty in two nights running, each has a
   greatest number of nights, and some are away. The week comes from a data file: `./opl solve examples/ward.mod examples/ward-week.dat`. */
enum Nurse ...;
int nights = ...;
range Night 1..nights;
int needed[Night] = ...;
int most[Nurse] = ...;
{Night} away[Nurse] = ...;
var int duty[Nurse,Night] in 0..1;      // 1 where the nurse is on duty
solve {
  forall(d in Night) sum(n in Nurse) duty[n,d] = needed[d];
  forall(n in Nurse) sum(d in Night) duty[n,d] <= most[n];
  forall(n in Nurse, d in Night : d < nights) duty[n,d] + duty[n,d + 1] <= 1;
  forall(n in Nurse, d in away[n]) duty[n,d] = 0;
};
