scheduleHorizon = 24;
DiscreteResource workers(6);
DiscreteResource crane[k in 1..2](k);
range House 1..4;
int men[House] = [2,3,2,4];
Activity frame[h in House](4);
Activity roof[h in House](3);
var int done in 0..24;
minimize done subject to {
  forall(h in House) {
    frame[h] requires(men[h]) workers;
    roof[h] requires(men[h] - 1) workers;
    roof[h] requires(1) crane[1 + h mod 2];
    frame[h] precedes roof[h];
    roof[h].start - frame[h].end <= 2;
    roof[h].end <= done;
  };
};
