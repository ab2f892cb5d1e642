/* Eight jobs on two machines, with a time to set up between two jobs on one of them, or one job before another wherever they run: each
   runs on one machine, and all end as early as can be. */
range Job 1..8;
int time[Job] = [4, 3, 5, 2, 4, 3, 2, 3];
var int machine[Job] in 1..2;
var int start[Job] in 0..20;
var int all in 0..20;
minimize all subject to {
  forall(i in Job) start[i] + time[i] <= all;
  forall(i in Job, j in Job : i < j)
    machine[i] = machine[j] => (start[i] + time[i] + 1 <= start[j] \/ start[j] + time[j] + 1 <= start[i]);
  machine[1] = 1;
  (machine[2] = machine[3] & start[2] < start[3]) \/ (machine[2] <> machine[3] & start[3] + time[3] <= start[2]);
  machine[4] <> machine[5] <=> start[4] < start[5];
};
