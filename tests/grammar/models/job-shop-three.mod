int horizon = ...;
scheduleOrigin = 0;
scheduleHorizon = horizon;
range Job 1..3;
range Step 1..3;
int duration[Job,Step] = [[3,2,2],[2,1,4],[4,3,1]];
int machine[Job,Step] = [[1,2,3],[1,3,2],[2,3,1]];
UnaryResource m[1..3];
Activity task[j in Job, s in Step](duration[j,s]);
var int makespan in 0..horizon;
minimize makespan
subject to {
  forall(j in Job, s in Step) task[j,s] requires m[machine[j,s]];
  forall(j in Job, s in 1..2) task[j,s] precedes task[j,s + 1];
  forall(j in Job) task[j,3].end <= makespan;
};
search {
  forall(k in 1..3) rank(m[k]);
  generate(makespan);
};
