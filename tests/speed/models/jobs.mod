// A shop of four jobs on three machines: each machine does one task at a time; the shortest whole time is wanted.
range Job 1..4;
range Step 1..3;
int machine[Job,Step] = [[1,2,3],[2,1,3],[3,2,1],[1,3,2]];
int length[Job,Step] = [[3,2,2],[2,4,1],[4,3,2],[2,3,3]];
int longest = sum(j in Job, s in Step) length[j,s];
var int start[Job,Step] in 0..longest;
var int finish in 0..longest;
minimize finish
subject to {
  forall(j in Job, s in Step : s < 3) start[j,s] + length[j,s] <= start[j,s + 1];
  forall(j in Job) start[j,3] + length[j,3] <= finish;
  forall(ordered i, j in Job) forall(s in Step, t in Step : machine[i,s] = machine[j,t])
    start[i,s] + length[i,s] <= start[j,t] \/ start[j,t] + length[j,t] <= start[i,s];
};
