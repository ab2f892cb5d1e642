scheduleHorizon = 30;
struct Task { int id; int length; int due; };
{Task} tasks = {<1,4,10>,<2,3,8>,<3,5,20>};
UnaryResource worker;
Activity job[t in tasks](t.length);
solve {
  forall(t in tasks) { job[t] requires worker; job[t].end <= t.due; };
};
search { rank(worker); generate(job); };
