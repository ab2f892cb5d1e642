scheduleHorizon = 100;
enum Machine {saw,lathe,press};
UnaryResource tool[Machine];
Activity cut(3..5);
Activity turn[1..4](2);
Activity form[p in 1..2](p + 1..p + 3);
var int last in 0..100;
minimize last subject to {
  cut requires tool[saw];
  forall(i in 1..4) { turn[i] requires tool[lathe]; cut precedes turn[i]; turn[i].end <= last };
  forall(p in 1..2) { form[p] requires tool[press]; turn[p] precedes form[p]; form[p].end <= last; };
};
search {
  cut precedes turn[1];
  rank(tool[lathe]);
  generate(cut);
  generate(turn);
};
