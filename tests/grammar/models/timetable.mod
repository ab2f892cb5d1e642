/* Lessons into slots: no class and no teacher twice at one time. */
enum Class = ...;
enum Teacher = ...;
struct Lesson { Class group; Teacher teacher; int weekly; };
{Lesson} lessons = ...;
range Slot 0..29;
{Slot} free[Teacher] = ...;
var Slot at[lessons];
solve {
  forall(ordered a, b in lessons) {
    if a.group = b.group then at[a] <> at[b] else if a.teacher = b.teacher then at[a] <> at[b] endif endif;
  };
  forall(t in Teacher & l in lessons : l.teacher = t)
    sum(s in free[t]) (at[l] = s) = 0;
};
search {
  forall(l in lessons ordered by increasing dsize(at[l]))
    tryall(s in Slot) at[l] = s;
};
