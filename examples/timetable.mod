/* A timetable: each lesson gets a slot of the day. Lessons of one class, and lessons of one teacher, lie in different slots; a teacher
   is there for some slots alone; no more lessons lie in a slot than there are rooms. The lessons come from a data file:
   `./opl solve examples/timetable.mod examples/timetable-monday.dat`. */
enum Class ...;
enum Teacher ...;
struct Lesson { Class class; Teacher teacher; };
int lessons = ...;
range Slot 1..4;
Lesson lesson[1..lessons] = ...;
{Slot} away[Teacher] = ...;     // when a teacher is not there
int rooms = ...;
var Slot slot[1..lessons];
solve {
  forall(ordered i, j in 1..lessons : lesson[i].class = lesson[j].class \/ lesson[i].teacher = lesson[j].teacher)
    slot[i] <> slot[j];
  forall(i in 1..lessons, s in away[lesson[i].teacher]) slot[i] <> s;
  forall(s in Slot) sum(i in 1..lessons) (slot[i] = s) <= rooms;
};
