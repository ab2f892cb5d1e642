// Five exams in three slots. Algebra is before geometry, and both are sat by the same class as physics, which comes last
// of the three. Latin and history share a teacher; history is not in the last slot.
var int algebra in 1..3;
var int geometry in 1..3;
var int physics in 1..3;
var int latin in 1..3;
var int history in 1..3;
solve {
  algebra < geometry;
  geometry < physics;
  latin <> history;
  history < 3;
  latin <> physics;
};
