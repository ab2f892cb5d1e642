enum Exam {maths,physics,art,latin,music};
{Exam} hard = {maths,physics,latin};
range Slot 1..4;
var Slot slot[Exam];
solve {
  forall(ordered e,f in hard) slot[e] <> slot[f];
  forall(e in Exam : e in hard) slot[e] <= 3;
  if card(hard) > 2 then slot[maths] < slot[latin]; slot[art] = 4 endif;
};
