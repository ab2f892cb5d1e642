// A village festival: at which hours do the choir, the play and the fireworks begin?
// The committee keeps this one model, and a data file for each plan: a Friday, a Saturday, and one for rain.

enum Weather {dry, wet};
enum Band ...;                          // who plays, as the data file names them
struct Pause { int begin; int end; };

int opening = ...;                      // the hours of the day
int closing = ...;
range Hour opening..closing;

Pause supper = ...;                     // nothing begins while the tables are set
Hour sunset = ...;
Weather sky = ...;
int minutes[Band] = ...;                // how long each band plays
int hours = (sum(b in Band) minutes[b] + 59) div 60;

var Hour choir;
var Hour play;
var int fireworks in sunset..closing;

solve {
  choir < play;
  play <= closing - hours;              // the bands play behind the play, one after another
  not (supper.begin <= choir & choir < supper.end);
  not (supper.begin <= play & play < supper.end);
  sky = wet => choir = opening;         // before the rain
  sky = dry => fireworks > play;
  fireworks <> closing \/ card(Band) > 2;
};
