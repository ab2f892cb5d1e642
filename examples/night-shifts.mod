// Three nights, two nurses on duty each: one on call, one in the ward. Nurses are 1 to 4. Nobody has two duties in one
// night, nobody is on call twice, nurse 4 does no ward duty, and nurse 1 is away on night 2. Nurse 4 is new and takes the
// last call; the ward of the last night is done by whoever did it on the first.
var int call1 in 1..4; var int ward1 in 1..3;
var int call2 in 2..4; var int ward2 in 2..3;
var int call3 in 1..4; var int ward3 in 1..3;
solve {
  call1 <> ward1; call2 <> ward2; call3 <> ward3;
  call1 <> call2; call2 <> call3; call1 <> call3;
  call3 = 4;
  ward3 = ward1;
  ward1 < ward2;
  call1 < call2;
};
