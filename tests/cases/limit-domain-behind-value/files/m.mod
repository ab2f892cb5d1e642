range R -4611686018427387905..0;
var R x;
solve { };