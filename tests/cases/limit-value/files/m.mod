int far = 4611686018427387905;
var int x in 0..far;
solve { };