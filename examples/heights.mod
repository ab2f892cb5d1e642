// Three children on a scale of -1, 0 and 1 around the class's middle. Kim is no smaller than Lou, Lou is no taller than
// Mia, and Kim and Mia differ. Somebody says that Mia is smaller than Lou. That cannot be: there is no solution.
var int kim in -1..1;
var int lou in -1..1;
var int mia in -1..1;
solve {
  kim >= lou;
  lou <= mia;
  kim <> mia;
  mia < lou;
};
