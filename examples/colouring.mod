// A map of five regions, three colours. Regions that touch have different colours. The north is given the first one.
var int north in 1..3;
var int east in 1..3;
var int south in 1..3;
var int west in 1..3;
var int centre in 1..3;
solve {
  north = 1;
  north <> east;
  east <> south;
  south <> west;
  west <> north;
  centre <> north;
  centre <> east;
  centre <> south;
  centre <> west;
};
