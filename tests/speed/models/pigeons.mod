// Nine pigeons in eight holes, each alone: it cannot be.
range Pigeon 1..9;
var int hole[Pigeon] in 1..8;
solve { forall(ordered i, j in Pigeon) hole[i] <> hole[j]; };
