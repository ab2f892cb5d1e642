var int x in -524288..524288;
solve { };