enum Nation {english,spanish,ukrainian,norwegian,japanese};
enum Drink {coffee,tea,milk,juice,water};
enum Pet {dog,snails,fox,horse,zebra};
range House 1..5;
var House lives[Nation];
var House drinks[Drink];
var House keeps[Pet];
solve {
  alldifferent(lives); alldifferent(drinks); alldifferent(keeps);
  lives[spanish] = keeps[dog];
  lives[ukrainian] = drinks[tea];
  drinks[milk] = 3;
  lives[norwegian] = 1;
  abs(keeps[fox] - drinks[juice]) = 1;
  lives[norwegian] = 2 <=> lives[english] = 1;
};
