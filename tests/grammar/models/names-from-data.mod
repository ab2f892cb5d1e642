enum E ...; var int x[E] in 1..1; solve { };
