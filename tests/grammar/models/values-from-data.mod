range R 1..2; int a[R] = ...; solve { };
