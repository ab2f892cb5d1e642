range R 1..5;
{R} S = {1, 9};
solve { };