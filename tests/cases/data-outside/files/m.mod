range R 1..3;
{R} S = ...;
solve { };