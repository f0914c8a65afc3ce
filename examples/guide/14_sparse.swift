// Arrays are sparse; a loop over an array opens its turns when no remaining statement can write it. Prints: -2 holds 5 | 10 holds 7 | 2 elements
int A[];
A[10] = 7;
A[-2] = 5;
foreach v, k in A {
  printf("%i holds %i", k, v);
}
printf("%i elements", size(A));
