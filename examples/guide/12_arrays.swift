// An array that is written and read by elements; size waits until no remaining statement can write it. Prints: 5 of 2
int A[];
A[0] = 2;
A[1] = A[0] + 3;
printf("%i of %i", A[1], size(A));
