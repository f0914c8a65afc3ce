// Each turn waits for the element that the previous turn writes. Prints: 32
int A[];
A[0] = 1;
foreach i in [1:5] {
  A[i] = A[i - 1] * 2;
}
printf("%i", A[5]);
