// A call does not wait for an array argument; the body reads each element when it is written. Prints: 6
(int r) third(int B[]) {
  r = B[2] * 2;
}
int A[];
A[2] = 3;
printf("%i", third(A));
