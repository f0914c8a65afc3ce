// A function fills an array of its caller. Prints: 4 9
(int B[]) squares(int m) {
  foreach i in [0:m - 1] {
    B[i] = i * i;
  }
}
int C[];
C = squares(4);
printf("%i %i", size(C), C[3]);
