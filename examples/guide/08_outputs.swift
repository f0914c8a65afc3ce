// Two outputs from one call. Prints: 4 8
(int a, int b) two(int n) {
  a = n + 1;
  b = a * 2;
}
int p;
int q;
(p, q) = two(3);
printf("%i %i", p, q);
