// A composite function calls itself; both calls may run at the same time. Prints: 55
(int r) fib(int n) {
  if (n < 2) {
    r = n;
  } else {
    r = fib(n - 1) + fib(n - 2);
  }
}
printf("%i", fib(10));
