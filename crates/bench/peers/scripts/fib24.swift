import io;
(int o) fib(int n) {
  if (n < 2) { o = n; } else { o = fib(n-1) + fib(n-2); }
}
printf("%i", fib(24));
