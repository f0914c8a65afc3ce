// A function that calls itself, once for each element of an array. Prints: 0 2 | 1 1 | 2 1
(int r) fib(int n) {
    if (n < 2) { r = n; } else { r = fib(n-1) + fib(n-2); }
}
int A[] = [3, 1, 2];
foreach v, k in A {
    printf("%i %i", k, fib(v));
}
