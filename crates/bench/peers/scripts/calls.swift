import io;
(int o) square(int n) { o = n * n; }
int A[];
foreach i in [1:200000] { A[i] = square(i); }
printf("%i", size(A));
