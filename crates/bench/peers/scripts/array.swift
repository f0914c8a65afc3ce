import io;
int A[];
A[0] = 0;
foreach i in [1:1000000] { A[i] = A[i-1] + 1; }
printf("%i", A[1000000]);
