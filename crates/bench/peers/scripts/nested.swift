import io;
int A[];
foreach i in [0:999] {
  foreach j in [0:999] {
    if ((i + j) %% 2 == 0) { A[i*1000+j] = i; }
  }
}
printf("%i", size(A));
