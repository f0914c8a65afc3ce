// An element that no statement writes: the array is closed without it, and the read is a fault. Prints: swt: fault F3 NoElement 154 /
int A[];
A[0] = 1;
printf("%i", A[3]);
