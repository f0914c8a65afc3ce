// A variable and an element that wait for each other: no statement can run, and the run reports the blocked statements. Prints: swt: blocked 206 / | swt: blocked 216 / | swt: blocked 226 /
int x;
int A[];
x = A[0];
A[0] = x;
printf("%i", x);
