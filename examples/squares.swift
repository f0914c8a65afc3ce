(int r) square(int n) {
    r = n * n;
}
int S[];
S[0] = 0;
foreach i in [1:10] {
    S[i] = S[i - 1] + square(i);
}
printf("the squares of 1 to 10 add up to %i", S[10]);
