// A statement runs when its inputs are known, wherever it is written. Prints: 3
int x;
int y;
x = y + 1;
y = 2;
printf("%i", x);
