// The types int, string and boolean, of scalars and arrays. Prints: three is 3
int n = 3;
string word = "three";
boolean small = n < 10;
int numbers[] = [n, 4];
assert(small, "n is below 10");
printf("%s is %i", word, numbers[0]);
