// A composite function has outputs, a name and inputs; a call opens its body without waiting for the arguments. Prints: 10
(int r) twice(int n) {
  r = n + n;
}
printf("%i", twice(twice(2)) + twice(1));
