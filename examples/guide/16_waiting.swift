// A wait opens its block when the variables in its parentheses are known. Prints: done with 42
int answer;
int doubled = answer * 2;
answer = 42;
wait (doubled) {
  printf("done with %i", answer);
}
