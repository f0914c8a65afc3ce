// A variable that each branch assigns once. Prints: small
int n = 7;
string word;
if (n < 10) {
  word = "small";
} else if (n < 100) {
  word = "middling";
} else {
  word = "large";
}
printf("%s", word);
