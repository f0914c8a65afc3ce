// A loop over an array has a turn for each element, with its key. Prints: 0 a | 1 b | 2 c
string words[] = ["a", "b", "c"];
foreach word, k in words {
  printf("%i %s", k, word);
}
