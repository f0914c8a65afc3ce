// A loop over a range, both ends included; its turns may run at the same time, and its lines come in any order. Prints: 1 | 4 | 7 | 10
foreach i in [1:10:3] {
  printf("%i", i);
}
