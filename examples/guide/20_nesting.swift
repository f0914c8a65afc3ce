// A loop within a loop, with a branch inside. Prints: 1 2 | 1 3 | 2 3
foreach i in [1:3] {
  foreach j in [1:3] {
    if (i < j) {
      printf("%i %i", i, j);
    }
  }
}
