int total;
foreach i in [1:10] {
    total = total + i * i;
}
printf("%i", total);
