// An array may be keyed by strings; the keys of a loop over it are then strings. Prints: bob 41 | ada 36 | ada is 36, one of 2
int age[string];
age["bob"] = 41;
age["ada"] = 36;
foreach years, name in age {
    printf("%s %i", name, years);
}
printf("ada is %i, one of %i", age["ada"], size(age));
