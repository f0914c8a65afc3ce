// Strings and conversions. Prints: a-7 and 3 of 50%
import string;
string tail = fromint(toint("-007"));
printf("%s and %i of %d%%", strcat("a", tail), 1 + 2, 50);
