import io;
foreach i in [1:1000000] { printf("%i", i); }
