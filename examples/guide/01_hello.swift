// The smallest script. Prints: hello
printf("hello");
