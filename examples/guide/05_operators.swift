// %/ truncates toward zero, %% has the sign of the dividend, and operators have the precedence of C. Prints: -3 -1 1 7
printf("%i %i %i %i", -7 %/ 2, -7 %% 2, 7 %% -2, 1 + 2 * 3);
