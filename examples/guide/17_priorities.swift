// Of the ready statements, the one with the greatest priority runs first; on one thread this is the order of the lines. Prints: first | second
@prio=1 printf("second");
@prio=5 printf("first");
