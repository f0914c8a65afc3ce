// Comments and imports; an import has no effect. Prints: seen
import io;
/* All of this
   is a comment. */
printf("seen"); // and this
