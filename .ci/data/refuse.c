/* An allocator that refuses: loaded in front of the C library's, it refuses the request whose number is in the environment as REFUSE_AT, or
   all from the one in REFUSE_FROM on, counted from 1. At its first refusal it writes a byte to the descriptor in REFUSE_TELL, so that who
   runs the program knows whether anything was refused. At the end it writes to the descriptor in REFUSE_LEFT how many blocks were not given
   back. In front of each line `taken` of standard error it writes how many requests came since the last line that begins with `take none`.
   As the C library's own does, it sets errno, by which starting a thread tells want of memory from what cannot be. It uses no header, so
   that any compiler makes it. */
typedef unsigned long size;

extern void *__libc_malloc(size);
extern void *__libc_calloc(size, size);
extern void *__libc_realloc(void *, size);
extern void *__libc_memalign(size, size);
extern void __libc_free(void *);
extern char *getenv(const char *);
extern long atol(const char *);
extern long __write(int, const void *, size);
extern int *__errno_location(void);

/* ENOMEM. */
static const int no_memory = 12;

static long requests, refusals, blocks, at, from, tell, since;
static int known;

static long number(const char *name) {
    char *text = getenv(name);
    return text ? atol(text) : 0;
}

static int refused(void) {
    if (!known) {
        at = number("REFUSE_AT");
        from = number("REFUSE_FROM");
        tell = number("REFUSE_TELL");
        known = 1;
    }
    long request = __atomic_add_fetch(&requests, 1, __ATOMIC_SEQ_CST);
    if (request != at && (from == 0 || request < from))
        return 0;
    if (__atomic_add_fetch(&refusals, 1, __ATOMIC_SEQ_CST) == 1 && tell)
        __write((int)tell, "", 1);
    *__errno_location() = no_memory;
    return 1;
}

static void *counted(void *made) {
    if (made)
        __atomic_add_fetch(&blocks, 1, __ATOMIC_SEQ_CST);
    return made;
}

void *malloc(size bytes) { return refused() ? 0 : counted(__libc_malloc(bytes)); }
void *calloc(size many, size bytes) { return refused() ? 0 : counted(__libc_calloc(many, bytes)); }
void *memalign(size place, size bytes) { return refused() ? 0 : counted(__libc_memalign(place, bytes)); }
void *aligned_alloc(size place, size bytes) { return memalign(place, bytes); }

int posix_memalign(void **made, size place, size bytes) {
    void *found = memalign(place, bytes);
    if (!found)
        return no_memory;
    *made = found;
    return 0;
}

void free(void *old) {
    if (old)
        __atomic_sub_fetch(&blocks, 1, __ATOMIC_SEQ_CST);
    __libc_free(old);
}

/* With no bytes it gives back, which is never refused. */
void *realloc(void *old, size bytes) {
    if (old && !bytes) {
        free(old);
        return 0;
    }
    if (refused())
        return 0;
    return old ? __libc_realloc(old, bytes) : counted(__libc_malloc(bytes));
}

/* Writes a number with a sign to a descriptor, and a line's end if it is wanted. */
static void told(int where, long number, int line) {
    long many = number < 0 ? -number : number, place = 24;
    char text[25];
    text[24] = '\n';
    do
        text[--place] = (char)('0' + many % 10);
    while ((many /= 10) > 0);
    if (number < 0)
        text[--place] = '-';
    __write(where, text + place, (size)(24 - place + line));
}

static int begins(const char *text, size bytes, const char *word) {
    size at_byte = 0;
    while (word[at_byte] && at_byte < bytes && text[at_byte] == word[at_byte])
        at_byte++;
    return !word[at_byte];
}

/* Everything that is written passes here. The marks are looked for on standard error alone. */
long write(int where, const void *text, size bytes) {
    if (where == 2 && begins(text, bytes, "take none"))
        since = requests;
    if (where == 2 && begins(text, bytes, "taken")) {
        __write(2, "requests: ", 10);
        told(2, requests - since, 1);
    }
    return __write(where, text, bytes);
}

static void left(void) {
    long where = number("REFUSE_LEFT");
    if (where)
        told((int)where, blocks, 0);
}

/* A program of the kit ends here, and runs no destructor. */
__attribute__((noreturn)) void _exit(int status) {
    left();
    for (;;)
        __asm__ volatile("syscall" : : "a"(231L), "D"((long)status) : "rcx", "r11", "memory");
}
