/* A library to be loaded before a program's own (LD_PRELOAD). It refuses one of the program's requests, or each of a
   kind, as the variable REFUSED says in two words and a number:

       memory fails N          the Nth request for memory is refused
       read HOW N              the Nth read of standard input fails, is interrupted, or gives one byte at most: HOW is
                               fails, stops or short
       write HOW N             the Nth write of standard output does so; if HOW is none, it takes nothing

   N counts from 1, and 0 means each. The first time it says "refused" on standard error. If REFUSED is "count", nothing is
   refused: before each write of standard output it says on standard error how many requests for memory there were. If the
   variable STEP is set, each read of standard input and each write of standard output moves STEP bytes at most. It needs
   glibc on x86-64. */

typedef unsigned long size;

extern char *getenv(const char *);
extern int *__errno_location(void);
extern long syscall(long, ...);
extern void *__libc_malloc(size);
extern void *__libc_realloc(void *, size);

enum { READ = 0, WRITE = 1, INTERRUPTED = 4, FAILED = 5, NO_MEMORY = 12 };

/* The words of REFUSED: their first letters, that of the second word too, and the number. */
static char request, how;
static long number = -1;
static long counts[128];
static int has_said;

static const char *next_word(const char *word) {
    while (*word && *word != ' ') word++;
    while (*word == ' ') word++;
    return word;
}

static void read_wish(void) {
    const char *word = getenv("REFUSED");
    number = 0;
    if (!word) return;
    request = word[0];
    word = next_word(word);
    /* "stops" and "short" begin alike */
    how = word[0] && word[1] == 'h' ? 'h' : word[0];
    for (word = next_word(word); *word >= '0' && *word <= '9'; word++) number = 10 * number + *word - '0';
}

/* How many bytes a read or write moves at most. */
static size most(void) {
    const char *digits = getenv("STEP");
    size step = 0;
    for (; digits && *digits >= '0' && *digits <= '9'; digits++) step = 10 * step + *digits - '0';
    return step ? step : -1ul;
}

/* Says how many requests for memory there were, if that is the wish. */
static void say_count(void) {
    char line[24], *at = line + sizeof line;
    long left = counts['m'];
    if (request != 'c') return;
    *--at = '\n';
    do *--at = '0' + left % 10; while (left /= 10);
    syscall(WRITE, 2, at, line + sizeof line - at);
}

/* Whether this request is one to be refused. */
static int is_refused(char kind) {
    if (number < 0) read_wish();
    counts[(int)kind]++;
    if (kind == 'w') say_count();
    if (kind != request) return 0;
    if (number && number != counts[(int)kind]) return 0;
    if (!has_said) syscall(WRITE, 2, "refused\n", 8);
    has_said = 1;
    return 1;
}

static long fails(int why) {
    *__errno_location() = why;
    return -1;
}

static long moved(long call, int file, char *bytes, size count) {
    if (file != (call == READ ? 0 : 1)) return syscall(call, file, bytes, count);
    if (is_refused(call == READ ? 'r' : 'w')) {
        if (how == 'f') return fails(FAILED);
        if (how == 's') return fails(INTERRUPTED);
        if (how == 'n') return 0;
        if (count > 1) count = 1;
    }
    return syscall(call, file, bytes, count < most() ? count : most());
}

void *malloc(size count) {
    if (!is_refused('m')) return __libc_malloc(count);
    fails(NO_MEMORY);
    return 0;
}

void *realloc(void *held, size count) {
    if (!is_refused('m')) return __libc_realloc(held, count);
    fails(NO_MEMORY);
    return 0;
}

long read(int file, void *bytes, size count) { return moved(READ, file, bytes, count); }
long write(int file, const void *bytes, size count) { return moved(WRITE, file, (char *)bytes, count); }
long __write(int file, const void *bytes, size count) { return moved(WRITE, file, (char *)bytes, count); }
