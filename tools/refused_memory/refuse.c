/* Refuses the allocation whose number, from 1, is in REFUSE, of the program that this is loaded before;
   with ONWARDS set to something, each later one as well.
   With EACH set to "FIRST STEP LAST", the program runs once for each of these numbers, for LIMIT seconds at most. In
   the folder that OUTPUT names, NUMBER.out and NUMBER.err are what it wrote, and NUMBER.end tells how it ended.
   With COUNT set, how many allocations were asked for goes to standard error at the end. */
/* Declared here as on x86-64 with glibc, since the kit's clang comes without headers. */
typedef unsigned long size_t;
void *dlsym(void *, const char *);
int *__errno_location(void);
int snprintf(char *, size_t, const char *, ...);
long write(int, const void *, size_t), strtol(const char *, char **, int), atol(const char *), syscall(long, ...);
int open(const char *, int, ...), close(int), dup2(int, int), fork(void), waitpid(int, int *, int), atoi(const char *);
unsigned alarm(unsigned);
char *getenv(const char *);
void abort(void) __attribute__((noreturn));
#define NULL ((void *)0)
#define RTLD_NEXT ((void *)-1L)
enum { ENOMEM = 12, O_WRONLY = 01, O_CREAT = 0100, O_TRUNC = 01000, EXIT_GROUP = 231 };

static long asked;
static long number;
static int onwards;

static int refused(void) {
    long now = __atomic_add_fetch(&asked, 1, __ATOMIC_SEQ_CST);
    return now == number || (onwards && number > 0 && now > number);
}

void *malloc(size_t size) {
    static void *(*next)(size_t);
    if (!next) next = (void *(*)(size_t))dlsym(RTLD_NEXT, "malloc");
    if (refused()) return *__errno_location() = ENOMEM, NULL;
    return next(size);
}

void *realloc(void *old, size_t size) {
    static void *(*next)(void *, size_t);
    if (!next) next = (void *(*)(void *, size_t))dlsym(RTLD_NEXT, "realloc");
    if (refused()) return *__errno_location() = ENOMEM, NULL;
    return next(old, size);
}

/* Writes such a line, and allocates nothing. */
static void write_line(int to, const char *word, long value) {
    char line[32];
    int length = snprintf(line, sizeof line, "%s %ld\n", word, value);
    if (write(to, line, length) != length) abort();
}

__attribute__((destructor)) static void tell(void) {
    if (getenv("COUNT")) write_line(2, "asked", asked);
}

/* How a program with threads ends. */
void _exit(int status) {
    tell();
    syscall(EXIT_GROUP, status);
    __builtin_unreachable();
}

static int file(const char *end) {
    char path[4096];
    int length = snprintf(path, sizeof path, "%s/%ld.%s", getenv("OUTPUT"), number, end);
    int opened = length < (int)sizeof path ? open(path, O_CREAT | O_WRONLY | O_TRUNC, 0600) : -1;
    if (opened < 0) abort();
    return opened;
}

/* One run after another, each in a process of its own, which returns from here. */
static void run_each(char *words) {
    long first = strtol(words, &words, 10), step = strtol(words, &words, 10), last = strtol(words, &words, 10);
    for (number = first; step > 0 && number <= last; number += step) {
        int child = fork();
        if (child < 0) abort();
        if (child == 0) {
            if (dup2(file("out"), 1) < 0 || dup2(file("err"), 2) < 0) abort();
            alarm(atoi(getenv("LIMIT")));
            return;
        }
        int status, end = file("end");
        if (waitpid(child, &status, 0) != child) abort();
        if ((status & 0x7f) == 0) write_line(end, "status", status >> 8 & 0xff);
        else write_line(end, "signal", status & 0x7f);
        close(end);
    }
    _exit(0);
}

__attribute__((constructor)) static void begin(void) {
    char *word = getenv("REFUSE"), *words = getenv("EACH"), *later = getenv("ONWARDS");
    onwards = later && *later;
    if (word) number = atol(word);
    if (words) run_each(words);
}
