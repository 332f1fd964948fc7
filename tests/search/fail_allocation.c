/* Counts a program's growths, refuses one of them, and measures the memory that the program holds.

   LD_PRELOAD puts this library before the C library, between the program and malloc, realloc and free. Each malloc and realloc is
   a growth, numbered from 1 in order. The growth with the number `refuse` gets null, and all others succeed. The numbers are in
   the file that GROWTHS names. The caller makes this file, and the numbers are available however the program ends. The library
   needs glibc, and no header, since the toolchain's clang has none. */
typedef unsigned long size_t;

extern void *__libc_malloc(size_t);
extern void *__libc_realloc(void *, size_t);
extern void __libc_free(void *);
extern size_t malloc_usable_size(void *);
extern char *getenv(const char *);
extern int open(const char *, int, ...), close(int), sscanf(const char *, const char *, ...);
extern long read(int, void *, size_t), syscall(long, ...);
extern void *mmap(void *, size_t, int, int, int, long);
extern void abort(void) __attribute__((noreturn));

enum { READ_ONLY = 0, READ_WRITE = 2, READABLE_WRITABLE = 3, SHARED = 1, EXIT_GROUP = 231 };

/* The numbers in the order of the caller. `refuse` is the growth to refuse (0: none). `growths` and `refused` count so far. `held` and
   `most` are the bytes of blocks held now and at most. `peak` is the most kilobytes of the process, set at its end. */
static volatile struct { long refuse, growths, refused, held, most, peak; } *told;

static long add(volatile long *number, long more) {
    return __atomic_add_fetch(number, more, __ATOMIC_SEQ_CST);
}

__attribute__((constructor)) static void begin(void) {
    int file = open(getenv("GROWTHS"), READ_WRITE);
    told = mmap(0, sizeof *told, READABLE_WRITABLE, SHARED, file, 0);
    if (file < 0 || (long)told == -1) abort();
    close(file);
}

static int is_refused(void) {
    if (!told || add(&told->growths, 1) != told->refuse) return 0;
    return add(&told->refused, 1);
}

static void *held(void *block) {
    if (!told) return block;
    long now = add(&told->held, malloc_usable_size(block)), most = told->most;
    while (now > most && !__atomic_compare_exchange_n(&told->most, &most, now, 0, __ATOMIC_SEQ_CST, __ATOMIC_SEQ_CST)) {}
    return block;
}

void *malloc(size_t size) {
    return is_refused() ? 0 : held(__libc_malloc(size));
}

void *realloc(void *block, size_t size) {
    if (is_refused()) return 0;
    long before = malloc_usable_size(block);
    void *after = __libc_realloc(block, size);
    if (!after) return 0;
    if (told) add(&told->held, -before);
    return held(after);
}

void free(void *block) {
    if (told) add(&told->held, -(long)malloc_usable_size(block));
    __libc_free(block);
}

/* The program ends by this call, and the peak is read here. */
void _exit(int status) {
    char text[4096] = "";
    int file = open("/proc/self/status", READ_ONLY);
    long kilobytes;
    if (read(file, text, sizeof text - 1) < 0) abort();
    for (char *line = text; *line; line++)
        if (sscanf(line, "VmHWM: %ld", &kilobytes) == 1) told->peak = kilobytes;
    for (;;) syscall(EXIT_GROUP, (long)status);
}
