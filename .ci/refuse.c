/* Refuses one allocation of a process, whose number, from 1, is in REFUSE, and says so on standard error. Where that is
   0 it refuses none, and says at the end how many there were. Where it is `between` it ends the process at an allocation
   between two marks, and where it is `marks` at the second mark: a mark is an allocation of MARK bytes. It takes the place
   of the C library's functions by LD_PRELOAD. No header is needed, so a compiler alone builds it. */
typedef unsigned long size;
extern void *__libc_malloc(size);
extern void *__libc_calloc(size, size);
extern void *__libc_realloc(void *, size);
extern void *__libc_memalign(size, size);
extern long write(int, const void *, size);
extern void _Exit(int) __attribute__((noreturn));
extern char *getenv(const char *);
extern int *__errno_location(void);

enum { OUT_OF_MEMORY = 12, MARK = 7654321, STATUS = 70 };

static unsigned long wanted, count, marks;
static char mode;

__attribute__((constructor)) static void read_wanted(void) {
    const char *digit = getenv("REFUSE");
    mode = digit ? *digit : '0';
    if (mode == 'b' || mode == 'm') return;
    for (; digit && *digit; digit++) wanted = wanted * 10 + (*digit - '0');
}

__attribute__((destructor)) static void tell_count(void) {
    char text[24];
    size at = sizeof text;
    if (wanted || mode == 'b' || mode == 'm') return;
    text[--at] = '\n';
    do text[--at] = '0' + count % 10;
    while (count /= 10);
    write(2, text + at, sizeof text - at);
}

/* A program that ends here runs no destructors. */
__attribute__((noreturn)) void _exit(int status) {
    tell_count();
    _Exit(status);
}

static void look_at_marks(size bytes) {
    if (mode == 'b' ? bytes != MARK && marks % 2 : bytes == MARK && marks % 2) _Exit(STATUS);
    marks += bytes == MARK;
}

static int is_refused(size bytes) {
    if (mode == 'b' || mode == 'm') {
        look_at_marks(bytes);
        return 0;
    }
    if (__atomic_add_fetch(&count, 1, __ATOMIC_SEQ_CST) != wanted) return 0;
    write(2, "refused\n", 8);
    *__errno_location() = OUT_OF_MEMORY;
    return 1;
}

void *malloc(size bytes) { return is_refused(bytes) ? 0 : __libc_malloc(bytes); }
void *calloc(size number, size bytes) { return is_refused(number * bytes) ? 0 : __libc_calloc(number, bytes); }
void *realloc(void *old, size bytes) { return is_refused(bytes) ? 0 : __libc_realloc(old, bytes); }
void *aligned_alloc(size alignment, size bytes) { return is_refused(bytes) ? 0 : __libc_memalign(alignment, bytes); }
