// Refuses one request for memory of the program that this is loaded before (LD_PRELOAD): the REFUSE_GROWTH-th; with
// REFUSE_ALL also all that come behind it. So want of memory is tried on the very program that is proved and built. A request
// that is refused is answered as the C library answers where it has none: no block, ENOMEM, and a block that was to grow as it
// was. All others go to the C library.
//
// Requests are counted from the program's own start on, not those of the loader and the C library before it, and each is
// one, whether a block is new, grows or shrinks. At the one that is refused the file REFUSE_MET is made, which says that the
// program has made so many, and by its octet whether its first thread asked, `F`, or another one, `O`. Threads count together.
//
// With REFUSE_EACH, a folder, each request is refused in one run: there the program makes two copies of itself, one after the
// other, in which the request is refused, alone and with all behind it. It waits until they end, and goes on with all memory.
// So a program of one thread is tried that writes no file. What copies say stands in the folder in `out` and `errors`, one
// behind the other, and of each an `Ended` in `ended`. The program's own output has to be a file.
//
// No header is included, so that the toolchain's compiler alone can make this.

typedef __SIZE_TYPE__ size_t;

enum { NO_MEMORY = 12, BAD_ALIGNMENT = 22, WRITE_CREATE = 0101, APPEND = 02000, OWNER_MAY_WRITE = 0600 };
enum { SET = 0, HERE = 1, END = 2, OUT = 1, ERRORS = 2, FILES = 16, SECONDS = 60 };

extern char *getenv(const char *name);
extern long atol(const char *text);
extern int open(const char *path, int flags, ...);
extern int openat(int folder, const char *path, int flags, ...);
extern int close(int file);
extern int dup2(int file, int as);
extern long lseek(int file, long place, int from);
extern long write(int file, const void *octets, size_t count);
extern int fork(void);
extern int getpid(void);
extern int gettid(void);
extern int waitpid(int child, int *status, int options);
extern unsigned alarm(unsigned seconds);
extern int *__errno_location(void);
extern void *__libc_malloc(size_t octets);
extern void *__libc_calloc(size_t count, size_t octets);
extern void *__libc_realloc(void *block, size_t octets);
extern void *__libc_memalign(size_t alignment, size_t octets);

// Which request is refused, 0 where none is; whether all behind it are; and how many were made.
static long refused;
static int refuses_all;
static long made;

// How a copy ended: its status as `waitpid` tells it, how much the program had said when the copy was made, and where what the
// copy said ends in its files.
struct Ended {
    long status, out_before, errors_before, out_end, errors_end;
};

// Whether each request is refused in copies, and the files of these.
static int refuses_each;
static int copies_out, copies_errors, copies_ended;

__attribute__((constructor)) static void begin(void) {
    const char *growth = getenv("REFUSE_GROWTH");
    refused = growth ? atol(growth) : 0;
    refuses_all = getenv("REFUSE_ALL") != 0;
    const char *folder = getenv("REFUSE_EACH");
    if (!folder) return;
    refuses_each = 1;
    int in = open(folder, 0);
    copies_out = openat(in, "out", WRITE_CREATE | APPEND, OWNER_MAY_WRITE);
    copies_errors = openat(in, "errors", WRITE_CREATE | APPEND, OWNER_MAY_WRITE);
    copies_ended = openat(in, "ended", WRITE_CREATE | APPEND, OWNER_MAY_WRITE);
    close(in);
}

// Makes a copy, in which this request is refused: 1 in the copy, and 0 behind its end. A copy shares the places in open files.
static int is_copy(int with_all_after) {
    long places[FILES];
    for (int file = 0; file < FILES; file++) places[file] = lseek(file, 0, HERE);
    int copy = fork();
    if (copy == 0) {
        alarm(SECONDS);
        dup2(copies_out, OUT);
        dup2(copies_errors, ERRORS);
        refuses_each = 0;
        refused = made;
        refuses_all = with_all_after;
        return 1;
    }
    int status = -1;
    waitpid(copy, &status, 0);
    struct Ended ended = {status, places[OUT], places[ERRORS], lseek(copies_out, 0, END), lseek(copies_errors, 0, END)};
    write(copies_ended, &ended, sizeof ended);
    for (int file = 0; file < FILES; file++) if (places[file] >= 0) lseek(file, places[file], SET);
    return 0;
}

static int is_refused_in_copies(void) {
    made++;
    int is_refused = is_copy(0) || is_copy(1);
    if (is_refused) *__errno_location() = NO_MEMORY;
    return is_refused;
}

// Says that the request was made, and by which thread.
static void say_met(void) {
    const char *met = getenv("REFUSE_MET");
    if (!met) return;
    int file = open(met, WRITE_CREATE, OWNER_MAY_WRITE);
    write(file, gettid() == getpid() ? "F" : "O", 1);
    close(file);
}

static int is_refused(void) {
    if (refuses_each) return is_refused_in_copies();
    if (refused == 0) return 0;
    long request = __atomic_add_fetch(&made, 1, __ATOMIC_SEQ_CST);
    if (request < refused || (request > refused && !refuses_all)) return 0;
    if (request == refused) say_met();
    *__errno_location() = NO_MEMORY;
    return 1;
}

void *malloc(size_t octets) { return is_refused() ? 0 : __libc_malloc(octets); }

void *calloc(size_t count, size_t octets) { return is_refused() ? 0 : __libc_calloc(count, octets); }

void *realloc(void *block, size_t octets) { return is_refused() ? 0 : __libc_realloc(block, octets); }

void *reallocarray(void *block, size_t count, size_t octets) {
    size_t all;
    if (__builtin_mul_overflow(count, octets, &all)) {
        *__errno_location() = NO_MEMORY;
        return 0;
    }
    return realloc(block, all);
}

void *memalign(size_t alignment, size_t octets) { return is_refused() ? 0 : __libc_memalign(alignment, octets); }

void *aligned_alloc(size_t alignment, size_t octets) { return memalign(alignment, octets); }

int posix_memalign(void **block, size_t alignment, size_t octets) {
    if (alignment == 0 || alignment % sizeof(void *) || alignment & (alignment - 1)) return BAD_ALIGNMENT;
    void *made = memalign(alignment, octets);
    if (made) *block = made;
    return made ? 0 : NO_MEMORY;
}
