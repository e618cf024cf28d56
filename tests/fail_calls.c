// Makes one call of a file go wrong in the program that this is loaded before (LD_PRELOAD): the FAIL_NUMBER-th of the kind
// FAIL_CALL, which is open, lock, length, read, write, cut or sync. So calls of files are tried on the very program that is
// proved and built. FAIL_HOW says how: a number is the error that the call ends with, and it is not made. `none` lets a read or
// a write take no octet, and with `most N` each of them takes at most N octets. `run COMMAND` hands COMMAND to sh just before
// the call, which is then made.
//
// Where FAIL_MET is set, the file of that name is made at this call, which says that the program has made so many. Reads and
// writes are those at a place in a file, as images have them, and not those of standard output. A read that fails has
// filled its octets with something. No header is included, so that the toolchain's compiler alone can make this.

typedef __SIZE_TYPE__ size_t;
typedef __PTRDIFF_TYPE__ ssize_t;
typedef __INT64_TYPE__ place_t;
typedef __builtin_va_list more_t;

enum { CREATE = 0100, TEMPORARY = 020000000, WRITE_CREATE = 0101, OWNER_MAY_WRITE = 0600, EMPTY_PATH = 0x1000 };

extern char *getenv(const char *name);
extern int unsetenv(const char *name);
extern long atol(const char *text);
extern int strcmp(const char *one, const char *other);
extern int strncmp(const char *one, const char *other, size_t octets);
extern void *memset(void *octets, int octet, size_t count);
extern int system(const char *command);
extern int close(int file);
extern int *__errno_location(void);
extern void *dlsym(void *library, const char *name);

// The function of this name that stands behind this library.
#define NEXT(name) ((__typeof__(&name))dlsym((void *)-1L, #name))

static const char *kind = "", *how = "", *met;
static long number, calls;

int open(const char *path, int flags, ...);

__attribute__((constructor)) static void begin(void) {
    const char *said = getenv("FAIL_NUMBER");
    kind = getenv("FAIL_CALL") ? getenv("FAIL_CALL") : "";
    how = getenv("FAIL_HOW") ? getenv("FAIL_HOW") : "";
    met = getenv("FAIL_MET");
    number = said ? atol(said) : 0;
    // What the program or a command starts has its files as they are.
    unsetenv("LD_PRELOAD");
}

// Whether this is the call that goes wrong. A command is run here.
static int is_due(const char *call) {
    if (strcmp(call, kind) || __atomic_add_fetch(&calls, 1, __ATOMIC_SEQ_CST) != number) return 0;
    if (met) close(NEXT(open)(met, WRITE_CREATE, OWNER_MAY_WRITE));
    if (strncmp(how, "run ", 4)) return 1;
    system(how + 4);
    return 0;
}

// The answer of a call that is not made.
static int refused(void) {
    *__errno_location() = (int)atol(how);
    return -1;
}

static int ends_badly(const char *call) { return is_due(call) && refused(); }

// How many octets a read or a write may take.
static size_t most(size_t octets) {
    size_t bound = strncmp(how, "most ", 5) ? octets : (size_t)atol(how + 5);
    return bound < octets ? bound : octets;
}

int open(const char *path, int flags, ...) {
    unsigned mode = 0;
    if (flags & (CREATE | TEMPORARY)) {
        more_t more;
        __builtin_va_start(more, flags);
        mode = __builtin_va_arg(more, unsigned);
        __builtin_va_end(more);
    }
    return ends_badly("open") ? -1 : NEXT(open)(path, flags, mode);
}

int flock(int file, int operation) { return ends_badly("lock") ? -1 : NEXT(flock)(file, operation); }

// The length of an open file is asked for by no path.
int statx(int file, const char *path, int flags, unsigned mask, void *found) {
    return flags & EMPTY_PATH && ends_badly("length") ? -1 : NEXT(statx)(file, path, flags, mask, found);
}

ssize_t pread(int file, void *octets, size_t count, place_t place) {
    if (!is_due("read")) return NEXT(pread)(file, octets, most(count), place);
    if (!strcmp(how, "none")) return 0;
    memset(octets, 0xEE, count);
    return refused();
}

ssize_t pwrite(int file, const void *octets, size_t count, place_t place) {
    if (!is_due("write")) return NEXT(pwrite)(file, octets, most(count), place);
    return strcmp(how, "none") ? refused() : 0;
}

int ftruncate(int file, place_t length) { return ends_badly("cut") ? -1 : NEXT(ftruncate)(file, length); }

int fsync(int file) { return ends_badly("sync") ? -1 : NEXT(fsync)(file); }
