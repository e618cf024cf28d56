// Tells the calls that the program makes of its disk, an image file, and fails one of them (LD_PRELOAD).
//
// Each call is a record behind the others in the file DISK_CALLS: its kind, the octet of the file that it begins at, how many
// octets it has, and, of a write, the octets. Kinds are `r`, `w` and `s` of a read, a write and a sync, and `R`, `W` and `S` of
// one that fails. What is told on standard error is a record `t`, or on the descriptor DISK_TOLD. With DISK_ENDS a sync that was made is
// followed by a record `e`. DISK_FAIL, such as `write 3`, fails the third write, once: it
// answers as the system does where a device fails, and leaves the first half of what it was to write and 11 behind it. A read
// or a sync that fails is not made. No header is included, so that the toolchain's compiler alone can make this.

typedef __SIZE_TYPE__ size_t;

enum { SYS_WRITE = 1, SYS_PREAD = 17, SYS_PWRITE = 18, SYS_FSYNC = 74 };
enum { DEVICE_FAILED = 5, WRITE_CREATE_APPEND = 02101, OWNER_MAY_WRITE = 0600, STDERR = 2 };

extern char *getenv(const char *name);
extern long atol(const char *text);
extern int open(const char *path, int flags, ...);
extern int *__errno_location(void);
extern void *memcpy(void *to, const void *from, size_t octets);
extern void *memset(void *to, int octet, size_t octets);
extern long syscall(long number, ...);

static int records = -1, told = STDERR, ends;
// The kind of the call that fails, and how many of it are left up to that one.
static char kind;
static long left;

__attribute__((constructor)) static void begin(void) {
    const char *calls = getenv("DISK_CALLS"), *fail = getenv("DISK_FAIL"), *descriptor = getenv("DISK_TOLD");
    if (calls) records = open(calls, WRITE_CREATE_APPEND, OWNER_MAY_WRITE);
    if (descriptor) told = (int)atol(descriptor);
    ends = getenv("DISK_ENDS") != 0;
    if (!fail) return;
    kind = fail[0];
    while (*fail && *fail++ != ' ') {}
    left = atol(fail);
}

// A record is written at once, so that it stands whole.
static void record(char its, long place, size_t count, const void *octets) {
    struct { long its, place, count; char octets[1 << 16]; } call = {its, place, (long)count, {0}};
    size_t held = octets ? count : 0;
    if (records < 0 || held > sizeof call.octets) return;
    memcpy(call.octets, octets, held);
    syscall(SYS_WRITE, records, &call, 3 * sizeof(long) + held);
}

static int fails(char its) {
    if (its != kind || left == 0 || --left > 0) return 0;
    *__errno_location() = DEVICE_FAILED;
    return 1;
}

long pread64(int file, void *octets, size_t count, long place) {
    int is_failed = fails('r');
    record(is_failed ? 'R' : 'r', place, count, 0);
    return is_failed ? -1 : syscall(SYS_PREAD, file, octets, count, place);
}

long pwrite64(int file, const void *octets, size_t count, long place) {
    char torn[1 << 16];
    int is_failed = fails('w') && count <= sizeof torn;
    if (!is_failed) {
        record('w', place, count, octets);
        return syscall(SYS_PWRITE, file, octets, count, place);
    }
    memcpy(torn, octets, count / 2);
    memset(torn + count / 2, 0x11, count - count / 2);
    record('W', place, count, torn);
    syscall(SYS_PWRITE, file, torn, count, place);
    *__errno_location() = DEVICE_FAILED;
    return -1;
}

int fsync(int file) {
    int is_failed = fails('s');
    record(is_failed ? 'S' : 's', 0, 0, 0);
    if (is_failed || syscall(SYS_FSYNC, file)) return -1;
    if (ends) record('e', 0, 0, 0);
    return 0;
}

long write(int file, const void *octets, size_t count) {
    if (file == told) record('t', 0, count, octets);
    return syscall(SYS_WRITE, file, octets, count);
}

long pread(int file, void *octets, size_t count, long place) { return pread64(file, octets, count, place); }

long pwrite(int file, const void *octets, size_t count, long place) { return pwrite64(file, octets, count, place); }

int fdatasync(int file) { return fsync(file); }
