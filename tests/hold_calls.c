// Stands between a program and the file that it writes (LD_PRELOAD), as HELD_CALLS says, in words with blanks between them:
//
// hold N    the N-th write makes the file `begun`, and waits until a file `go` is there; the first one where no number is said
// lose      what is written is kept aside until the next sync, and so lost where none comes, as by a power stop
// write N   the N-th write fails, and is not made; writes are counted from 1
// sync N    the N-th sync fails, likewise
//
// So the very program that is proved and built is tried on a disk that is slow or fails, and stopped by its end. No header is
// included, so that the toolchain's compiler alone can make this. A file is read and written in whole sectors.

typedef __SIZE_TYPE__ size_t;

enum { SECTOR = 512, MOST_ASIDE = 1024, INPUT_OUTPUT_ERROR = 5, WRITE_CREATE = 0101, OWNER_MAY_WRITE = 0600, MILLISECOND = 1000 };

extern char *getenv(const char *name);
extern char *strstr(const char *text, const char *word);
extern long atol(const char *text);
extern size_t strlen(const char *text);
extern void *memcpy(void *to, const void *from, size_t octets);
extern void *dlsym(void *library, const char *name);
extern int open(const char *path, int flags, ...);
extern int close(int file);
extern int access(const char *path, int mode);
extern int usleep(unsigned microseconds);
extern int *__errno_location(void);

typedef long Transfer(int file, void *octets, size_t count, long at);
typedef int Sync(int file);

static struct {
    long at;
    char octets[SECTOR];
} aside[MOST_ASIDE];

static int kept_aside, is_lost;
static long writes, syncs, held_write, failing_write, failing_sync;

// The number behind a word, 0 where it is not said.
static long behind(const char *said, const char *word) {
    const char *found = strstr(said, word);
    return found ? atol(found + strlen(word)) : 0;
}

__attribute__((constructor)) static void begin(void) {
    const char *said = getenv("HELD_CALLS");
    if (!said) return;
    if (strstr(said, "hold")) held_write = behind(said, "hold ") ? behind(said, "hold ") : 1;
    is_lost = strstr(said, "lose") != 0;
    failing_write = behind(said, "write ");
    failing_sync = behind(said, "sync ");
}

static int fails(void) {
    *__errno_location() = INPUT_OUTPUT_ERROR;
    return -1;
}

// The system's own call.
static void *own(const char *name) { return dlsym((void *)-1L, name); }

static void hold(void) {
    if (writes != held_write) return;
    close(open("begun", WRITE_CREATE, OWNER_MAY_WRITE));
    while (access("go", 0)) usleep(MILLISECOND);
}

long pwrite64(int file, const void *octets, size_t count, long at) {
    writes++;
    hold();
    if (writes == failing_write) return fails();
    if (!is_lost) return ((Transfer *)own("pwrite64"))(file, (void *)octets, count, at);
    if (count != SECTOR || kept_aside == MOST_ASIDE) return fails();
    aside[kept_aside].at = at;
    memcpy(aside[kept_aside++].octets, octets, SECTOR);
    return SECTOR;
}

long pread64(int file, void *octets, size_t count, long at) {
    long read = ((Transfer *)own("pread64"))(file, octets, count, at);
    for (int place = 0; place < kept_aside; place++)
        if (aside[place].at == at && count == SECTOR) memcpy(octets, aside[place].octets, SECTOR);
    return read;
}

int fsync(int file) {
    if (++syncs == failing_sync) return fails();
    for (int place = 0; place < kept_aside; place++)
        if (((Transfer *)own("pwrite64"))(file, aside[place].octets, SECTOR, aside[place].at) != SECTOR) return fails();
    kept_aside = 0;
    return ((Sync *)own("fsync"))(file);
}

long pwrite(int file, const void *octets, size_t count, long at) { return pwrite64(file, octets, count, at); }

long pread(int file, void *octets, size_t count, long at) { return pread64(file, octets, count, at); }

int fdatasync(int file) { return fsync(file); }
