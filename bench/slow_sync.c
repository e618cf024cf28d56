// Makes each sync of the program that this is loaded before (LD_PRELOAD) take SYNC_MICROSECONDS longer, as on a slower disk.
// The sync itself is made too, behind the wait.

#include <errno.h>
#include <stdlib.h>
#include <sys/syscall.h>
#include <time.h>
#include <unistd.h>

static struct timespec wait_time;

__attribute__((constructor)) static void begin(void) {
    const char *said = getenv("SYNC_MICROSECONDS");
    long microseconds = said ? atol(said) : 0;
    wait_time.tv_sec = microseconds / 1000000;
    wait_time.tv_nsec = microseconds % 1000000 * 1000;
}

static void wait_so_long(void) {
    struct timespec left = wait_time;
    while (nanosleep(&left, &left) != 0 && errno == EINTR) {
    }
}

int fsync(int file) {
    wait_so_long();
    return (int)syscall(SYS_fsync, file);
}

int fdatasync(int file) {
    wait_so_long();
    return (int)syscall(SYS_fdatasync, file);
}
