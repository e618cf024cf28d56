// Has the program that this is loaded before (LD_PRELOAD) take each file of 64 KiB or more for a block device: its metadata then says so,
// and tells no length, as that of a block device. All else is the file's own.

typedef __SIZE_TYPE__ size_t;

enum { SHORTEST = 65536, TYPE = 0170000, BLOCK_DEVICE = 0060000, REGULAR = 0100000 };

extern void *dlsym(void *library, const char *name);

// The fields of Linux's `struct statx` up to the length.
struct found {
    unsigned mask, block;
    unsigned long attributes;
    unsigned links, user, group;
    unsigned short mode, spare;
    unsigned long inode, size;
};

typedef int Statx(int folder, const char *path, int flags, unsigned mask, struct found *found);

int statx(int folder, const char *path, int flags, unsigned mask, struct found *found) {
    Statx *own = (Statx *)dlsym((void *)-1L, "statx");
    int status = own(folder, path, flags, mask, found);
    if (status == 0 && (found->mode & TYPE) == REGULAR && found->size >= SHORTEST) {
        found->mode = (unsigned short)((found->mode & ~TYPE) | BLOCK_DEVICE);
        found->size = 0;
    }
    return status;
}
