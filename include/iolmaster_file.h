/* iolmaster_file.h: a flash that is a file of POSIX, over the calls of iolmaster.h. It stands apart from the library, which asks nothing
 * of a system but memory, so that it also links where there is no file.
 *
 * A file is open to read and write, and belongs to one master (lock it, as with flock). Define _POSIX_C_SOURCE as 200809L or more
 * before the first header.
 */
#ifndef IOLMASTER_FILE_H
#define IOLMASTER_FILE_H

#include "iolmaster.h"

#include <errno.h>
#include <sys/types.h>
#include <unistd.h>

/* Whether a transfer of a sector goes on, of which so many octets were moved before, and this came of one call more. */
static inline bool iolm_file_goes_on(ssize_t moved, size_t *done) {
    *done += moved > 0 ? (size_t)moved : 0;
    return *done < IOLM_SECTOR_OCTETS && (moved > 0 || (moved < 0 && errno == EINTR));
}

/* Reads a sector. False where that fails, or the file ends before. */
static inline bool iolm_file_read(int file, uint64_t sector, uint8_t octets[IOLM_SECTOR_OCTETS]) {
    off_t at = (off_t)(sector * IOLM_SECTOR_OCTETS);
    size_t done = 0;
    while (iolm_file_goes_on(pread(file, octets + done, IOLM_SECTOR_OCTETS - done, at + (off_t)done), &done)) {
    }
    return done == IOLM_SECTOR_OCTETS;
}

/* Makes a WRITE or a SYNC; whether it was made. A sync that fails is not made again: what it lost may then be told as durable. */
static inline bool iolm_file_make(int file, uint32_t what, const struct iolm_disk_call *call) {
    off_t at = (off_t)(call->sector * IOLM_SECTOR_OCTETS);
    size_t done = 0;
    if (what == IOLM_SYNC) {
        return fdatasync(file) == 0;
    }
    while (iolm_file_goes_on(pwrite(file, call->octets + done, IOLM_SECTOR_OCTETS - done, at + (off_t)done), &done)) {
    }
    return done == IOLM_SECTOR_OCTETS;
}

/* Formats a file, and gives it the length of its sectors. What it held is gone. OK, INVALID, MEMORY, DISK_WRITE or DISK_SYNC. */
static inline uint32_t iolm_file_format(int file, uint16_t ports, uint16_t slots) {
    struct iolm_disk_call call;
    uint64_t sectors;
    size_t number;
    uint32_t what = iolm_format_sectors(ports, slots, &sectors);
    if (what != IOLM_OK) {
        return what;
    }
    if (ftruncate(file, (off_t)(sectors * IOLM_SECTOR_OCTETS))) {
        return IOLM_DISK_WRITE;
    }
    for (number = 0; (what = iolm_format_next(ports, slots, number, &call)) == IOLM_WRITE || what == IOLM_SYNC; number++) {
        if (!iolm_file_make(file, what, &call)) {
            return what == IOLM_WRITE ? IOLM_DISK_WRITE : IOLM_DISK_SYNC;
        }
    }
    return what == IOLM_NOTHING ? (uint32_t)IOLM_OK : what;
}

/* Opens the flash that a file holds; a master that the handle has is ended. OK, MEMORY, DISK_READ, DISK_SYNC, NOT_FORMATTED, TOO_SMALL or
 * DAMAGED, and then the handle is closed. */
static inline uint32_t iolm_file_open(struct iolm *handle, int file) {
    struct iolm_disk_call call;
    uint8_t octets[IOLM_SECTOR_OCTETS];
    off_t length = lseek(file, 0, SEEK_END);
    uint32_t what = length < 0 ? (uint32_t)IOLM_DISK_READ : iolm_open(handle, (size_t)(length / IOLM_SECTOR_OCTETS));
    while (what == IOLM_OK) {
        what = iolm_disk_next(handle, &call);
        if (what == IOLM_SYNC) {
            what = iolm_disk_done(handle, fdatasync(file) == 0);
        } else if (what == IOLM_READ) {
            what = iolm_file_read(file, call.sector, octets) ? iolm_disk_read(handle, octets) : iolm_disk_done(handle, false);
        }
    }
    if (what == IOLM_OPENED) {
        return IOLM_OK;
    }
    iolm_close(handle);
    return what;
}

/* Makes the next call of the disk that a master wants, if it wants one. AGAIN where it made one or changes are durable, and then ports are
 * asked again; NOTHING, MEMORY, STOPPED, CLOSED or OPENING. */
static inline uint32_t iolm_file_step(struct iolm *handle, int file) {
    struct iolm_disk_call call;
    uint32_t what = iolm_disk_next(handle, &call);
    if (what == IOLM_WRITE || what == IOLM_SYNC) {
        what = iolm_disk_done(handle, iolm_file_make(file, what, &call));
        return what == IOLM_OK ? (uint32_t)IOLM_AGAIN : what;
    }
    return what;
}

#endif
