/* iolmaster.h: the data storage of an IO-Link master (IO-Link V1.1, Data Storage object) for C and C++, of up to 32 ports.
 *
 * The library makes no call of its own. It says which call of the disk and which exchange with a device it wants; the caller makes it
 * and reports what became of it. docs/C.md has a tour.
 *
 * A handle belongs to one call at a time, and not to a signal handler. It is not copied while it is open. Memory is taken by malloc
 * and realloc and returned by free. iolm_port_wake, iolm_port_event and what only reads take none.
 *
 * Each function but iolm_close answers one of `enum iolm_result`. Where it says INVALID, ABSENT, MISFIT, CLOSED or OPENING, or refuses a
 * change, nothing has changed; nor where it says MEMORY, but for iolm_open. What a pointer is for is then left as it is. Arguments are
 * looked at first, then the handle. No pointer may be null.
 */
#ifndef IOLMASTER_H
#define IOLMASTER_H

#include <stdbool.h>
#include <stddef.h>
#include <stdint.h>

#ifdef __cplusplus
extern "C" {
#endif

#define IOLM_SECTOR_OCTETS 512
#define IOLM_PAGE_OCTETS 16
#define IOLM_ISDU_OCTETS 238
#define IOLM_ENTRY_OCTETS 232
#define IOLM_LABEL_OCTETS 32
#define IOLM_PORTS 32

enum iolm_result {
    IOLM_OK = 0,
    IOLM_CLOSED = 1,          /* the handle has no master */
    IOLM_OPENING = 2,         /* its flash is still being opened */
    IOLM_MEMORY = 3,          /* out of memory: ask again */
    IOLM_STOPPED = 4,         /* a call of the disk has failed: nothing more is taken; close, and open anew */
    IOLM_INVALID = 5,         /* an argument is out of its range */
    IOLM_ABSENT = 6,          /* the master does not have this port */
    IOLM_MISFIT = 7,          /* nothing like it is waited for */
    IOLM_NOTHING = 8,         /* there is nothing to do, or no such entry */
    IOLM_AGAIN = 9,           /* something was done: ask again */
    IOLM_OPENED = 10,         /* the journal was found, and the master runs */
    IOLM_SYNC = 11,           /* make all durable that was written, then iolm_disk_done */
    IOLM_READ = 12,           /* read the sector, then iolm_disk_read; or iolm_disk_done with false */
    IOLM_WRITE = 13,          /* write the octets to the sector, then iolm_disk_done */
    IOLM_PAGE = 14,           /* read Direct Parameter page 1, then iolm_port_page or iolm_port_lost */
    IOLM_REQUEST = 15,        /* send the ISDU, then iolm_port_answer or iolm_port_lost */
    IOLM_UNKNOWN_PORT = 32,   /* why a change is refused: the master has no port of this number */
    IOLM_REVISION_SPENT = 33, /* the port has had its last revision */
    IOLM_NOT_ALLOWED = 34,    /* the port is not IOL_MANUAL with Backup and Restore */
    IOLM_STALE_REVISION = 35, /* the port was configured meanwhile */
    IOLM_WRONG_DEVICE = 36,   /* the set is of another device than is configured */
    IOLM_NO_PREVIOUS = 37,    /* the port has no previous set */
    IOLM_QUEUE_FULL = 38,     /* 64 changes wait for the disk */
    IOLM_EXHAUSTED = 39,      /* no number is left */
    IOLM_DISK_READ = 48,      /* why a flash is not opened: a read failed; the handle is to be opened anew */
    IOLM_DISK_WRITE = 49,     /* a write failed */
    IOLM_DISK_SYNC = 50,      /* a sync failed */
    IOLM_NOT_FORMATTED = 51,  /* it was never formatted, or not to its end */
    IOLM_TOO_SMALL = 52,      /* it has fewer sectors than its geometry asks for */
    IOLM_DAMAGED = 53         /* it holds what no journal writes */
};

/* What the caller keeps of a master: zeros before iolm_open. Its fields are the library's own. */
struct iolm {
    void *at;
    bool is_open;
};

#define IOLM_INIT { NULL, false }

struct iolm_disk_call {
    uint64_t sector;
    uint8_t octets[IOLM_SECTOR_OCTETS];
};

/* An ISDU for a device: `count` octets, and zeros behind them. */
struct iolm_request {
    uint32_t count;
    uint8_t octets[IOLM_ISDU_OCTETS];
};

enum iolm_mode { IOLM_DEACTIVATED, IOLM_IOL_MANUAL, IOLM_IOL_AUTOSTART, IOLM_DI_CQ, IOLM_DO_CQ };

enum iolm_validation {
    IOLM_NO_CHECK,
    IOLM_TYPE_COMPATIBLE_V10,
    IOLM_TYPE_COMPATIBLE_V11,
    IOLM_BACKUP_AND_RESTORE,
    IOLM_RESTORE
};

/* A configuration (SMI PortConfigList): a mode, a validation, a VendorID, a DeviceID of three octets, and a label of `label_count`
 * octets, each from 20 to 7E but 22. */
struct iolm_config {
    uint8_t mode;
    uint8_t validation;
    uint16_t vendor;
    uint32_t device;
    uint8_t label_count;
    uint8_t label[IOLM_LABEL_OCTETS];
};

/* How large a stored set is, and its checksum; all is 0 where there is none. */
struct iolm_set {
    bool is_there;
    uint32_t checksum;
    uint64_t entries;
    uint64_t octets;
};

/* The durable state of a port. */
struct iolm_port_view {
    struct iolm_config config;
    uint64_t revision;
    struct iolm_set present;
    struct iolm_set previous;
};

enum iolm_which { IOLM_PRESENT, IOLM_PREVIOUS };

/* A parameter of a stored set: `count` octets, and zeros behind them. */
struct iolm_entry {
    uint16_t index;
    uint8_t subindex;
    uint8_t count;
    uint8_t octets[IOLM_ENTRY_OCTETS];
};

enum iolm_port_status {
    IOLM_OFF,
    IOLM_LOST,
    IOLM_STARTING,
    IOLM_READY,
    IOLM_READY_LOCKED,
    IOLM_READY_EMPTY,
    IOLM_UPLOADING,
    IOLM_STORING,
    IOLM_DOWNLOADING,
    IOLM_MISMATCH, /* `detail` is one of enum iolm_mismatch */
    IOLM_FAILED    /* `detail` is one of enum iolm_failure */
};

enum iolm_mismatch { IOLM_OTHER_VENDOR, IOLM_OTHER_DEVICE, IOLM_OLD_REVISION, IOLM_NO_ISDU };

enum iolm_failure {
    IOLM_FAILED_REFUSED, /* by the device, with ErrorCode `error` and AdditionalCode `additional` */
    IOLM_FAILED_UNEXPECTED,
    IOLM_FAILED_SIZE,
    IOLM_FAILED_LIST,
    IOLM_FAILED_BUSY,
    IOLM_FAILED_MEMORY,
    IOLM_FAILED_EMPTY,
    IOLM_FAILED_RESERVED,
    IOLM_FAILED_WRONG_SERVICE,
    IOLM_FAILED_LENGTH,
    IOLM_FAILED_CHECK,
    IOLM_FAILED_STOPPED,
    IOLM_FAILED_NOT_ALLOWED,
    IOLM_FAILED_WRONG_DEVICE,
    IOLM_FAILED_TAKEN,
    IOLM_FAILED_SAME,
    IOLM_FAILED_EXHAUSTED,
    IOLM_FAILED_NO_SET
};

struct iolm_status {
    uint8_t status; /* one of enum iolm_port_status */
    uint8_t detail;
    uint8_t error;
    uint8_t additional;
};

/* How many sectors a flash has for 1 to 32 ports and so many slots: at most 256, and more than 8 for each 17 ports, rounded up: from 2
 * for one port to 17 for 32. OK or INVALID. */
uint32_t iolm_format_sectors(uint16_t ports, uint16_t slots, uint64_t *sectors);

/* The call with this number, from 0, of a format of a flash: WRITE, SYNC, or NOTHING once all are made; MEMORY or INVALID. Each call is
 * made before the next; a format whose call has failed begins anew. What the flash held is erased first, so that a power stop leaves it
 * as it was, not formatted, or empty. */
uint32_t iolm_format_next(uint16_t ports, uint16_t slots, size_t number, struct iolm_disk_call *call);

/* Begins to open a flash of so many sectors; a master that the handle has is ended, as by iolm_close. OK, or MEMORY, and then the
 * handle is closed. iolm_disk_next says what is wanted until it says OPENED. */
uint32_t iolm_open(struct iolm *handle, size_t sectors);

/* Ends the master of a handle, if it has one. What was not reported as made counts for nothing. */
void iolm_close(struct iolm *handle);

/* What is wanted of the disk, of which one call is in hand at a time: until it is reported it is told again.
 * While a flash is opened: SYNC, READ, OPENED, MEMORY, or why it is not opened. Of a master that runs: WRITE, SYNC, AGAIN, NOTHING,
 * MEMORY or STOPPED. Or CLOSED. */
uint32_t iolm_disk_next(struct iolm *handle, struct iolm_disk_call *call);

/* The sync or the write in hand was made, or the call in hand has failed. OK, MISFIT or CLOSED; while a flash is opened a call that has
 * failed ends that: DISK_READ or DISK_SYNC. */
uint32_t iolm_disk_done(struct iolm *handle, bool made);

/* The sector in hand was read. OK, MISFIT, MEMORY or CLOSED. */
uint32_t iolm_disk_read(struct iolm *handle, const uint8_t octets[IOLM_SECTOR_OCTETS]);

/* Ask for a change of a port, and write its number. It is durable once iolm_durable says this number, and then found after a power
 * stop. OK, INVALID, CLOSED, OPENING, STOPPED or a refusal (32 to 39); of a port that the master does not have UNKNOWN_PORT. */
uint32_t iolm_configure(struct iolm *handle, uint8_t port, const struct iolm_config *config, uint64_t *number);
uint32_t iolm_clear(struct iolm *handle, uint8_t port, uint64_t *number);
uint32_t iolm_rollback(struct iolm *handle, uint8_t port, uint64_t *number);

/* What a port wants of its device: PAGE, REQUEST, AGAIN, NOTHING, MEMORY, INVALID, ABSENT, CLOSED or OPENING. It is to be asked again
 * after iolm_port_wake, after a change of its port, and once the disk has made a step. */
uint32_t iolm_port_next(struct iolm *handle, uint8_t port, struct iolm_request *request);

/* A port is to look at its device again. OK, INVALID, ABSENT, CLOSED or OPENING. */
uint32_t iolm_port_wake(struct iolm *handle, uint8_t port);

/* What became of what a port wants: the page, the octets of an answer (at most 238), or that the device is gone. AGAIN, where the port has
 * made its step, MISFIT, MEMORY, INVALID, ABSENT, CLOSED or OPENING; iolm_port_lost says OK where the port wants nothing, and hears of it
 * when it does. One port has one device a connection; after iolm_port_lost the next may be another. */
uint32_t iolm_port_page(struct iolm *handle, uint8_t port, const uint8_t page[IOLM_PAGE_OCTETS]);
uint32_t iolm_port_answer(struct iolm *handle, uint8_t port, const uint8_t *octets, size_t count);
uint32_t iolm_port_lost(struct iolm *handle, uint8_t port);

/* The device of a port has raised an event, as FF91, DS_UPLOAD_REQ. As iolm_port_wake answers. */
uint32_t iolm_port_event(struct iolm *handle, uint8_t port, uint16_t code);

/* How a port is. OK, INVALID, ABSENT, CLOSED or OPENING. */
uint32_t iolm_port_status(struct iolm *handle, uint8_t port, struct iolm_status *status);

/* The number of the last durable change, and of the last that was accepted. OK, CLOSED or OPENING. */
uint32_t iolm_durable(struct iolm *handle, uint64_t *number);
uint32_t iolm_accepted(struct iolm *handle, uint64_t *number);

/* The durable state of a port. OK, INVALID, ABSENT, CLOSED or OPENING. */
uint32_t iolm_port_view(struct iolm *handle, uint8_t port, struct iolm_port_view *view);

/* The entry at a place, from 0, of a set of a port (enum iolm_which). OK, NOTHING, INVALID, ABSENT, CLOSED or OPENING. */
uint32_t iolm_entry(struct iolm *handle, uint8_t port, uint8_t which, size_t place, struct iolm_entry *entry);

#ifdef __cplusplus
}
#endif
#endif
