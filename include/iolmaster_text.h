/* iolmaster_text.h: names and words for what the library for C answers, as `iolmaster` prints them. A name is short, as a trace has it;
 * words say what is meant and what to do. They stand apart from iolmaster.h, so that who prints nothing has none of them in memory.
 */
#ifndef IOLMASTER_TEXT_H
#define IOLMASTER_TEXT_H

#include "iolmaster.h"

/* The name of one of `enum iolm_result`: of a refusal, or of why a flash is not opened. Empty for another number. */
static inline const char *iolm_result_name(uint32_t result) {
    switch (result) {
    case IOLM_MEMORY: return "Memory";
    case IOLM_STOPPED: return "Stopped";
    case IOLM_UNKNOWN_PORT: return "UnknownPort";
    case IOLM_REVISION_SPENT: return "RevisionSpent";
    case IOLM_NOT_ALLOWED: return "NotAllowed";
    case IOLM_STALE_REVISION: return "StaleRevision";
    case IOLM_WRONG_DEVICE: return "WrongDevice";
    case IOLM_NO_PREVIOUS: return "NoPrevious";
    case IOLM_QUEUE_FULL: return "QueueFull";
    case IOLM_EXHAUSTED: return "Exhausted";
    case IOLM_NOT_FORMATTED: return "the disk is not formatted";
    case IOLM_TOO_SMALL: return "the disk is too small";
    case IOLM_DAMAGED: return "damaged";
    case IOLM_DISK_READ:
    case IOLM_DISK_WRITE:
    case IOLM_DISK_SYNC: return "the disk failed";
    default: return "";
    }
}

/* Why a change is refused, and what to do. Empty for another number. */
static inline const char *iolm_result_words(uint32_t result) {
    switch (result) {
    case IOLM_STOPPED: return "a disk call has failed, and nothing more is taken: replace the disk, and start the master anew";
    case IOLM_UNKNOWN_PORT: return "the master has no port of this number: name one that it has";
    case IOLM_REVISION_SPENT: return "the port has had its last revision: format a new disk";
    case IOLM_NOT_ALLOWED: return "the port is not IOL_MANUAL with validation 03: configure it so";
    case IOLM_STALE_REVISION: return "the port was configured meanwhile: nothing is to be done, the port begins again";
    case IOLM_WRONG_DEVICE: return "the port is configured for another device: configure it for this one";
    case IOLM_NO_PREVIOUS: return "the port has no previous set: nothing is exchanged";
    case IOLM_QUEUE_FULL: return "64 commands wait for the disk: ask again once some are acknowledged";
    case IOLM_EXHAUSTED: return "no command number is left: format a new disk";
    default: return "";
    }
}

/* The name of one of `enum iolm_mismatch`. */
static inline const char *iolm_mismatch_name(uint8_t mismatch) {
    switch (mismatch) {
    case IOLM_OTHER_VENDOR: return "vendor";
    case IOLM_OTHER_DEVICE: return "device";
    case IOLM_OLD_REVISION: return "revision";
    case IOLM_NO_ISDU: return "isdu";
    default: return "";
    }
}

/* The name of one of `enum iolm_failure`. */
static inline const char *iolm_failure_name(uint8_t failure) {
    switch (failure) {
    case IOLM_FAILED_REFUSED: return "Refused";
    case IOLM_FAILED_UNEXPECTED: return "Unexpected";
    case IOLM_FAILED_SIZE: return "Size";
    case IOLM_FAILED_LIST: return "List";
    case IOLM_FAILED_BUSY: return "Busy";
    case IOLM_FAILED_MEMORY: return "Memory";
    case IOLM_FAILED_EMPTY: return "Empty";
    case IOLM_FAILED_RESERVED: return "Reserved";
    case IOLM_FAILED_WRONG_SERVICE: return "WrongService";
    case IOLM_FAILED_LENGTH: return "Length";
    case IOLM_FAILED_CHECK: return "Check";
    case IOLM_FAILED_STOPPED: return "Stopped";
    case IOLM_FAILED_NOT_ALLOWED: return "NotAllowed";
    case IOLM_FAILED_WRONG_DEVICE: return "WrongDevice";
    case IOLM_FAILED_TAKEN: return "Taken";
    case IOLM_FAILED_SAME: return "Same";
    case IOLM_FAILED_EXHAUSTED: return "Exhausted";
    case IOLM_FAILED_NO_SET: return "Empty";
    default: return "";
    }
}

/* The name of a status; of a mismatch and of a failure it is followed by iolm_detail_name, and that of a refusal by its two octets. */
static inline const char *iolm_status_name(const struct iolm_status *status) {
    switch (status->status) {
    case IOLM_OFF: return "off";
    case IOLM_LOST: return "lost";
    case IOLM_STARTING: return "starting";
    case IOLM_READY: return "ready";
    case IOLM_READY_LOCKED: return "ready locked";
    case IOLM_READY_EMPTY: return "ready empty";
    case IOLM_UPLOADING: return "uploading";
    case IOLM_STORING: return "storing";
    case IOLM_DOWNLOADING: return "downloading";
    case IOLM_MISMATCH: return "mismatch";
    case IOLM_FAILED: return "failed";
    default: return "";
    }
}

/* What a mismatch or a failure is; empty for another status. */
static inline const char *iolm_detail_name(const struct iolm_status *status) {
    switch (status->status) {
    case IOLM_MISMATCH: return iolm_mismatch_name(status->detail);
    case IOLM_FAILED: return iolm_failure_name(status->detail);
    default: return "";
    }
}

/* Why a device is not the one that its port wants, and what to do. */
static inline const char *iolm_mismatch_words(uint8_t mismatch) {
    switch (mismatch) {
    case IOLM_OTHER_VENDOR: return "another VendorID than is configured: connect the configured device, or configure this one";
    case IOLM_OTHER_DEVICE: return "another DeviceID than is configured: connect the configured device, or configure this one";
    case IOLM_OLD_REVISION: return "a RevisionID below 11, V1.1: connect a device of V1.1, or configure validation 00 or 01";
    case IOLM_NO_ISDU: return "the device supports no ISDUs: connect one that does, or configure validation 00 to 02";
    default: return "";
    }
}

/* Why a port has failed, and what to do. */
static inline const char *iolm_failure_words(uint8_t failure) {
    switch (failure) {
    case IOLM_FAILED_REFUSED: return "the device refused a request: see its manual, and connect it again";
    case IOLM_FAILED_UNEXPECTED: return "the device answered something else than was asked: check the device, and connect it again";
    case IOLM_FAILED_SIZE: return "the device's set counts over 4,096 octets: configure the port with validation 00 to 02";
    case IOLM_FAILED_LIST: return "the device's Index_List cannot be followed: check the device's Data Storage, and connect it again";
    case IOLM_FAILED_BUSY: return "the device was busy sixteen times in a row: wait until it is idle, and connect it again";
    case IOLM_FAILED_MEMORY: return "out of memory: give the master more, and connect the device again";
    case IOLM_FAILED_EMPTY: return "the answer has no octet: check the cable, and connect the device again";
    case IOLM_FAILED_RESERVED: return "the answer has a reserved I-Service or length: check the cable, and connect the device again";
    case IOLM_FAILED_WRONG_SERVICE: return "the answer is of another service: check the cable, and connect the device again";
    case IOLM_FAILED_LENGTH: return "the answer has a wrong count of octets: check the cable, and connect the device again";
    case IOLM_FAILED_CHECK: return "the answer has a wrong CHKPDU: check the cable, and connect the device again";
    case IOLM_FAILED_STOPPED: return "a disk call has failed, and nothing more is stored: replace the disk, and start the master anew";
    case IOLM_FAILED_NOT_ALLOWED: return "the port keeps no set, or was configured meanwhile: configure IOL_MANUAL with validation 03 or 04";
    case IOLM_FAILED_WRONG_DEVICE: return "the port or its set is for another device: configure the port for this one";
    case IOLM_FAILED_TAKEN: return "a transfer of the port is not yet done: connect the device again later";
    case IOLM_FAILED_SAME: return "the device has the stored set already: connect it again";
    case IOLM_FAILED_EXHAUSTED: return "no command number is left: format a new disk";
    case IOLM_FAILED_NO_SET: return "no set is stored for the port any more: connect the device again";
    default: return "";
    }
}

/* What a status means, and what to do. */
static inline const char *iolm_status_words(const struct iolm_status *status) {
    switch (status->status) {
    case IOLM_OFF: return "the port is not IOL_MANUAL: no device is looked after";
    case IOLM_LOST: return "no device answers: check the cable, and connect a device";
    case IOLM_STARTING: return "the port looks at its device";
    case IOLM_READY: return "the transfer is done: device and stored set are the same";
    case IOLM_READY_LOCKED: return "the device's Data Storage is locked: nothing is done";
    case IOLM_READY_EMPTY: return "no set is stored: nothing is done";
    case IOLM_UPLOADING: return "the device's parameters are read and stored";
    case IOLM_STORING: return "the device's parameters are read: the set waits for the disk";
    case IOLM_DOWNLOADING: return "the stored set is written to the device";
    case IOLM_MISMATCH: return iolm_mismatch_words(status->detail);
    case IOLM_FAILED: return iolm_failure_words(status->detail);
    default: return "";
    }
}

#endif
