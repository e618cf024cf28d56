/* A sensor is replaced, and the line runs again with the old settings, also after a power stop in the middle.
 *
 * The flash is an array; a device with two parameters is played here. Build and run it:
 *     make && ./replace_a_sensor
 */
#include "iolmaster.h"
#include "iolmaster_text.h"

#include <stdio.h>
#include <stdlib.h>
#include <string.h>

enum { PORTS = 2, SLOTS = 16, MOST_SECTORS = 1024, INDEX_DATA_STORAGE = 3, UPLOAD_REQUEST = 0xFF91 };

/* What is durable, and what was written since the last sync over it. */
static uint8_t durable[MOST_SECTORS][IOLM_SECTOR_OCTETS];
static uint8_t written[MOST_SECTORS][IOLM_SECTOR_OCTETS];

/* A device with the parameters 0040.00 and 0041.01, and the flag by which it asks for an upload. */
struct device {
    uint8_t first[2];
    uint8_t second[1];
    uint8_t state;
};

static void fail(const char *what) {
    printf("%s\n", what);
    exit(1);
}

/* Makes the call of the flash that is handed out. */
static void write_sector(const struct iolm_disk_call *call) {
    memcpy(written[call->sector], call->octets, IOLM_SECTOR_OCTETS);
}

static void sync_flash(void) {
    memcpy(durable, written, sizeof durable);
}

/* The power stops: what was not synced is gone. */
static void stop_power(void) {
    memcpy(written, durable, sizeof written);
}

static void format_flash(void) {
    struct iolm_disk_call call;
    uint32_t what;
    size_t number;
    for (number = 0; (what = iolm_format_next(PORTS, SLOTS, number, &call)) != IOLM_NOTHING; number++) {
        if (what == IOLM_WRITE) {
            write_sector(&call);
        } else if (what == IOLM_SYNC) {
            sync_flash();
        } else {
            fail("the flash is not formatted");
        }
    }
}

/* Makes one call of the disk, if one is wanted; false where there is nothing to do. */
static bool serve_disk(struct iolm *master) {
    struct iolm_disk_call call;
    switch (iolm_disk_next(master, &call)) {
    case IOLM_READ:
        return iolm_disk_read(master, written[call.sector]) == IOLM_OK;
    case IOLM_WRITE:
        write_sector(&call);
        return iolm_disk_done(master, true) == IOLM_OK;
    case IOLM_SYNC:
        sync_flash();
        return iolm_disk_done(master, true) == IOLM_OK;
    case IOLM_AGAIN:
        /* Changes are durable, perhaps of this port. */
        iolm_port_wake(master, 1);
        return true;
    default:
        return false;
    }
}

static void open_flash(struct iolm *master, uint64_t sectors) {
    struct iolm_disk_call call;
    uint32_t what;
    if (iolm_open(master, (size_t)sectors) != IOLM_OK) {
        fail("out of memory");
    }
    while ((what = iolm_disk_next(master, &call)) != IOLM_OPENED) {
        if (what == IOLM_SYNC) {
            sync_flash();
            iolm_disk_done(master, true);
        } else if (what == IOLM_READ) {
            iolm_disk_read(master, written[call.sector]);
        } else {
            fail("the flash is not opened");
        }
    }
}

static uint8_t checked(const uint8_t *octets, size_t count) {
    uint8_t sum = 0;
    while (count--) {
        sum ^= *octets++;
    }
    return sum;
}

/* An ISDU answer: I-Service, its length, octets, and CHKPDU. */
static size_t answer(uint8_t *out, uint8_t service, const void *octets, size_t count) {
    size_t head = count + 2 <= 15 ? 1 : 2, length = head + count + 1;
    out[0] = (uint8_t)(service << 4 | (head == 1 ? length : 1));
    if (head == 2) {
        out[1] = (uint8_t)length;
    }
    if (count) {
        memcpy(out + head, octets, count);
    }
    out[length - 1] = 0;
    out[length - 1] = checked(out, length);
    return length;
}

/* Answers a read: of Data Storage, or of a parameter. */
static size_t answer_read(struct device *device, unsigned index, unsigned subindex, uint8_t *out) {
    static const uint8_t size[] = {0, 0, 0, 0x0B}, index_list[] = {0, 0x40, 0, 0, 0x41, 1, 0, 0}, absent[] = {0x80, 0x11};
    uint8_t sum[4] = {0};
    if (index == INDEX_DATA_STORAGE && subindex == 2) {
        return answer(out, 13, &device->state, 1);
    }
    if (index == INDEX_DATA_STORAGE && subindex == 3) {
        return answer(out, 13, size, sizeof size);
    }
    if (index == INDEX_DATA_STORAGE && subindex == 4) {
        sum[2] = device->first[0];
        sum[3] = (uint8_t)(device->first[1] ^ device->second[0]);
        return answer(out, 13, sum, sizeof sum);
    }
    if (index == INDEX_DATA_STORAGE && subindex == 5) {
        return answer(out, 13, index_list, sizeof index_list);
    }
    if (index == 0x40 && subindex == 0) {
        return answer(out, 13, device->first, sizeof device->first);
    }
    if (index == 0x41 && subindex == 1) {
        return answer(out, 13, device->second, sizeof device->second);
    }
    return answer(out, 12, absent, sizeof absent);
}

/* Answers a write: of a command of Data Storage, or of a parameter. */
static size_t answer_write(struct device *device, unsigned index, unsigned subindex, const uint8_t *octets, uint8_t *out) {
    if (index == INDEX_DATA_STORAGE && subindex == 1 && octets[0] == 2) { /* DS_UploadEnd */
        device->state = 0;
    }
    if (index == 0x40) {
        memcpy(device->first, octets, sizeof device->first);
    }
    if (index == 0x41) {
        memcpy(device->second, octets, sizeof device->second);
    }
    return answer(out, 5, NULL, 0);
}

/* What the device answers to a request (IO-Link V1.1, ISDU). */
static size_t exchange(struct device *device, const struct iolm_request *request, uint8_t *out) {
    const uint8_t *octets = request->octets;
    unsigned service = octets[0] >> 4, index, subindex;
    size_t at = (octets[0] & 15) == 1 ? 2 : 1;
    bool reads = service >= 9;
    unsigned kind = reads ? service - 8 : service;
    index = octets[at++];
    if (kind == 3) {
        index = index << 8 | octets[at++];
    }
    subindex = kind == 1 ? 0 : octets[at++];
    return reads ? answer_read(device, index, subindex, out) : answer_write(device, index, subindex, octets + at, out);
}

/* Makes what a port wants of its device; false where it wants nothing. */
static bool serve_port(struct iolm *master, struct device *device) {
    static const uint8_t page[IOLM_PAGE_OCTETS] = {0, 0, 0x17, 1, 0x11, 0, 0, 0x01, 0xF4, 0, 0xAB, 0xCD};
    struct iolm_request request;
    uint8_t octets[IOLM_ISDU_OCTETS];
    switch (iolm_port_next(master, 1, &request)) {
    case IOLM_PAGE:
        return iolm_port_page(master, 1, page) == IOLM_AGAIN;
    case IOLM_REQUEST:
        return iolm_port_answer(master, 1, octets, exchange(device, &request, octets)) == IOLM_AGAIN;
    case IOLM_AGAIN:
        return true;
    default:
        return false;
    }
}

/* Serves the port and the disk until neither wants anything. */
static void serve(struct iolm *master, struct device *device) {
    bool more = true;
    while (more) {
        more = serve_port(master, device);
        more = serve_disk(master) || more;
    }
}

static void show(struct iolm *master, const char *when) {
    struct iolm_status status;
    struct iolm_port_view view;
    uint64_t number;
    iolm_port_status(master, 1, &status);
    iolm_port_view(master, 1, &view);
    iolm_durable(master, &number);
    printf("%s: port 1 %s, %u parameters stored, command %u durable\n", when, iolm_status_name(&status), (unsigned)view.present.entries,
           (unsigned)number);
}

static void show_device(const char *which, const struct device *device) {
    printf("%s: %02X%02X %02X\n", which, device->first[0], device->first[1], device->second[0]);
}

int main(void) {
    struct iolm master = IOLM_INIT;
    struct iolm_config config;
    struct device old = {{0x0A, 0x64}, {0x7F}, 0x80}, replacement = {{0x00, 0x00}, {0x00}, 0x00};
    uint64_t sectors, number;

    if (iolm_format_sectors(PORTS, SLOTS, &sectors) != IOLM_OK || sectors > MOST_SECTORS) {
        fail("the flash is too small");
    }
    format_flash();
    open_flash(&master, sectors);

    memset(&config, 0, sizeof config);
    config.mode = IOLM_IOL_MANUAL;
    config.validation = IOLM_BACKUP_AND_RESTORE;
    config.vendor = 500;
    config.device = 43981;
    config.label_count = 6;
    memcpy(config.label, "Pump 3", 6);
    if (iolm_configure(&master, 1, &config, &number) != IOLM_OK) {
        fail("the configuration is refused");
    }
    serve(&master, &old);
    show(&master, "configured");

    /* A parameter is taught in, and the device asks for an upload. */
    old.first[1] = 0x65;
    old.state = 0x80;
    iolm_port_event(&master, 1, UPLOAD_REQUEST);
    serve(&master, &old);
    show(&master, "taught in");

    /* The power stops, and the sensor is replaced. */
    stop_power();
    iolm_close(&master);
    show_device("the new sensor", &replacement);
    open_flash(&master, sectors);
    show(&master, "opened again");
    iolm_port_wake(&master, 1);
    serve(&master, &replacement);
    show(&master, "restored");
    show_device("the new sensor", &replacement);
    iolm_close(&master);
    return 0;
}
