// The disk calls of receipts alone, on a plain file: plain_receipts FILE PORTS SLOTS RECEIPTS prints how many seconds they took,
// and how many of them the syncs, and how many syncs there were. The file has to be as long as an image of so many ports and slots.
//
// The calls are those of docs/FORMATS.md ("Orders of disk calls"), at the same sectors and in the same order, where each batch is
// one short command and no port has a set: the body's one sector, a sync, the slot's gate, a sync, and a checkpoint into the other
// area where no slot is free. What is written means nothing.

#include <fcntl.h>
#include <stdio.h>
#include <stdlib.h>
#include <time.h>
#include <unistd.h>

// An area has the size of version 1, and in version 2 larger records of ports and fewer slots.
enum { SECTOR = 512, FIRST_AREA = 2, OLDER_PORT_SECTORS = 9, PORT_SECTORS = 17, SLOT_SECTORS = 17 };

static int file;
static long ports, slots, syncs;
static double sync_seconds;

static double seconds_now(void) {
    struct timespec now;
    clock_gettime(CLOCK_MONOTONIC, &now);
    return (double)now.tv_sec + (double)now.tv_nsec / 1e9;
}

static void fail(const char *call) {
    perror(call);
    exit(1);
}

static void write_sector(long sector) {
    static char octets[SECTOR];
    octets[0]++;
    if (pwrite(file, octets, SECTOR, sector * SECTOR) != SECTOR) fail("pwrite");
}

// As the program's: `File::sync_all` is fsync.
static void sync_file(void) {
    double begun = seconds_now();
    if (fsync(file) != 0) fail("fsync");
    sync_seconds += seconds_now() - begun;
    syncs++;
}

static long area_sectors(void) { return 2 + OLDER_PORT_SECTORS * ports + SLOT_SECTORS * slots; }

static long kept_slots(void) { return slots - ((PORT_SECTORS - OLDER_PORT_SECTORS) * ports + SLOT_SECTORS - 1) / SLOT_SECTORS; }

static long slot_gate(long area, long slot) { return area + 2 + PORT_SECTORS * ports + SLOT_SECTORS * slot; }

static void batch(long area, long slot) {
    write_sector(slot_gate(area, slot) + 1);
    sync_file();
    write_sector(slot_gate(area, slot));
    sync_file();
}

static void checkpoint(long area) {
    write_sector(area);
    sync_file();
    for (long slot = 0; slot < kept_slots(); slot++) write_sector(slot_gate(area, slot));
    sync_file();
    write_sector(area + 1);
    for (long port = 0; port < ports; port++) write_sector(area + 2 + PORT_SECTORS * port);
    sync_file();
    write_sector(area);
    sync_file();
}

int main(int count, char **words) {
    if (count != 5) return 2;
    ports = atol(words[2]);
    slots = atol(words[3]);
    long receipts = atol(words[4]);
    file = open(words[1], O_RDWR);
    if (file < 0) fail("open");
    double begun = seconds_now();
    for (long receipt = 0; receipt < receipts; receipt++) {
        long area = FIRST_AREA + receipt / kept_slots() % 2 * area_sectors();
        if (receipt > 0 && receipt % kept_slots() == 0) checkpoint(area);
        batch(area, receipt % kept_slots());
    }
    printf("%.9f %.9f %ld\n", seconds_now() - begun, sync_seconds, syncs);
    return 0;
}
