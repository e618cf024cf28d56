/* Measures the library for C: heap of an open master, the most stack and the time of its calls, at 1, 8 and 32 ports. */
#define _GNU_SOURCE
#include "iolmaster.h"

#include <malloc.h>
#include <stdio.h>
#include <stdlib.h>
#include <string.h>
#include <time.h>

enum { MOST_SECTORS = 10000, PAINTED = 256 * 1024 };

static uint8_t flash[MOST_SECTORS][IOLM_SECTOR_OCTETS];
static volatile uint8_t *painted;

__attribute__((noinline)) static void paint(void) {
    volatile uint8_t octets[PAINTED];
    size_t at;
    for (at = 0; at < PAINTED; at++) {
        octets[at] = 0xA5;
    }
    painted = (volatile uint8_t *)(uintptr_t)octets;
}

static size_t stack_used(void) {
    size_t at = 0;
    while (at < PAINTED && painted[at] == 0xA5) {
        at++;
    }
    return PAINTED - at;
}

static double microseconds(void) {
    struct timespec now;
    clock_gettime(CLOCK_MONOTONIC, &now);
    return (double)now.tv_sec * 1e6 + (double)now.tv_nsec / 1e3;
}

static size_t heap_used(void) {
    struct mallinfo2 info = mallinfo2();
    return info.uordblks + info.hblkhd;
}

static bool serve_disk(struct iolm *master) {
    struct iolm_disk_call call;
    switch (iolm_disk_next(master, &call)) {
    case IOLM_READ: iolm_disk_read(master, flash[call.sector]); return true;
    case IOLM_WRITE: memcpy(flash[call.sector], call.octets, sizeof call.octets); iolm_disk_done(master, true); return true;
    case IOLM_SYNC: iolm_disk_done(master, true); return true;
    case IOLM_AGAIN: case IOLM_OPENED: return true;
    default: return false;
    }
}

static void measure(uint16_t ports, uint16_t slots) {
    struct iolm master = IOLM_INIT;
    struct iolm_disk_call call;
    struct iolm_request request;
    struct iolm_config config;
    uint64_t sectors, number;
    size_t at, heap = heap_used(), open_stack, commit_stack, step_stack, reads = 0;
    double begun, open_time, commit_time, step_time;
    memset(flash, 0, sizeof flash);
    iolm_format_sectors(ports, slots, &sectors);
    for (at = 0; iolm_format_next(ports, slots, at, &call) != IOLM_NOTHING; at++) {
        if (iolm_format_next(ports, slots, at, &call) == IOLM_WRITE) {
            memcpy(flash[call.sector], call.octets, sizeof call.octets);
        }
    }
    paint();
    begun = microseconds();
    iolm_open(&master, (size_t)sectors);
    while (serve_disk(&master)) {
        reads++;
    }
    open_time = microseconds() - begun;
    open_stack = stack_used();
    heap = heap_used() - heap;
    memset(&config, 0, sizeof config);
    config.mode = IOLM_IOL_MANUAL;
    config.validation = IOLM_BACKUP_AND_RESTORE;
    paint();
    begun = microseconds();
    for (at = 0; at < 100; at++) {
        iolm_configure(&master, 1, &config, &number);
        while (serve_disk(&master)) {
        }
    }
    commit_time = (microseconds() - begun) / 100;
    commit_stack = stack_used();
    paint();
    begun = microseconds();
    for (at = 0; at < 1000; at++) {
        iolm_port_wake(&master, 1);
        iolm_port_next(&master, 1, &request);
        iolm_port_lost(&master, 1);
    }
    step_time = (microseconds() - begun) / 1000;
    step_stack = stack_used();
    printf("%u ports, %u slots: heap %zu; opened by %zu calls in %.0f us, stack %zu; a commit %.1f us, stack %zu; a port's step %.1f us, stack %zu\n",
           ports, slots, heap, reads, open_time, open_stack, commit_time, commit_stack, step_time, step_stack);
    iolm_close(&master);
}

int main(void) {
    measure(1, 16);
    measure(8, 32);
    measure(32, 80);
    measure(32, 256);
    return 0;
}
