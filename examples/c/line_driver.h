/* line_driver.h: a driver of one port by lines (docs/DRIVERS.md): what is written to it, and what it says. */
#ifndef LINE_DRIVER_H
#define LINE_DRIVER_H

#include "iolmaster.h"

enum { DRIVER_LINE_OCTETS = 800 };

struct driver {
    const char *from, *to; /* the paths that are read and written, which may be one */
    int reads, writes;     /* -1 while they are not opened */
    bool asked_page;
    uint64_t asked; /* the number of the last request */
    size_t held;    /* octets of a line that has not ended */
    char line[DRIVER_LINE_OCTETS + 1];
};

enum driver_says {
    DRIVER_NOTHING, /* no line has ended yet */
    DRIVER_ANSWER,  /* `octets` answer the last request */
    DRIVER_EVENT,   /* the device has raised `event` */
    DRIVER_LOST     /* the device is gone, or the driver says what it may not */
};

struct driver_line {
    uint16_t event;
    size_t count;
    uint8_t octets[IOLM_ISDU_OCTETS];
};

/* Writes the next request, an ISDU or for no ISDU the page; the files are opened where they are not. False where that fails. */
bool driver_ask(struct driver *driver, const struct iolm_request *isdu);

/* What the driver says next. It waits for nothing; answers that came after their time are dropped. */
enum driver_says driver_hear(struct driver *driver, struct driver_line *line);

/* Closes the files, as after a loss. */
void driver_close(struct driver *driver);

#endif
