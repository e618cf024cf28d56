/* A driver of one port by lines: docs/DRIVERS.md has their grammar. */
#define _POSIX_C_SOURCE 200809L
#include "line_driver.h"

#include <fcntl.h>
#include <inttypes.h>
#include <stdio.h>
#include <string.h>
#include <unistd.h>

void driver_close(struct driver *driver) {
    if (driver->reads >= 0) {
        close(driver->reads);
    }
    if (driver->writes >= 0) {
        close(driver->writes);
    }
    driver->reads = driver->writes = -1;
    driver->held = 0;
}

/* Opens the files, which waits for no driver, and forgets what was written before the first request. */
static bool open_files(struct driver *driver) {
    if (driver->reads >= 0) {
        return true;
    }
    driver->reads = open(driver->from, O_RDONLY | O_NONBLOCK | O_NOCTTY);
    /* (of a FIFO that no driver reads this fails) */
    driver->writes = open(driver->to, O_WRONLY | O_NONBLOCK | O_NOCTTY);
    if (driver->reads < 0 || driver->writes < 0) {
        driver_close(driver);
        return false;
    }
    while (read(driver->reads, driver->line, sizeof driver->line) > 0) {
    }
    return true;
}

bool driver_ask(struct driver *driver, const struct iolm_request *isdu) {
    char line[DRIVER_LINE_OCTETS];
    size_t place, length;
    if (!open_files(driver)) {
        return false;
    }
    driver->asked_page = !isdu;
    length = (size_t)snprintf(line, sizeof line, "%" PRIu64 " %s", ++driver->asked, isdu ? "isdu" : "page");
    for (place = 0; isdu && place < isdu->count; place++) {
        length += (size_t)snprintf(line + length, sizeof line - length, " %02X", isdu->octets[place]);
    }
    line[length++] = '\n';
    return write(driver->writes, line, length) == (ssize_t)length;
}

/* Takes a line that has ended, without its end. LOST where the driver's file ends, or a line is too long. */
static enum driver_says take_line(struct driver *driver, char *line) {
    size_t length;
    char *end = (char *)memchr(driver->line, '\n', driver->held);
    if (!end) {
        ssize_t count = read(driver->reads, driver->line + driver->held, sizeof driver->line - driver->held);
        if (count == 0) {
            return DRIVER_LOST;
        }
        driver->held += count > 0 ? (size_t)count : 0;
        end = (char *)memchr(driver->line, '\n', driver->held);
    }
    if (!end) {
        return driver->held == sizeof driver->line ? DRIVER_LOST : DRIVER_NOTHING;
    }
    length = (size_t)(end - driver->line);
    memcpy(line, driver->line, length);
    line[length > 0 && line[length - 1] == '\r' ? length - 1 : length] = 0;
    driver->held -= length + 1;
    memmove(driver->line, end + 1, driver->held);
    return DRIVER_ANSWER;
}

static const char digits[] = "0123456789abcdefABCDEF";

/* Reads the words behind an answer's kind: octets of two hexadecimal digits each. */
static bool read_octets(const char *words, struct driver_line *line) {
    for (line->count = 0; *(words += strspn(words, " ")); words += 2) {
        unsigned octet;
        if (strspn(words, digits) != 2 || line->count == sizeof line->octets || sscanf(words, "%2x", &octet) != 1) {
            return false;
        }
        line->octets[line->count++] = (uint8_t)octet;
    }
    return true;
}

/* What an answer says that has the number of the last request. */
static enum driver_says answered(const struct driver *driver, const char *kind, const char *words, struct driver_line *line) {
    if (strcmp(kind, driver->asked_page ? "page" : "isdu") || !read_octets(words, line)) {
        return DRIVER_LOST;
    }
    return driver->asked_page && line->count != IOLM_PAGE_OCTETS ? DRIVER_LOST : DRIVER_ANSWER;
}

/* Whether a line is an event, whose code has four hexadecimal digits. */
static bool is_event(const char *text, struct driver_line *line) {
    int begin = 0, end = 0;
    return sscanf(text, " event %n%4" SCNx16 " %n", &begin, &line->event, &end) == 1 && strspn(text + begin, digits) == 4 && !text[end];
}

enum driver_says driver_hear(struct driver *driver, struct driver_line *line) {
    char text[DRIVER_LINE_OCTETS + 1], kind[6];
    uint64_t number;
    enum driver_says says;
    while ((says = take_line(driver, text)) == DRIVER_ANSWER) {
        int end = 0;
        if (is_event(text, line)) {
            return DRIVER_EVENT;
        }
        if (sscanf(text, " %" SCNu64 " %5s%n", &number, kind, &end) != 2 || number > driver->asked) {
            return DRIVER_LOST;
        }
        if (number == driver->asked) {
            return answered(driver, kind, text + end, line);
        }
    }
    return says;
}
