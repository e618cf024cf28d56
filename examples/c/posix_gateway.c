/* A master whose threads share one handle: one thread for each port, which speaks with a driver by lines (docs/DRIVERS.md), one for the
 * image, and one for what is typed. Each call of the library is made under one lock; no exchange and no call of the disk is.
 *
 *     make posix_gateway
 *     ./posix_gateway IMAGE 2 16 1=FROM,TO ..      IMAGE is formatted for 2 ports and 16 slots where it is not there
 *
 * Lines of standard input are `configure PORT VENDOR DEVICE`, `status PORT` and `quit`.
 */
#define _POSIX_C_SOURCE 200809L
#include "iolmaster_file.h"
#include "iolmaster_text.h"
#include "line_driver.h"

#include <fcntl.h>
#include <inttypes.h>
#include <poll.h>
#include <pthread.h>
#include <stdio.h>
#include <stdlib.h>
#include <string.h>
#include <unistd.h>

/* How long a driver may be silent, and after what time a lost device is looked for again. */
enum { SILENCE_MS = 10000, LOOK_AGAIN_MS = 200 };

/* What all threads share. `lock` is held around each call of the library, and around what is printed. */
struct gateway {
    pthread_mutex_t lock;
    pthread_cond_t disk_wanted;
    struct iolm master;
    struct port *ports[IOLM_PORTS + 1]; /* by number, from 1 */
    int image;
    uint64_t durable; /* the number that was printed last */
    bool ports_end, disk_ends;
};

/* A port and its driver. */
struct port {
    struct gateway *gateway;
    pthread_t thread;
    uint8_t number;
    int wake[2]; /* an octet in this pipe ends a wait */
    struct iolm_status shown;
    struct driver driver;
};

static void fail(const char *what) {
    fprintf(stderr, "posix_gateway: %s\n", what);
    exit(1);
}

/* ---- The image ---- */

static void wake_ports(struct gateway *gateway) {
    unsigned number;
    for (number = 1; number <= IOLM_PORTS; number++) {
        if (gateway->ports[number]) {
            iolm_port_wake(&gateway->master, (uint8_t)number);
            (void)!write(gateway->ports[number]->wake[1], "", 1);
        }
    }
}

/* Makes one call of the disk, with the lock free, or waits for the next; false where none comes any more. */
static bool serve_disk(struct gateway *gateway) {
    struct iolm_disk_call call;
    uint64_t number;
    bool made;
    uint32_t what = iolm_disk_next(&gateway->master, &call);
    switch (what) {
    case IOLM_WRITE:
    case IOLM_SYNC:
        pthread_mutex_unlock(&gateway->lock);
        made = iolm_file_make(gateway->image, what, &call);
        pthread_mutex_lock(&gateway->lock);
        iolm_disk_done(&gateway->master, made);
        break;
    case IOLM_AGAIN:
        iolm_durable(&gateway->master, &number);
        if (number != gateway->durable) {
            gateway->durable = number;
            printf("durable %" PRIu64 "\n", number);
            wake_ports(gateway);
        }
        break;
    case IOLM_MEMORY:
    case IOLM_NOTHING:
        if (gateway->disk_ends) {
            return false;
        }
        pthread_cond_wait(&gateway->disk_wanted, &gateway->lock);
        break;
    default:
        fail("a call of the image has failed");
    }
    return true;
}

static void *run_disk(void *of) {
    struct gateway *gateway = (struct gateway *)of;
    pthread_mutex_lock(&gateway->lock);
    while (serve_disk(gateway)) {
    }
    pthread_mutex_unlock(&gateway->lock);
    return NULL;
}

/* ---- A port ---- */

/* Whether the ports end. */
static bool have_ended(struct gateway *gateway) {
    bool ended;
    pthread_mutex_lock(&gateway->lock);
    ended = gateway->ports_end;
    pthread_mutex_unlock(&gateway->lock);
    return ended;
}

/* What the driver says next but events, of which the library hears. */
static enum driver_says hear(struct port *port, struct driver_line *line) {
    enum driver_says says;
    while ((says = driver_hear(&port->driver, line)) == DRIVER_EVENT) {
        pthread_mutex_lock(&port->gateway->lock);
        iolm_port_event(&port->gateway->master, port->number, line->event);
        pthread_mutex_unlock(&port->gateway->lock);
    }
    return says;
}

/* Writes a request and waits for its answer, with the lock free. NOTHING where the ports end. */
static enum driver_says exchange(struct port *port, const struct iolm_request *isdu, struct driver_line *line) {
    struct pollfd file = {-1, POLLIN, 0};
    enum driver_says says;
    int silent = 0;
    if (!driver_ask(&port->driver, isdu)) {
        return DRIVER_LOST;
    }
    file.fd = port->driver.reads;
    while ((says = hear(port, line)) == DRIVER_NOTHING && !have_ended(port->gateway)) {
        silent = poll(&file, 1, LOOK_AGAIN_MS) ? 0 : silent + LOOK_AGAIN_MS;
        if (silent >= SILENCE_MS) {
            return DRIVER_LOST;
        }
    }
    return says;
}

/* Whether a status is told: not where it is the same, nor while a lost device is looked for again and again. */
static bool is_new(const struct iolm_status *status, const struct iolm_status *shown) {
    bool is_same = status->status == shown->status && status->detail == shown->detail;
    return !is_same && !(status->status == IOLM_STARTING && shown->status == IOLM_LOST);
}

/* Prints how the port is, where that has changed. */
static void show_status(struct port *port) {
    struct iolm_status status;
    if (iolm_port_status(&port->gateway->master, port->number, &status) == IOLM_OK && is_new(&status, &port->shown)) {
        const char *detail = iolm_detail_name(&status);
        port->shown = status;
        printf("port %u %s%s%s\n", port->number, iolm_status_name(&status), *detail ? " " : "", detail);
    }
}

/* Makes an exchange that the port wants, and hands in what became of it. */
static void make_exchange(struct port *port, const struct iolm_request *isdu) {
    struct gateway *gateway = port->gateway;
    struct driver_line line;
    enum driver_says says;
    pthread_mutex_unlock(&gateway->lock);
    says = exchange(port, isdu, &line);
    pthread_mutex_lock(&gateway->lock);
    if (says == DRIVER_LOST) {
        driver_close(&port->driver);
        iolm_port_lost(&gateway->master, port->number);
    } else if (says == DRIVER_ANSWER && isdu) {
        iolm_port_answer(&gateway->master, port->number, line.octets, line.count);
    } else if (says == DRIVER_ANSWER) {
        iolm_port_page(&gateway->master, port->number, line.octets);
    }
}

/* Waits for a wake, for an event of the driver, or until it is time to look for a lost device again. */
static void wait_for_work(struct port *port) {
    struct gateway *gateway = port->gateway;
    struct pollfd files[2] = {{port->wake[0], POLLIN, 0}, {port->driver.reads, POLLIN, 0}};
    struct driver_line line;
    char woken[64];
    bool is_lost = port->shown.status == IOLM_LOST, is_open = port->driver.reads >= 0, is_gone;
    pthread_mutex_unlock(&gateway->lock);
    poll(files, is_open ? 2 : 1, is_lost ? LOOK_AGAIN_MS : -1);
    if (files[0].revents) {
        (void)!read(port->wake[0], woken, sizeof woken);
    }
    is_gone = is_open && hear(port, &line) == DRIVER_LOST;
    pthread_mutex_lock(&gateway->lock);
    if (is_gone) {
        driver_close(&port->driver);
        iolm_port_lost(&gateway->master, port->number);
    } else if (is_lost) {
        iolm_port_wake(&gateway->master, port->number);
    }
}

static void *run_port(void *of) {
    struct port *port = (struct port *)of;
    struct gateway *gateway = port->gateway;
    struct iolm_request request;
    pthread_mutex_lock(&gateway->lock);
    /* A port that has a configuration since before looks at its device. */
    iolm_port_wake(&gateway->master, port->number);
    while (!gateway->ports_end) {
        switch (iolm_port_next(&gateway->master, port->number, &request)) {
        case IOLM_PAGE:
            make_exchange(port, NULL);
            break;
        case IOLM_REQUEST:
            make_exchange(port, &request);
            break;
        case IOLM_AGAIN:
            pthread_cond_signal(&gateway->disk_wanted);
            break;
        default:
            show_status(port);
            pthread_cond_signal(&gateway->disk_wanted);
            wait_for_work(port);
        }
        show_status(port);
    }
    pthread_mutex_unlock(&gateway->lock);
    return NULL;
}

/* Adds the port that a word `1=FROM,TO` names. */
static void add_port(struct gateway *gateway, struct port *port, char *word) {
    char *from = strchr(word, '='), *to = strchr(word, ',');
    unsigned number = (unsigned)atoi(word);
    if (!from || !to || to < from || number < 1 || number > IOLM_PORTS || gateway->ports[number]) {
        fail("a port is N=FROM,TO, and each stands once");
    }
    memset(port, 0, sizeof *port);
    *to = 0;
    port->gateway = gateway;
    port->number = (uint8_t)number;
    port->driver.from = from + 1;
    port->driver.to = to + 1;
    port->driver.reads = port->driver.writes = -1;
    if (pipe(port->wake) || fcntl(port->wake[1], F_SETFL, O_NONBLOCK)) {
        fail("no pipe can be made");
    }
    gateway->ports[number] = port;
}

/* ---- What is typed ---- */

static void configure(struct gateway *gateway, unsigned port, unsigned vendor, unsigned device) {
    struct iolm_config config;
    uint64_t number;
    uint32_t answer;
    memset(&config, 0, sizeof config);
    config.mode = IOLM_IOL_MANUAL;
    config.validation = IOLM_BACKUP_AND_RESTORE;
    config.vendor = (uint16_t)vendor;
    config.device = device;
    answer = iolm_configure(&gateway->master, (uint8_t)port, &config, &number);
    if (answer == IOLM_OK) {
        printf("accepted %" PRIu64 "\n", number);
        pthread_cond_signal(&gateway->disk_wanted);
    } else {
        printf("refused %s\n", iolm_result_name(answer));
    }
}

/* Does what a line asks for; false where it is the last. */
static bool take_command(struct gateway *gateway, const char *line) {
    unsigned port, vendor, device;
    if (sscanf(line, "configure %u %u %u", &port, &vendor, &device) == 3 && port <= 255 && vendor <= 65535) {
        configure(gateway, port, vendor, device);
    } else if (sscanf(line, "status %u", &port) == 1 && port <= IOLM_PORTS && gateway->ports[port]) {
        gateway->ports[port]->shown.status = 255;
        show_status(gateway->ports[port]);
    } else if (!strncmp(line, "quit", 4)) {
        return false;
    } else {
        printf("unknown: %s", line);
    }
    return true;
}

/* Ends the threads of the ports, then that of the disk, which first makes durable what was accepted. */
static void end(struct gateway *gateway, pthread_t disk) {
    unsigned number;
    pthread_mutex_lock(&gateway->lock);
    gateway->ports_end = true;
    wake_ports(gateway);
    pthread_mutex_unlock(&gateway->lock);
    for (number = 1; number <= IOLM_PORTS; number++) {
        if (gateway->ports[number]) {
            pthread_join(gateway->ports[number]->thread, NULL);
        }
    }
    pthread_mutex_lock(&gateway->lock);
    gateway->disk_ends = true;
    pthread_cond_signal(&gateway->disk_wanted);
    pthread_mutex_unlock(&gateway->lock);
    pthread_join(disk, NULL);
    iolm_close(&gateway->master);
}

/* Opens an image, which is made where it is not there. */
static void take_image(struct gateway *gateway, const char *path, uint16_t ports, uint16_t slots) {
    bool is_new = access(path, F_OK) != 0;
    uint32_t answer = IOLM_OK;
    gateway->image = open(path, O_RDWR | O_CREAT, 0644);
    if (gateway->image < 0) {
        fail("the image is not opened");
    }
    if (is_new) {
        answer = iolm_file_format(gateway->image, ports, slots);
    }
    if (answer == IOLM_OK) {
        answer = iolm_file_open(&gateway->master, gateway->image);
    }
    if (answer != IOLM_OK) {
        fail(answer == IOLM_INVALID ? "there is no disk for so many ports and slots" : iolm_result_name(answer));
    }
}

int main(int count, char **words) {
    static struct port ports[IOLM_PORTS];
    static struct gateway gateway = {PTHREAD_MUTEX_INITIALIZER, PTHREAD_COND_INITIALIZER, IOLM_INIT, {NULL}, -1, 0, false, false};
    pthread_t disk;
    char line[128];
    bool more = true;
    int place;
    if (count < 5 || count > 4 + IOLM_PORTS) {
        fail("posix_gateway IMAGE PORTS SLOTS N=FROM,TO ..");
    }
    setvbuf(stdout, NULL, _IOLBF, 0);
    take_image(&gateway, words[1], (uint16_t)atoi(words[2]), (uint16_t)atoi(words[3]));
    for (place = 4; place < count; place++) {
        add_port(&gateway, &ports[place - 4], words[place]);
    }
    if (pthread_create(&disk, NULL, run_disk, &gateway)) {
        fail("no thread can be made");
    }
    for (place = 4; place < count; place++) {
        if (pthread_create(&ports[place - 4].thread, NULL, run_port, &ports[place - 4])) {
            fail("no thread can be made");
        }
    }
    while (more && fgets(line, sizeof line, stdin)) {
        pthread_mutex_lock(&gateway.lock);
        more = take_command(&gateway, line);
        pthread_mutex_unlock(&gateway.lock);
    }
    end(&gateway, disk);
    return 0;
}
