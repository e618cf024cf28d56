/* Tries the library for C (include/iolmaster.h): each call of the disk fails in turn, the power stops before and after each, each request
 * for memory is refused in turn, and a careless caller calls at random. The last line is 'N passed, M failed'. The device is that of
 * examples/c/replace_a_sensor.c. Linked with -Wl,--wrap=malloc,--wrap=realloc. */
#define main play_example
#include "../examples/c/replace_a_sensor.c"
#undef main

void *__real_malloc(size_t count);
void *__real_realloc(void *at, size_t count);

static long requests, refused_request = -1, passed, failed, disk_calls, failing_call = -1;
static uint64_t accepted;
static size_t sectors;

void *__wrap_malloc(size_t count) {
    return requests++ == refused_request ? NULL : __real_malloc(count);
}

void *__wrap_realloc(void *at, size_t count) {
    return requests++ == refused_request ? NULL : __real_realloc(at, count);
}

static void judge(bool good, const char *what, long which) {
    if (good) {
        passed++;
    } else {
        failed++;
        printf("%s, %ld\n", what, which);
    }
}

/* One of the images that a power stop may leave: of each sector that was written since the last sync what is durable, what was written,
 * or neither. */
static const uint8_t *sector_of_image(int kind, size_t sector) {
    static uint8_t torn[IOLM_SECTOR_OCTETS];
    bool is_new = kind == 1 || (kind == 2 && sector % 2) || (kind == 3 && sector % 2 == 0);
    if (kind == 4 && memcmp(durable[sector], written[sector], sizeof torn)) {
        memcpy(torn, durable[sector], sizeof torn);
        memcpy(torn, written[sector], 100);
        return torn;
    }
    return is_new ? written[sector] : durable[sector];
}

/* The number that is found on an image; 0 less 1 where it is not opened. */
static uint64_t number_on_image(int kind) {
    struct iolm master = IOLM_INIT;
    struct iolm_disk_call call;
    uint64_t number = UINT64_MAX;
    long kept_requests = requests, kept_refused = refused_request;
    uint32_t what;
    refused_request = -1;
    iolm_open(&master, sectors);
    while ((what = iolm_disk_next(&master, &call)) == IOLM_SYNC || what == IOLM_READ) {
        if (what == IOLM_SYNC) {
            iolm_disk_done(&master, true);
        } else {
            iolm_disk_read(&master, sector_of_image(kind, (size_t)call.sector));
        }
    }
    if (what == IOLM_OPENED) {
        iolm_durable(&master, &number);
    }
    iolm_close(&master);
    requests = kept_requests;
    refused_request = kept_refused;
    return number;
}

/* The flash is formatted with all memory there is. */
static void format_again(void) {
    long refused = refused_request;
    refused_request = -1;
    format_flash();
    requests = 0;
    refused_request = refused;
}

static void judge_images(uint64_t known) {
    int kind;
    for (kind = 0; kind < 5; kind++) {
        uint64_t number = number_on_image(kind);
        judge(number != UINT64_MAX && known <= number && number <= accepted, "an image has another number", kind);
    }
}

/* Makes a call of the disk, if one is wanted, with images before and after it. */
static bool make_disk_call(struct iolm *master) {
    struct iolm_disk_call call;
    uint64_t known = 0;
    bool made;
    uint32_t what = iolm_disk_next(master, &call);
    if (what == IOLM_AGAIN) {
        iolm_port_wake(master, 1);
        return true;
    }
    if (what != IOLM_WRITE && what != IOLM_SYNC) {
        return what == IOLM_MEMORY;
    }
    iolm_durable(master, &known);
    iolm_accepted(master, &accepted);
    judge_images(known);
    made = disk_calls++ != failing_call;
    if (made && what == IOLM_WRITE) {
        write_sector(&call);
    } else if (made) {
        sync_flash();
    }
    iolm_disk_done(master, made);
    judge_images(known);
    return true;
}

/* A port is configured, its device backed up, and the master ended; whether all was done. */
static bool play(void) {
    struct iolm master = IOLM_INIT;
    struct iolm_config config;
    struct iolm_disk_call call;
    struct iolm_port_view view;
    struct device device = {{0x0A, 0x64}, {0x7F}, 0x80};
    uint64_t number = 0;
    uint32_t what;
    int turn, done = 0;
    memset(durable, 0, sizeof durable);
    memset(written, 0, sizeof written);
    memset(&config, 0, sizeof config);
    disk_calls = 0;
    accepted = 0;
    format_again();
    if (iolm_open(&master, sectors) != IOLM_OK) {
        return false;
    }
    for (turn = 0; turn < 2000; turn++) {
        what = iolm_disk_next(&master, &call);
        if (what == IOLM_OPENED) {
            break;
        }
        if (what == IOLM_SYNC) {
            iolm_disk_done(&master, true);
        } else if (what == IOLM_READ) {
            iolm_disk_read(&master, written[call.sector]);
        }
    }
    config.mode = IOLM_IOL_MANUAL;
    config.validation = IOLM_BACKUP_AND_RESTORE;
    config.vendor = 500;
    config.device = 43981;
    for (turn = 0; turn < 2000 && done < 20; turn++) {
        bool more;
        if (number == 0 && iolm_configure(&master, 1, &config, &number) != IOLM_OK) {
            number = 0;
        }
        more = serve_port(&master, &device);
        more = make_disk_call(&master) || more;
        done = more ? 0 : done + 1;
        if (!more && done == 10) {
            iolm_port_wake(&master, 1);
        }
    }
    memset(&view, 0, sizeof view);
    iolm_port_view(&master, 1, &view);
    iolm_close(&master);
    judge(master.at == NULL && !master.is_open, "a closed handle is not zeros", 0);
    return view.present.entries == 2;
}

/* Answers what port 1 wants with this page, and with these octets, until it wants nothing. */
static void answer_port(struct iolm *master, const uint8_t *page, const uint8_t *octets, size_t count) {
    struct iolm_request request;
    int turn;
    for (turn = 0; turn < 100; turn++) {
        switch (iolm_port_next(master, 1, &request)) {
        case IOLM_PAGE: iolm_port_page(master, 1, page); break;
        case IOLM_REQUEST: iolm_port_answer(master, 1, octets, count); break;
        case IOLM_AGAIN: break;
        default: return;
        }
    }
}

/* The device of port 1 is lost, which the port hears, and another one is there. */
static void replace_device(struct iolm *master) {
    struct iolm_request request;
    int turn;
    iolm_port_lost(master, 1);
    iolm_port_wake(master, 1);
    for (turn = 0; turn < 10 && iolm_port_next(master, 1, &request) == IOLM_AGAIN; turn++) {
    }
    iolm_port_wake(master, 1);
}

static void judge_status(struct iolm *master, uint8_t status, uint8_t detail, uint8_t error, uint8_t additional) {
    struct iolm_status told;
    iolm_port_status(master, 1, &told);
    judge(told.status == status && told.detail == detail && told.error == error && told.additional == additional, "another status",
          told.status * 100 + told.detail);
}

/* Each page is of another device than is configured; then a device refuses a request, and answers too little. Each device is lost. */
static void judge_statuses(struct iolm *master) {
    static const uint8_t pages[][IOLM_PAGE_OCTETS] = {
        {0, 0, 0x17, 1, 0x11, 0, 0, 0x01, 0xF5, 0, 0xAB, 0xCD}, {0, 0, 0x17, 1, 0x11, 0, 0, 0x01, 0xF4, 0, 0xAB, 0xCE},
        {0, 0, 0x17, 1, 0x10, 0, 0, 0x01, 0xF4, 0, 0xAB, 0xCD}, {0, 0, 0x17, 0, 0x11, 0, 0, 0x01, 0xF4, 0, 0xAB, 0xCD}};
    static const uint8_t page[IOLM_PAGE_OCTETS] = {0, 0, 0x17, 1, 0x11, 0, 0, 0x01, 0xF4, 0, 0xAB, 0xCD};
    static const uint8_t mismatches[] = {IOLM_OTHER_VENDOR, IOLM_OTHER_DEVICE, IOLM_OLD_REVISION, IOLM_NO_ISDU};
    uint8_t refusal[IOLM_ISDU_OCTETS];
    size_t count = answer(refusal, 12, "\x80\x23", 2), each;
    for (each = 0; each < 4; each++) {
        replace_device(master);
        answer_port(master, pages[each], refusal, count);
        judge_status(master, IOLM_MISMATCH, mismatches[each], 0, 0);
    }
    replace_device(master);
    answer_port(master, page, refusal, count);
    judge_status(master, IOLM_FAILED, IOLM_FAILED_REFUSED, 0x80, 0x23);
    replace_device(master);
    answer_port(master, page, refusal, 0);
    judge_status(master, IOLM_FAILED, IOLM_FAILED_EMPTY, 0, 0);
    replace_device(master);
}

static void judge_entry(struct iolm *master, uint8_t which, size_t place, unsigned index, const uint8_t *octets, uint8_t count) {
    struct iolm_entry entry;
    memset(&entry, 0xFF, sizeof entry);
    judge(iolm_entry(master, 1, which, place, &entry) == IOLM_OK && entry.index == index && entry.count == count &&
              !memcmp(entry.octets, octets, count) && entry.octets[count] == 0, "another entry", (long)place);
}

/* Both sets of a port are read back after a backup and a second one; a handle that is opened anew has ended its master. */
static void read_back(void) {
    struct iolm master = IOLM_INIT;
    struct iolm_config config;
    struct iolm_entry entry;
    struct device device = {{0x0A, 0x64}, {0x7F}, 0x80};
    static const uint8_t before[] = {0x0A, 0x64}, after[] = {0x0A, 0x65};
    uint64_t number;
    format_again();
    open_flash(&master, sectors);
    memset(&config, 0, sizeof config);
    config.mode = IOLM_IOL_MANUAL;
    config.validation = IOLM_BACKUP_AND_RESTORE;
    config.vendor = 500;
    config.device = 43981;
    iolm_configure(&master, 1, &config, &number);
    serve(&master, &device);
    device.first[1] = 0x65;
    device.state = 0x80;
    iolm_port_event(&master, 1, UPLOAD_REQUEST);
    serve(&master, &device);
    judge_entry(&master, IOLM_PRESENT, 0, 0x40, after, 2);
    judge_entry(&master, IOLM_PREVIOUS, 0, 0x40, before, 2);
    judge_entry(&master, IOLM_PRESENT, 1, 0x41, device.second, 1);
    judge(iolm_entry(&master, 1, IOLM_PRESENT, 2, &entry) == IOLM_NOTHING, "an entry too many", 2);
    judge(iolm_entry(&master, 2, IOLM_PRESENT, 0, &entry) == IOLM_NOTHING, "a set of another port", 2);
    judge(iolm_entry(&master, 3, IOLM_PRESENT, 0, &entry) == IOLM_ABSENT, "a port too many", 3);
    judge(iolm_configure(&master, 3, &config, &number) == IOLM_UNKNOWN_PORT, "a port too many", 3);
    judge(iolm_rollback(&master, 2, &number) == IOLM_NO_PREVIOUS, "a rollback with no set", 2);
    judge_statuses(&master);
    serve(&master, &device);
    judge_status(&master, IOLM_READY, 0, 0, 0);
    open_flash(&master, sectors);
    iolm_close(&master);
}

static uint32_t random_number(void) {
    static uint32_t state = 1;
    state = state * 1664525u + 1013904223u;
    return state >> 8;
}

static bool is_named(uint32_t result) {
    return result <= IOLM_REQUEST || (IOLM_UNKNOWN_PORT <= result && result <= IOLM_EXHAUSTED) ||
           (IOLM_DISK_READ <= result && result <= IOLM_DAMAGED);
}

/* One call with arguments at random, of a caller that reports what it likes. */
static uint32_t call_at_random(struct iolm *master) {
    static uint8_t octets[600];
    struct iolm_disk_call call;
    struct iolm_request request;
    struct iolm_config config;
    struct iolm_status status;
    struct iolm_port_view view;
    struct iolm_entry entry;
    uint64_t number;
    uint8_t port = (uint8_t)(random_number() % 5);
    size_t place;
    for (place = 0; place < sizeof octets; place++) {
        octets[place] = (uint8_t)random_number();
    }
    memcpy(&config, octets, sizeof config);
    if (random_number() % 2) {
        config.mode = IOLM_IOL_MANUAL;
        config.validation = IOLM_BACKUP_AND_RESTORE;
        config.device &= 0xFFFFFF;
        config.label_count = 0;
    }
    switch (random_number() % 40) {
    case 0: return random_number() % 20 ? IOLM_OK : iolm_open(master, random_number() % 3 ? sectors : random_number());
    case 1: return random_number() % 50 ? IOLM_OK : (iolm_close(master), IOLM_OK);
    case 2: return iolm_configure(master, port, &config, &number);
    case 3: return iolm_clear(master, port, &number);
    case 4: return iolm_rollback(master, port, &number);
    case 5: return iolm_port_page(master, port, octets);
    case 6: return iolm_port_answer(master, port, octets, random_number() % 300);
    case 7: return iolm_port_lost(master, port);
    case 8: return iolm_port_event(master, port, (uint16_t)random_number());
    case 9: return iolm_port_status(master, port, &status);
    case 10: return iolm_durable(master, &number);
    case 11: return iolm_accepted(master, &number);
    case 12: return iolm_port_view(master, port, &view);
    case 13: return iolm_entry(master, port, (uint8_t)(random_number() % 3), random_number() % 4, &entry);
    case 14: return iolm_port_wake(master, (uint8_t)random_number());
    case 15: return iolm_format_sectors((uint16_t)(random_number() % 40), (uint16_t)(random_number() % 300), &number);
    case 16: return iolm_format_next((uint16_t)(random_number() % 40), (uint16_t)(random_number() % 300), random_number() % 700, &call);
    case 17: return iolm_disk_read(master, octets);
    case 18: return random_number() % 50 ? IOLM_OK : iolm_disk_done(master, false);
    case 19: case 20: case 21: case 22: return iolm_port_next(master, port, &request);
    case 23: case 24: case 25: return serve_port(master, &(struct device){{1, 2}, {3}, 0x80}) ? IOLM_AGAIN : IOLM_NOTHING;
    default: return serve_disk(master) ? IOLM_AGAIN : IOLM_NOTHING;
    }
}

static void call_carelessly(long calls) {
    struct iolm master = IOLM_INIT;
    long call;
    for (call = 0; call < calls; call++) {
        uint32_t result;
        if (call % 1000 == 0) {
            format_again();
            iolm_open(&master, sectors);
        }
        if (call % 7 == 0) {
            refused_request = requests + (long)(random_number() % 3);
        }
        result = call_at_random(&master);
        if (!is_named(result)) {
            judge(false, "a result has no name", (long)result);
        }
    }
    refused_request = -1;
    iolm_close(&master);
    judge(true, "", 0);
}

int main(int count, char **words) {
    uint64_t all;
    long each, most, carelessly = count > 1 ? atol(words[1]) : 100000;
    if (iolm_format_sectors(PORTS, SLOTS, &all) != IOLM_OK || all > MOST_SECTORS) {
        fail("the flash is too small");
    }
    sectors = (size_t)all;
    judge(play(), "a backup is not made", 0);
    most = disk_calls;
    for (failing_call = 0; failing_call < most; failing_call++) {
        play();
    }
    printf("%ld calls of the disk have failed in turn\n", most);
    failing_call = -1;
    play();
    most = requests;
    for (each = 0; each < most; each++) {
        refused_request = each;
        judge(play() || each < 1, "a backup is not made where a request for memory is refused", each);
    }
    refused_request = -1;
    printf("%ld requests for memory were refused in turn\n", most);
    read_back();
    call_carelessly(carelessly);
    printf("%ld passed, %ld failed\n", passed, failed);
    return failed != 0;
}
