/* Tests of the calls: calls WINDOW CAPTURE TEXT, in the root folder of the repository
 *
 * Each function with a closed handle, with numbers out of range, with NULL and with arrays that are too short; opening; and over the
 * capture, of which TEXT is what mdp_handler prints, two handles in two threads, and each allocation refused in turn. It is linked with
 * -Wl,--wrap=malloc,--wrap=realloc,--wrap=free. Prints what is otherwise, then 'N passed, M failed', where each allocation is a case. */
#include "mdp_handler.h"
#include <pthread.h>
#include <stdio.h>
#include <stdlib.h>
#include <string.h>

/* ---- Checks */

static unsigned passed, failed, faults;

#define CHECK(what) check((what), #what, __LINE__)

static bool check(bool holds, const char *what, int line) {
    if (!holds && ++faults <= 20) printf("calls.c:%d: not so: %s\n", line, what);
    return holds;
}

/* Ends a case: it passed where nothing was otherwise in it. */
static void end_case(void) {
    static unsigned before;
    if (faults == before) passed++;
    else failed++;
    before = faults;
}

/* ---- Allocations: how many are alive, and after how many more one is refused; 0 refuses none. Each thread has its own. */

static _Thread_local long alive, until_refusal;

void *__real_malloc(size_t);
void *__real_realloc(void *, size_t);
void __real_free(void *);
void *__wrap_malloc(size_t);
void *__wrap_realloc(void *, size_t);
void __wrap_free(void *);

static bool is_refused(void) {
    return until_refusal > 0 && --until_refusal == 0;
}

void *__wrap_malloc(size_t size) {
    void *block = is_refused() ? NULL : __real_malloc(size);
    alive += block != NULL;
    return block;
}

void *__wrap_realloc(void *block, size_t size) {
    void *larger = is_refused() ? NULL : __real_realloc(block, size);
    alive += !block && larger;
    return larger;
}

void __wrap_free(void *block) {
    alive -= block != NULL;
    __real_free(block);
}

/* ---- A capture, and the lines that are wanted of it */

struct datagram {
    uint32_t feed; /* 3: the close */
    size_t count;
    uint8_t bytes[2048];
};

struct capture {
    char *listing, *wanted;
    size_t listed, length, count;
    struct datagram *datagrams;
};

static char *read_file(const char *path, size_t *length) {
    FILE *file = fopen(path, "rb");
    char *bytes = __real_malloc(1 << 20);
    if (!file || !bytes) {
        fprintf(stderr, "cannot read %s\n", path);
        exit(2);
    }
    *length = fread(bytes, 1, (1 << 20) - 1, file);
    bytes[*length] = 0;
    fclose(file);
    return bytes;
}

/* Reads a capture with no line that is skipped. */
static struct capture read_capture(const char *path, const char *text) {
    struct capture it = {NULL, NULL, 0, 0, 0, NULL};
    char *line = it.listing = read_file(path, &it.length);
    size_t room = 0;
    for (const char *c = line; *c; c++) room += *c == '\n';
    it.datagrams = __real_malloc((room + 1) * sizeof *it.datagrams);
    while (*line == 'I') line = strchr(line, '\n') + 1;
    it.listed = (size_t)(line - it.listing);
    for (; *line; line = strchr(line, '\n') + 1) {
        struct datagram *datagram = &it.datagrams[it.count++];
        datagram->feed = *line == 'X' ? 3 : *line == 'S' ? 2 : (uint32_t)(*line - 'A');
        datagram->count = 0;
        if (*line == 'X') continue;
        for (line += 2; sscanf(line, "%2hhx", &datagram->bytes[datagram->count]) == 1 && *line != '\n'; line += 2) datagram->count++;
    }
    it.wanted = read_file(text, &it.length);
    for (it.length = 0; it.wanted[it.length] && !strchr("XZ", it.wanted[it.length]);) {
        it.length = (size_t)(strchr(it.wanted + it.length, '\n') + 1 - it.wanted);
    }
    return it;
}

static void free_capture(struct capture *capture) {
    __real_free(capture->listing);
    __real_free(capture->wanted);
    __real_free(capture->datagrams);
}

static struct mdp_options options_with(uint32_t window) {
    struct mdp_options options = MDP_OPTIONS;
    options.window = window;
    return options;
}

static uint32_t feed(struct mdp_handler *handler, const struct datagram *datagram, struct mdp_became *became) {
    if (datagram->feed == 3) return mdp_handler_close(handler);
    return mdp_handler_datagram(handler, datagram->feed, datagram->bytes, datagram->count, became);
}

/* ---- A closed handle, NULL, and numbers out of range */

static bool is_closed(struct mdp_handler *handler) {
    struct mdp_state state;
    return !handler->address && mdp_handler_state(handler, &state) == MDP_CLOSED;
}

static void check_closed(struct mdp_handler *handler) {
    uint32_t slots[4] = {9, 9, 9, 9};
    uint64_t count = 9;
    bool current = true;
    struct mdp_became became = {.kind = 9};
    struct mdp_best best = {.is_faulty = 9};
    struct mdp_level level = {9, 9};
    struct mdp_book_fault fault = {.packet = 9};
    struct mdp_state state = {.next = 9};
    struct mdp_lent lines = {(const uint8_t *)"x", 1};
    CHECK(is_closed(handler));
    CHECK(mdp_handler_datagram(handler, 0, "", 0, &became) == 81 && became.kind == 9);
    CHECK(mdp_handler_datagram(handler, 9, "", 0, NULL) == 81);
    CHECK(mdp_handler_close(handler) == 81);
    CHECK(mdp_lines(handler, &lines) == 81 && lines.length == 1);
    CHECK(mdp_handler_lines(handler, &lines) == 81 && lines.length == 0 && lines.bytes);
    CHECK(mdp_handler_clear_lines(handler) == 81);
    CHECK(mdp_handler_changed(handler, slots, 4, &count) == 81 && slots[0] == 9 && count == 9);
    CHECK(mdp_handler_is_current(handler, 0, &current) == 81 && current);
    CHECK(mdp_handler_best(handler, 0, &best) == 81 && best.is_faulty == 9);
    CHECK(mdp_handler_levels(handler, 0, 0, 0, &level, 1, &count) == 81 && level.price == 9 && count == 9);
    CHECK(mdp_handler_fault(handler, 0, &fault) == 81 && fault.packet == 9);
    CHECK(mdp_handler_state(handler, &state) == 81 && state.next == 9);
    mdp_handler_free(handler);
    mdp_handler_free(handler);
    CHECK(is_closed(handler));
}

static void check_null(struct mdp_handler *open) {
    struct mdp_options options = MDP_OPTIONS;
    struct mdp_instrument instrument = {1, 0, 0, 10, 1, "N", 0};
    struct mdp_handler closed = MDP_HANDLER_CLOSED;
    uint32_t slots[4];
    uint64_t count = 9;
    bool current;
    struct mdp_best best;
    struct mdp_level level;
    struct mdp_book_fault fault;
    struct mdp_state state;
    struct mdp_lent lines;
    CHECK(mdp_handler_open(NULL, &options, &instrument, 1, &count) == 83);
    CHECK(mdp_handler_open(&closed, NULL, &instrument, 1, &count) == 83);
    CHECK(mdp_handler_open(&closed, &options, NULL, 1, &count) == 83);
    CHECK(mdp_handler_open(&closed, &options, NULL, 0, NULL) == 34);
    CHECK(mdp_handler_open_text(NULL, &options, "", 0, &count) == 83);
    CHECK(mdp_handler_open_text(&closed, NULL, "", 0, &count) == 83);
    CHECK(mdp_handler_open_text(&closed, &options, NULL, 1, &count) == 83);
    CHECK(mdp_handler_open_text(&closed, &options, NULL, 0, NULL) == 34);
    CHECK(count == 9 && is_closed(&closed));
    CHECK(mdp_handler_datagram(NULL, 0, "", 0, NULL) == 83);
    CHECK(mdp_handler_datagram(open, 0, NULL, 1, NULL) == 83);
    CHECK(mdp_handler_datagram(open, 0, NULL, 0, NULL) == 1);
    CHECK(mdp_handler_close(NULL) == 83 && mdp_handler_clear_lines(NULL) == 83);
    CHECK(mdp_handler_lines(NULL, &lines) == 83 && mdp_handler_lines(open, NULL) == 83);
    CHECK(mdp_handler_changed(NULL, slots, 4, &count) == 83 && mdp_handler_changed(open, NULL, 4, &count) == 83);
    CHECK(mdp_handler_changed(open, slots, 4, NULL) == 83);
    CHECK(mdp_handler_is_current(NULL, 0, &current) == 83 && mdp_handler_is_current(open, 0, NULL) == 83);
    CHECK(mdp_handler_best(NULL, 0, &best) == 83 && mdp_handler_best(open, 0, NULL) == 83);
    CHECK(mdp_handler_levels(NULL, 0, 0, 0, &level, 1, &count) == 83 && mdp_handler_levels(open, 0, 0, 0, NULL, 1, &count) == 83);
    CHECK(mdp_handler_levels(open, 0, 0, 0, &level, 1, NULL) == 83);
    CHECK(mdp_handler_fault(NULL, 0, &fault) == 83 && mdp_handler_fault(open, 0, NULL) == 83);
    CHECK(mdp_handler_state(NULL, &state) == 83 && mdp_handler_state(open, NULL) == 83);
    mdp_handler_free(NULL);
}

/* Checks an open handle with one instrument. */
static void check_range(struct mdp_handler *open) {
    static const uint32_t slots[] = {1, 2, 512, UINT32_MAX}, feeds_and_books[] = {3, 4, 256, UINT32_MAX}, sides[] = {2, 3, 256, UINT32_MAX};
    static const uint8_t zeros[2049];
    struct mdp_became became = {.kind = 9};
    struct mdp_best best = {.is_faulty = 9};
    struct mdp_level level = {9, 9};
    struct mdp_book_fault fault = {.packet = 9};
    uint64_t count = 9;
    bool current = true;
    for (size_t n = 0; n < 4; n++) {
        CHECK(mdp_handler_best(open, slots[n], &best) == 83);
        CHECK(mdp_handler_levels(open, slots[n], 0, 0, &level, 1, &count) == 83);
        CHECK(mdp_handler_fault(open, slots[n], &fault) == 83);
        CHECK(mdp_handler_is_current(open, slots[n], &current) == 83);
        CHECK(mdp_handler_datagram(open, feeds_and_books[n], zeros, 12, &became) == 83);
        CHECK(mdp_handler_levels(open, 0, feeds_and_books[n], 0, &level, 1, &count) == 83);
        CHECK(mdp_handler_levels(open, 0, 0, sides[n], &level, 1, &count) == 83);
    }
    CHECK(best.is_faulty == 9 && level.price == 9 && count == 9 && fault.packet == 9 && current);
    CHECK(mdp_handler_datagram(open, 0, zeros, 2049, &became) == 23);
    CHECK(mdp_handler_datagram(open, 0, zeros, SIZE_MAX, &became) == 23);
    CHECK(mdp_handler_datagram(open, 0, zeros, 2048, &became) == 2);
    CHECK(mdp_handler_datagram(open, 2, zeros, 11, &became) == 1);
    CHECK(became.kind == 9);
}

/* ---- Opening */

static void check_options(void) {
    static const struct mdp_options wrong[] = {
        {0, 4, 0, 1, 0},    {23, 4, 0, 1, 0}, {25, 4, 0, 1, 0}, {24, 0, 0, 1, 0}, {24, 65537, 0, 1, 0}, {24, UINT32_MAX, 0, 1, 0},
        {24, 4, 2, 1, 0},   {24, 4, UINT32_MAX, 1, 0}, {24, 4, 0, 2, 0}, {24, 4, 0, UINT32_MAX, 0}, {24, 4, 0, 1, 1},
    };
    struct mdp_instrument instrument = {1, 0, 0, 10, 4, "NEAR", 0};
    struct mdp_handler handler = MDP_HANDLER_CLOSED;
    uint64_t place = 9;
    for (size_t n = 0; n < sizeof wrong / sizeof *wrong; n++) {
        CHECK(mdp_handler_open(&handler, &wrong[n], &instrument, 1, &place) == 83 && is_closed(&handler));
        CHECK(mdp_handler_open_text(&handler, &wrong[n], "I 1 NEAR O\n", 11, &place) == 83 && is_closed(&handler));
    }
    CHECK(place == 9);
}

static void check_instruments(void) {
    static const struct {
        struct mdp_instrument second;
        uint32_t status;
    } wrong[] = {
        {{0, 0, 0, 10, 1, "N", 0}, 83},    {{-1, 0, 0, 10, 1, "N", 0}, 83}, {{2, 0, 0, 0, 1, "N", 0}, 83},
        {{2, 0, 0, 11, 1, "N", 0}, 83},    {{2, 0, 0, 10, 0, "N", 0}, 83},  {{2, 0, 0, 10, 21, "N", 0}, 83},
        {{2, 0, 0, 10, 1, " ", 0}, 83},    {{2, 0, 0, 10, 1, "\x7f", 0}, 83}, {{2, 0, 0, 10, 1, "N", 1}, 83},
        {{2, 1, 0, 10, 1, "N", 0}, 83},    {{2, 0, 1, 10, 1, "N", 0}, 83},  {{1, 0, 0, 10, 1, "N", 0}, 31},
        {{2, 0, 0, 10, 4, "NEAR", 0}, 31}, {{2, 1, 1, 10, 1, "N", 0}, 32},  {{2, 1, 7, 10, 1, "N", 0}, 32},
        {{2, 1, 7, 9, 1, "N", 0}, 83},
    };
    struct mdp_options options = options_with(4);
    struct mdp_handler handler = MDP_HANDLER_CLOSED;
    for (size_t n = 0; n < sizeof wrong / sizeof *wrong; n++) {
        struct mdp_instrument listed[2] = {{1, 0, 0, 10, 4, "NEAR", 0}, wrong[n].second};
        uint64_t place = 9;
        if (!CHECK(mdp_handler_open(&handler, &options, listed, 2, &place) == wrong[n].status)) printf("instrument %zu\n", n);
        CHECK(place == 1 && is_closed(&handler));
        CHECK(mdp_handler_open(&handler, &options, listed, 2, NULL) == wrong[n].status);
        CHECK(mdp_handler_open(&handler, &options, listed, 1, &place) == 0 && place == 1);
        mdp_handler_free(&handler);
    }
    CHECK(alive == 0);
}

static void check_texts(void) {
    static const struct {
        const char *text;
        uint32_t status;
        uint64_t line;
    } wrong[] = {
        {"", 34, 9},
        {"\n", 21, 1},
        {"I 1 NEAR O\nA 00\n", 21, 2},
        {"I 1 NEAR O\n\nI 2 FAR O\n", 21, 2},
        {"I 1 NEAR O\nI 1 FAR O\n", 31, 2},
        {"I 1 NEAR O\nI 2 FAR O\nI 3 CAL C 1 4", 32, 3},
    };
    struct mdp_options options = options_with(4);
    struct mdp_handler handler = MDP_HANDLER_CLOSED;
    for (size_t n = 0; n < sizeof wrong / sizeof *wrong; n++) {
        uint64_t line = 9;
        CHECK(mdp_handler_open_text(&handler, &options, wrong[n].text, strlen(wrong[n].text), &line) == wrong[n].status);
        CHECK(line == wrong[n].line && is_closed(&handler));
    }
    struct mdp_instrument many[513];
    uint64_t place = 9;
    memset(many, 0, sizeof many);
    for (int n = 0; n < 513; n++) {
        many[n].id = n + 1;
        many[n].depth = 10;
        many[n].length = (uint8_t)snprintf((char *)many[n].name, sizeof many[n].name, "N%d", n);
    }
    CHECK(mdp_handler_open(&handler, &options, many, 513, &place) == 33 && place == 512 && is_closed(&handler));
    CHECK(mdp_handler_open(&handler, &options, many, 512, &place) == 0 && !is_closed(&handler));
    mdp_handler_free(&handler);
    CHECK(alive == 0);
}

/* Opens examples/plain.capture, whose text says what stands below, and looks at all that is told of it. */
static void check_plain(void) {
    struct capture plain = read_capture("examples/plain.capture", "examples/plain.txt");
    struct mdp_options options = options_with(4);
    struct mdp_handler handler = MDP_HANDLER_CLOSED, moved;
    struct mdp_became became;
    struct mdp_best best;
    struct mdp_state state;
    struct mdp_level levels[MDP_MOST_LEVELS] = {{9, 9}, {9, 9}, {9, 9}};
    struct mdp_book_fault fault;
    uint32_t slots[2] = {9, 9};
    uint64_t count = 9;
    bool current = false;
    check_closed(&handler);
    CHECK(mdp_handler_open_text(&handler, &options, plain.listing, plain.listed, &count) == 0 && count == 9);
    CHECK(mdp_handler_open_text(&handler, &options, plain.listing, plain.listed, &count) == 82 && count == 9);
    CHECK(mdp_handler_open(&handler, &options, NULL, 0, &count) == 82 && count == 9);
    for (size_t n = 0; n < plain.count; n++) {
        CHECK(feed(&handler, &plain.datagrams[n], &became) == 0 && became.kind == 1 && became.fate == MDP_FIRST);
        CHECK(became.has_loss == 0 && became.has_jump == 0);
        check_null(&handler);
        check_range(&handler);
    }
    CHECK(feed(&handler, &plain.datagrams[0], &became) == 0 && became.fate == MDP_PAST);
    moved = handler;
    handler = MDP_HANDLER_CLOSED;
    CHECK(mdp_handler_state(&moved, &state) == 0 && state.next == 4 && state.highest == 3 && state.waiting == 0);
    CHECK(state.is_lost == 0 && state.has_stale == 0 && state.stale == 0);
    CHECK(mdp_handler_changed(&moved, NULL, 0, &count) == 84 && count == 1);
    CHECK(mdp_handler_changed(&moved, slots, 2, &count) == 0 && count == 1 && slots[0] == 0 && slots[1] == 9);
    CHECK(mdp_handler_levels(&moved, 0, MDP_DIRECT, MDP_BID, levels, 1, &count) == 84 && count == 2 && levels[0].price == 9);
    CHECK(mdp_handler_levels(&moved, 0, MDP_CONSOLIDATED, MDP_BID, NULL, 0, &count) == 84 && count == 2);
    CHECK(mdp_handler_levels(&moved, 0, MDP_CONSOLIDATED, MDP_BID, levels, 3, &count) == 0 && count == 2);
    CHECK(levels[0].price == 101 && levels[0].size == 2 && levels[1].price == 100 && levels[1].size == 5 && levels[2].price == 9);
    CHECK(mdp_handler_levels(&moved, 0, MDP_DIRECT, MDP_OFFER, levels, 3, &count) == 0 && count == 1 && levels[0].price == 103);
    CHECK(mdp_handler_levels(&moved, 0, MDP_IMPLIED, MDP_OFFER, NULL, 0, &count) == 0 && count == 0);
    CHECK(mdp_handler_best(&moved, 0, &best) == 0 && best.has_bid == 1 && best.has_offer == 1 && best.is_faulty == 0);
    CHECK(best.bid.price == 101 && best.bid.size == 2 && best.offer.price == 103 && best.offer.size == 4);
    CHECK(mdp_handler_is_current(&moved, 0, &current) == 0 && current);
    CHECK(mdp_handler_fault(&moved, 0, &fault) == 0 && fault.is_faulty == 0);
    CHECK(mdp_handler_clear_lines(&moved) == 0 && mdp_handler_changed(&moved, NULL, 0, &count) == 0 && count == 0);
    CHECK(mdp_handler_close(&moved) == 0);
    CHECK(feed(&moved, &plain.datagrams[0], &became) == 0 && became.fate == MDP_AFTER_CLOSE);
    mdp_handler_free(&moved);
    CHECK(alive == 0);
    check_closed(&moved);
    free_capture(&plain);
}

/* ---- Two threads */

static struct capture capture;
static uint32_t window;

/* Runs over the capture and tells whether the lines are the wanted ones. */
static void *run(void *unused) {
    struct mdp_options options = options_with(window);
    struct mdp_handler handler = MDP_HANDLER_CLOSED;
    struct mdp_lent lines;
    size_t told = 0;
    bool is_right = mdp_handler_open_text(&handler, &options, capture.listing, capture.listed, NULL) == 0;
    for (size_t n = 0; n < capture.count; n++) {
        is_right &= feed(&handler, &capture.datagrams[n], NULL) <= MDP_LAST_REFUSAL && !mdp_handler_lines(&handler, &lines);
        is_right &= lines.length <= capture.length - told && !memcmp(capture.wanted + told, lines.bytes, lines.length);
        told += is_right ? lines.length : 0;
        is_right &= mdp_handler_clear_lines(&handler) == 0;
    }
    mdp_handler_free(&handler);
    (void)unused;
    return is_right && told == capture.length && alive == 0 ? &capture : NULL;
}

static void check_threads(void) {
    for (int n = 0; n < 20; n++) {
        pthread_t one, two;
        void *first = NULL, *second = NULL;
        CHECK(!pthread_create(&one, NULL, run, NULL) && !pthread_create(&two, NULL, run, NULL));
        CHECK(!pthread_join(one, &first) && !pthread_join(two, &second));
        CHECK(first && second);
    }
}

/* A handle that goes on in another thread. */
static void *free_there(void *handler) {
    mdp_handler_free(handler);
    return NULL;
}

static void check_other_thread(void) {
    struct mdp_options options = options_with(window);
    struct mdp_handler handler = MDP_HANDLER_CLOSED;
    pthread_t other;
    CHECK(mdp_handler_open_text(&handler, &options, capture.listing, capture.listed, NULL) == 0);
    CHECK(!pthread_create(&other, NULL, free_there, &handler) && !pthread_join(other, NULL) && is_closed(&handler));
    alive = 0;
}

/* ---- Each allocation refused in turn */

/* All that is told of a handle of which nothing changes. */
struct told {
    struct mdp_state state;
    struct mdp_best best;
    struct mdp_book_fault fault;
    struct mdp_level levels[6][MDP_MOST_LEVELS];
    uint64_t counts[6], length;
    bool current;
};

static void tell(struct mdp_handler *handler, struct told *told) {
    struct mdp_lent lines;
    memset(told, 0, sizeof *told);
    CHECK(mdp_handler_state(handler, &told->state) == 0 && mdp_handler_lines(handler, &lines) == 0);
    CHECK(mdp_handler_best(handler, 0, &told->best) == 0 && mdp_handler_fault(handler, 0, &told->fault) == 0);
    CHECK(mdp_handler_is_current(handler, 0, &told->current) == 0);
    for (uint32_t n = 0; n < 6; n++) {
        CHECK(mdp_handler_levels(handler, 0, n / 2, n % 2, told->levels[n], MDP_MOST_LEVELS, &told->counts[n]) == 0);
    }
    told->length = lines.length;
}

/* A handle that failed at datagram `from`, when `printed` bytes were handed on: what is lent is a beginning of the text, and from now
 * on each datagram is answered so, and all else as before. */
static void check_failed(struct mdp_handler *handler, size_t from, size_t printed) {
    static struct told before, after;
    struct mdp_lent lines;
    uint64_t count;
    CHECK(mdp_handler_lines(handler, &lines) == 0 && lines.length <= capture.length - printed);
    CHECK(!memcmp(capture.wanted + printed, lines.bytes, lines.length));
    tell(handler, &before);
    for (size_t n = from; n < capture.count; n++) CHECK(feed(handler, &capture.datagrams[n], NULL) == 41);
    CHECK(mdp_handler_datagram(handler, 3, "", 0, NULL) == 83 && mdp_handler_best(handler, 512, &before.best) == 83);
    tell(handler, &after);
    CHECK(!memcmp(&before, &after, sizeof before));
    CHECK(mdp_handler_clear_lines(handler) == 0 && mdp_handler_lines(handler, &lines) == 0 && lines.length == 0);
    CHECK(mdp_handler_changed(handler, NULL, 0, &count) == 0 && count == 0);
    CHECK(mdp_handler_close(handler) == 41);
}

/* Runs over the capture with the allocation of this number refused, and tells whether there was one. */
static bool is_told_of_refusal(long number) {
    struct mdp_options options = options_with(window);
    struct mdp_handler handler = MDP_HANDLER_CLOSED;
    struct mdp_lent lines;
    size_t printed = 0;
    uint64_t line = 9;
    until_refusal = number;
    uint32_t status = mdp_handler_open_text(&handler, &options, capture.listing, capture.listed, &line);
    if (status) CHECK(status == 41 && line == 9 && is_closed(&handler) && until_refusal == 0);
    for (size_t n = 0; n < capture.count && !status; n++) {
        status = feed(&handler, &capture.datagrams[n], NULL);
        CHECK((status == 41) == (until_refusal == 0));
        if (status == 41) {
            check_failed(&handler, n, printed);
        } else {
            status = 0;
            CHECK(mdp_handler_lines(&handler, &lines) == 0 && lines.length <= capture.length - printed);
            CHECK(!memcmp(capture.wanted + printed, lines.bytes, lines.length));
            printed += lines.length;
            mdp_handler_clear_lines(&handler);
        }
    }
    if (!status) CHECK(printed == capture.length);
    until_refusal = 0;
    mdp_handler_free(&handler);
    CHECK(alive == 0);
    return status == 41;
}

static void check_refusals(void) {
    long number = 1;
    while (number < 5000 && is_told_of_refusal(number)) {
        number++;
        end_case();
    }
    CHECK(number > 10 && number < 5000);
    end_case();
}

int main(int count, char **words) {
    if (count != 4) {
        fprintf(stderr, "usage: calls WINDOW CAPTURE TEXT\n");
        return 2;
    }
    window = (uint32_t)atoi(words[1]);
    check_options();
    end_case();
    check_instruments();
    end_case();
    check_texts();
    end_case();
    check_plain();
    end_case();
    capture = read_capture(words[2], words[3]);
    check_threads();
    end_case();
    check_other_thread();
    end_case();
    check_refusals();
    free_capture(&capture);
    printf("%u passed, %u failed\n", passed, failed);
    return failed > 0;
}
