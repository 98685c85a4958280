/* Prints for a capture on standard input what mdp_handler prints of it with --in-order: text [--window N] [--join] < capture
 *
 * Skipped lines are not told. The exit statuses are the program's: 0; 1 where memory, a read or a write failed; 2 where the words or the
 * capture are refused. */
#include "mdp_handler.h"
#include <errno.h>
#include <stdio.h>
#include <stdlib.h>
#include <string.h>

enum { LONGEST = 2048 };

/* Bytes that grow. */
struct text {
    char *bytes;
    size_t length, room;
};

/* A refused datagram: its line, and why. */
struct refusal {
    unsigned long long line;
    uint32_t status;
};

/* A line of the capture: the kind it has, or 0 for one that is skipped, and of a datagram its bytes. */
struct line {
    char kind;
    size_t count;
    uint8_t bytes[LONGEST];
};

/* All zero at first, so closed. */
static struct mdp_handler handler;

/* Tells a fault, frees what is held and leaves. */
static _Noreturn void leave(int status, const char *says) {
    fprintf(stderr, "%s\n", says);
    mdp_handler_free(&handler);
    exit(status);
}

static void append(struct text *text, const char *bytes, size_t length) {
    if (text->room - text->length < length) {
        size_t room = 2 * (text->length + length) + 4096;
        char *larger = realloc(text->bytes, room);
        if (!larger) leave(1, "41 Memory");
        text->bytes = larger;
        text->room = room;
    }
    if (length) memcpy(text->bytes + text->length, bytes, length);
    text->length += length;
}

static void write_out(const void *bytes, size_t length) {
    if (fwrite(bytes, 1, length, stdout) != length) leave(1, "42 Output");
}

/* The value of a hexadecimal digit, or -1. */
static int digit_of(char c) {
    if (c >= '0' && c <= '9') return c - '0';
    if (c >= 'a' && c <= 'f') return c - 'a' + 10;
    if (c >= 'A' && c <= 'F') return c - 'A' + 10;
    return -1;
}

/* Tells whether these are the digits of a datagram, and decodes them. */
static bool decode(const char *digits, size_t length, struct line *line) {
    if (length == 0 || length % 2 || length / 2 > LONGEST) return false;
    for (size_t n = 0; n < length; n += 2) {
        int high = digit_of(digits[n]), low = digit_of(digits[n + 1]);
        if (high < 0 || low < 0) return false;
        line->bytes[n / 2] = (uint8_t)(16 * high + low);
    }
    line->count = length / 2;
    return true;
}

/* Tells whether this is an I line, whether its instrument can be listed or not. The library is asked. */
static bool is_listing(const char *bytes, size_t length) {
    struct mdp_handler trial = MDP_HANDLER_CLOSED;
    struct mdp_options options = MDP_OPTIONS;
    options.window = 1;
    uint32_t status = mdp_handler_open_text(&trial, &options, bytes, length, NULL);
    mdp_handler_free(&trial);
    if (status == MDP_MEMORY) leave(1, "41 Memory");
    return status != MDP_NO_LISTING;
}

/* Reads a line, without its end. */
static void read_line(const char *bytes, size_t length, struct line *line) {
    line->kind = 0;
    if (length && bytes[0] == 'I') {
        if (is_listing(bytes, length)) line->kind = 'I';
    } else if (length == 1 && bytes[0] == 'X') {
        line->kind = 'X';
    } else if (length > 2 && strchr("ABS", bytes[0]) && bytes[0] && bytes[1] == ' ') {
        if (decode(bytes + 2, length - 2, line)) line->kind = bytes[0];
    }
}

/* Calls `take` with each line, its number and its bytes without their end. */
static void each_line(const struct text *capture, void (*take)(unsigned long long, const char *, size_t)) {
    unsigned long long number = 0;
    for (size_t place = 0; place < capture->length;) {
        const char *from = capture->bytes + place;
        const char *end = memchr(from, '\n', capture->length - place);
        size_t length = end ? (size_t)(end - from) : capture->length - place;
        place += length + 1;
        if (end && length && from[length - 1] == '\r') length--;
        take(++number, from, length);
    }
}

static struct text listing;
static bool has_begun;
static struct line line;
static struct text refusals[3];

/* Lists an I line, and refuses one that stands behind what is no I line. */
static void list_line(unsigned long long number, const char *bytes, size_t length) {
    (void)number;
    read_line(bytes, length, &line);
    if (line.kind == 'I') {
        if (has_begun) leave(2, "35 InstrumentLate");
        append(&listing, bytes, length);
        append(&listing, "\n", 1);
    } else if (line.kind) {
        has_begun = true;
    }
}

/* Takes in a datagram or the close, and prints the lines that it brought. */
static void feed_line(unsigned long long number, const char *bytes, size_t length) {
    struct mdp_lent lines;
    uint32_t status = 0, feed;
    if (length && bytes[0] == 'I') return;
    read_line(bytes, length, &line);
    if (!line.kind) return;
    feed = line.kind == 'S' ? MDP_FEED_S : (uint32_t)(line.kind - 'A');
    if (line.kind == 'X') status = mdp_handler_close(&handler);
    else status = mdp_handler_datagram(&handler, feed, line.bytes, line.count, NULL);
    if (status >= MDP_FIRST_REFUSAL && status <= MDP_LAST_REFUSAL) {
        struct refusal refusal = {number, status};
        append(&refusals[feed], (const char *)&refusal, sizeof refusal);
    }
    mdp_handler_lines(&handler, &lines);
    write_out(lines.bytes, lines.length);
    mdp_handler_clear_lines(&handler);
    if (status == MDP_MEMORY) leave(1, "41 Memory");
}

/* Prints the refused datagrams and the end. */
static void print_end(void) {
    struct mdp_state state;
    for (int feed = 0; feed < 3; feed++) {
        for (size_t place = 0; place < refusals[feed].length; place += sizeof(struct refusal)) {
            struct refusal it;
            memcpy(&it, refusals[feed].bytes + place, sizeof it);
            printf("X %c %llu %u %s\n", "ABS"[feed], it.line, it.status, mdp_handler_status_name(it.status));
        }
    }
    mdp_handler_state(&handler, &state);
    printf("Z %llu %s\n", (unsigned long long)state.next, state.is_lost ? "lost" : "live");
}

/* The options that the words say. */
static struct mdp_options options_of(int count, char **words) {
    struct mdp_options options = MDP_OPTIONS;
    for (int n = 1; n < count; n++) {
        if (!strcmp(words[n], "--join")) {
            options.start = MDP_JOIN;
        } else if (!strcmp(words[n], "--window") && n + 1 < count) {
            char *end;
            errno = 0;
            unsigned long window = strtoul(words[++n], &end, 10);
            if (errno || end == words[n] || *end || window > 65536) leave(2, "usage: text [--window N] [--join]");
            options.window = (uint32_t)window;
        } else {
            leave(2, "usage: text [--window N] [--join]");
        }
    }
    return options;
}

int main(int count, char **words) {
    struct mdp_options options = options_of(count, words);
    struct text capture = {NULL, 0, 0};
    char block[4096];
    size_t length;
    while ((length = fread(block, 1, sizeof block, stdin))) append(&capture, block, length);
    if (ferror(stdin)) leave(1, "43 Input");
    each_line(&capture, list_line);
    uint32_t status = mdp_handler_open_text(&handler, &options, listing.bytes, listing.length, NULL);
    if (status) leave(status == MDP_MEMORY ? 1 : 2, mdp_handler_status_name(status));
    each_line(&capture, feed_line);
    print_end();
    if (fflush(stdout)) leave(1, "42 Output");
    mdp_handler_free(&handler);
    for (int feed = 0; feed < 3; feed++) free(refusals[feed].bytes);
    free(listing.bytes);
    free(capture.bytes);
    return 0;
}
