/* Passes what came on a channel to a handler of the library for C, one datagram after another, and lets go what it made after each that may
 * have changed a book, as the crate handler_times does without C: library_times lines|books|nothing [TIMES] < capture. With `nothing` the capture is only read; TIMES
 * says how many handlers follow it, one after another. */
#include "mdp_handler.h"
#include <stdio.h>
#include <stdlib.h>
#include <string.h>

/* A datagram: its feed, and its bytes. */
struct datagram {
    const uint8_t *bytes;
    uint32_t length;
    uint32_t feed;
};

/* A capture: its `I` lines, and the bytes of its datagrams, one behind another as a capture of `Handler` holds them. */
struct capture {
    char *bytes;
    size_t length;
    size_t listing; /* the length of its `I` lines, which stand first */
    struct datagram *datagrams;
    size_t count;
};

static _Noreturn void leave(const char *says) {
    fprintf(stderr, "%s\n", says);
    exit(1);
}

/* Gives things with room for one more after `length` of them, of this size. */
static void *grown(void *things, size_t length, size_t *room, size_t size) {
    if (length < *room) return things;
    *room = 2 * length + 65536;
    things = realloc(things, *room * size);
    if (!things) leave("out of memory");
    return things;
}

static uint8_t digit_of(char c) {
    return (uint8_t)(c <= '9' ? c - '0' : (c | 32) - 'a' + 10);
}

/* Decodes digits to bytes that may begin in front of them, or with them. */
static size_t decode(const char *digits, size_t length, uint8_t *to) {
    for (size_t n = 0; n < length / 2; n++) to[n] = (uint8_t)(16 * digit_of(digits[2 * n]) + digit_of(digits[2 * n + 1]));
    return length / 2;
}

static struct capture read_capture(void) {
    struct capture capture = {NULL, 0, 0, NULL, 0};
    size_t room = 0, most = 0, count;
    do {
        capture.bytes = grown(capture.bytes, capture.length + 65535, &room, 1);
        capture.length += count = fread(capture.bytes + capture.length, 1, 65535, stdin);
    } while (count);
    uint8_t *to = NULL;
    for (char *line = capture.bytes, *all = line + capture.length, *end; line < all; line = end + 1) {
        end = memchr(line, '\n', (size_t)(all - line));
        if (!end) leave("the last line has no end");
        if (*line == 'I' && !to) capture.listing = (size_t)(end + 1 - capture.bytes);
        if (!strchr("ABS", *line)) continue;
        if (!to) to = (uint8_t *)line;
        const uint32_t feed = *line == 'S' ? MDP_FEED_S : (uint32_t)(*line - 'A');
        const size_t length = decode(line + 2, (size_t)(end - line - 2), to);
        capture.datagrams = grown(capture.datagrams, capture.count, &most, sizeof(struct datagram));
        capture.datagrams[capture.count++] = (struct datagram){to, (uint32_t)length, feed};
        to += length;
    }
    return capture;
}

/* What a handler made of a capture. */
struct counts {
    uint64_t firsts, jumps, books, bytes;
};

static struct counts follow(const struct capture *capture, uint32_t lines) {
    struct mdp_handler handler = MDP_HANDLER_CLOSED;
    struct mdp_options options = {sizeof options, 65536, MDP_FROM_ONE, lines, 0};
    struct mdp_lent lent;
    struct mdp_became became;
    uint32_t slots[512];
    struct counts counts = {0, 0, 0, 0};
    uint64_t count;
    uint32_t status;
    if (mdp_handler_open_text(&handler, &options, capture->bytes, capture->listing, NULL)) leave("the instruments are refused");
    for (size_t n = 0; n < capture->count; n++) {
        const struct datagram *it = &capture->datagrams[n];
        status = mdp_handler_datagram(&handler, it->feed, it->bytes, it->length, &became);
        if (status == MDP_MEMORY) leave("out of memory");
        if (status != MDP_DONE) continue;
        counts.jumps += became.has_jump;
        if (became.kind == 1) {
            if (became.fate != MDP_FIRST) continue; /* it came before, or too late: no book changed */
            counts.firsts++;
        }
        mdp_handler_changed(&handler, slots, 512, &count);
        counts.books += count;
        if (lines) {
            mdp_handler_lines(&handler, &lent);
            counts.bytes += lent.length;
        }
        mdp_handler_clear_lines(&handler);
    }
    mdp_handler_free(&handler);
    return counts;
}

int main(int count, char **words) {
    const char *word = count > 1 ? words[1] : "";
    const unsigned long times = count > 2 ? strtoul(words[2], NULL, 10) : 1;
    struct capture capture = read_capture();
    if (!strcmp(word, "lines") || !strcmp(word, "books")) {
        struct counts counts = follow(&capture, *word == 'l');
        for (unsigned long n = 1; n < times; n++) counts = follow(&capture, *word == 'l');
        printf("%zu datagrams, %llu first copies, %llu jumps, %llu books, %llu bytes of text\n", capture.count,
               (unsigned long long)counts.firsts, (unsigned long long)counts.jumps, (unsigned long long)counts.books,
               (unsigned long long)counts.bytes);
    } else if (strcmp(word, "nothing")) leave("the first argument is lines, books or nothing");
    free(capture.datagrams);
    free(capture.bytes);
    return 0;
}
