/* Reads a capture on standard input, and prints after each datagram the best levels of each book that changed:
 * its slot, the bid and the offer. Lines of other forms are passed over. */
#include "mdp_handler.h"
#include <stdio.h>
#include <string.h>

static char line[8192];

/* Reads the `I` lines, which stand in front. */
static size_t read_listing(char *listing, size_t room) {
    size_t length = 0;
    while (fgets(line, sizeof line, stdin) && line[0] == 'I' && length + strlen(line) < room) {
        length += (size_t)sprintf(listing + length, "%s", line);
    }
    return length;
}

/* Reads the next datagram, if there is one. */
static bool next_datagram(uint32_t *feed, uint8_t *bytes, size_t *length) {
    static const char feeds[] = "ABS";
    while (!line[0] || !strchr(feeds, line[0]) || line[1] != ' ') {
        if (!fgets(line, sizeof line, stdin)) return false;
    }
    *feed = (uint32_t)(strchr(feeds, line[0]) - feeds);
    for (*length = 0; *length < 2048 && sscanf(line + 2 + 2 * *length, "%2hhx", bytes + *length) == 1; ++*length) {}
    line[0] = 0;
    return true;
}

static void print_level(bool is_there, struct mdp_level level) {
    if (is_there) printf(" %lldx%lld", (long long)level.price, (long long)level.size);
    else printf(" -");
}

int main(void) {
    static char listing[32768];
    uint8_t bytes[2048];
    uint32_t slots[512], feed, status = 0;
    uint64_t count;
    struct mdp_best best;
    struct mdp_handler handler = MDP_HANDLER_CLOSED;
    struct mdp_options options = MDP_OPTIONS;
    size_t length = read_listing(listing, sizeof listing);
    if (mdp_handler_open_text(&handler, &options, listing, length, NULL)) return 1;
    while (status != MDP_MEMORY && next_datagram(&feed, bytes, &length)) {
        status = mdp_handler_datagram(&handler, feed, bytes, length, NULL);
        mdp_handler_changed(&handler, slots, 512, &count);
        for (uint64_t n = 0; n < count; n++) {
            mdp_handler_best(&handler, slots[n], &best);
            printf("%u", slots[n]);
            print_level(best.has_bid, best.bid);
            print_level(best.has_offer, best.offer);
            puts(best.is_faulty ? " faulty" : "");
        }
        mdp_handler_clear_lines(&handler);
    }
    mdp_handler_free(&handler);
    return status == MDP_MEMORY;
}
