// mdp_handler.hpp: mdp_handler.h as a class of C++17.
//
// A handler is moved and never copied. What only a caller can do wrong, and a list of instruments that is refused, is an exception; memory
// that ran out is std::bad_alloc. A datagram that is refused is an answer. Of the caller's duties in mdp_handler.h numbers 1, 3, 6, 8 and 9
// remain. One that was moved from is closed: each call with it is misuse.
#ifndef MDP_HANDLER_HPP
#define MDP_HANDLER_HPP

#include "mdp_handler.h"

#include <cstddef>
#include <cstdint>
#include <new>
#include <optional>
#include <stdexcept>
#include <string>
#include <string_view>
#include <utility>
#include <vector>

namespace mdp {

enum class feed : std::uint32_t { a = MDP_FEED_A, b = MDP_FEED_B, snapshots = MDP_FEED_S };
enum class start : std::uint32_t { from_one = MDP_FROM_ONE, join = MDP_JOIN };
enum class book : std::uint32_t { direct = MDP_DIRECT, implied = MDP_IMPLIED, consolidated = MDP_CONSOLIDATED };
enum class side : std::uint32_t { bid = MDP_BID, offer = MDP_OFFER };

using level = mdp_level;
using became = mdp_became;
using book_fault = mdp_book_fault;
using channel_state = struct mdp_state;

// How a channel is followed; as the program follows it, where nothing is said.
struct options {
    std::uint32_t window = 1024;
    mdp::start start = mdp::start::from_one;
    bool lines = true;
};

// A call that only a mistake of the caller makes: with a closed handler, a slot that isn't listed, a window that is out of its range.
class misuse : public std::logic_error {
  public:
    explicit misuse(std::uint32_t status) : std::logic_error(mdp_handler_status_name(status)), status_(status) {}
    std::uint32_t status() const noexcept { return status_; }

  private:
    std::uint32_t status_;
};

// Instruments that are refused: why, and where one is, its line, from 1, or its place in a vector, from 0.
class listing_error : public std::invalid_argument {
  public:
    listing_error(std::uint32_t status, std::optional<std::uint64_t> place)
        : std::invalid_argument(mdp_handler_status_name(status)), status_(status), place_(place) {}
    std::uint32_t status() const noexcept { return status_; }
    std::optional<std::uint64_t> place() const noexcept { return place_; }

  private:
    std::uint32_t status_;
    std::optional<std::uint64_t> place_;
};

// What was answered to a datagram: what became of it, or why it is refused, 1 to 18 or 23, and then it counts as one that never came.
class answer {
  public:
    explicit answer(std::uint32_t status, const mdp::became &became) : status_(status), became_(became) {}
    explicit operator bool() const noexcept { return status_ == MDP_DONE; }
    std::uint32_t status() const noexcept { return status_; }
    const char *name() const noexcept { return mdp_handler_status_name(status_); }
    std::optional<mdp::became> became() const { return *this ? std::optional(became_) : std::nullopt; }

  private:
    std::uint32_t status_;
    mdp::became became_;
};

// The best level of each consolidated side that has one.
struct best_levels {
    std::optional<level> bid, offer;
};

// An outright with these levels on a side of the direct book, or a spread that buys leg1 and sells leg2.
inline mdp_instrument outright(std::int32_t id, std::string_view name, std::uint8_t depth = 10) {
    mdp_instrument it{id, 0, 0, depth, static_cast<std::uint8_t>(name.size() > 20 ? 255 : name.size()), {}, 0};
    name.copy(reinterpret_cast<char *>(it.name), sizeof it.name);
    return it;
}

inline mdp_instrument calendar(std::int32_t id, std::string_view name, std::int32_t leg1, std::int32_t leg2) {
    mdp_instrument it = outright(id, name);
    it.leg1 = leg1;
    it.leg2 = leg2;
    return it;
}

class handler {
  public:
    // Opens with a text of `I` lines.
    explicit handler(std::string_view listing, const options &how = {}) {
        const mdp_options plain = plain_of(how);
        std::uint64_t line = untold;
        const std::uint32_t status = mdp_handler_open_text(&raw_, &plain, listing.data(), listing.size(), &line);
        opened(status, line);
    }

    explicit handler(const std::vector<mdp_instrument> &instruments, const options &how = {}) {
        const mdp_options plain = plain_of(how);
        std::uint64_t place = untold;
        const std::uint32_t status = mdp_handler_open(&raw_, &plain, instruments.data(), instruments.size(), &place);
        opened(status, place);
    }

    handler(const handler &) = delete;
    handler &operator=(const handler &) = delete;
    handler(handler &&other) noexcept : raw_(std::exchange(other.raw_, MDP_HANDLER_CLOSED)) {}
    handler &operator=(handler &&other) noexcept {
        if (this != &other) {
            mdp_handler_free(&raw_);
            raw_ = std::exchange(other.raw_, MDP_HANDLER_CLOSED);
        }
        return *this;
    }
    ~handler() { mdp_handler_free(&raw_); }

    // Takes in a datagram. Where memory ran out, now or before, std::bad_alloc is thrown, and all else answers as before.
    answer datagram(feed from, const void *bytes, std::size_t length) {
        mdp::became became{};
        const std::uint32_t status = mdp_handler_datagram(&raw_, static_cast<std::uint32_t>(from), bytes, length, &became);
        if (status == MDP_MEMORY || status >= MDP_CLOSED) done(status);
        return answer(status, became);
    }

    // Takes in that the channel was closed.
    void close() { done(mdp_handler_close(&raw_)); }

    // Lends the lines that are held, up to the next call.
    std::string_view lines() {
        mdp_lent lent{};
        done(mdp_handler_lines(&raw_, &lent));
        return {reinterpret_cast<const char *>(lent.bytes), lent.length};
    }

    // Lets the lines go, and the marks of what changed.
    void clear_lines() { done(mdp_handler_clear_lines(&raw_)); }

    // The slots whose books were printed since lines were let go last, ascending.
    std::vector<std::uint32_t> changed() {
        std::uint64_t count = 0;
        std::vector<std::uint32_t> slots;
        std::uint32_t status = mdp_handler_changed(&raw_, nullptr, 0, &count);
        if (status == MDP_TOO_SHORT) {
            slots.resize(count);
            status = mdp_handler_changed(&raw_, slots.data(), slots.size(), &count);
        }
        done(status);
        return slots;
    }

    // Whether the book at a slot is the complete feed's right before the packet that comes next.
    bool is_current(std::uint32_t slot) {
        bool current = false;
        done(mdp_handler_is_current(&raw_, slot, &current));
        return current;
    }

    // The best levels of the book at a slot; nothing where it is faulty.
    std::optional<best_levels> best(std::uint32_t slot) {
        struct mdp_best it{};
        done(mdp_handler_best(&raw_, slot, &it));
        if (it.is_faulty) return std::nullopt;
        best_levels best;
        if (it.has_bid) best.bid = it.bid;
        if (it.has_offer) best.offer = it.offer;
        return best;
    }

    // The levels of a side of a book at a slot, the best first; none where it is faulty.
    std::vector<level> levels(std::uint32_t slot, book which, side of) {
        std::uint64_t count = 0;
        std::vector<level> levels(MDP_MOST_LEVELS);
        done(mdp_handler_levels(&raw_, slot, static_cast<std::uint32_t>(which), static_cast<std::uint32_t>(of), levels.data(),
                                levels.size(), &count));
        levels.resize(count);
        return levels;
    }

    // Where the book at a slot became faulty, if it is.
    std::optional<book_fault> fault(std::uint32_t slot) {
        book_fault fault{};
        done(mdp_handler_fault(&raw_, slot, &fault));
        return fault.is_faulty ? std::optional(fault) : std::nullopt;
    }

    // Where the channel stands.
    channel_state state() {
        channel_state state{};
        done(mdp_handler_state(&raw_, &state));
        return state;
    }

  private:
    static mdp_options plain_of(const options &how) {
        return {sizeof(mdp_options), how.window, static_cast<std::uint32_t>(how.start), how.lines ? 1u : 0u, 0};
    }

    static void done(std::uint32_t status) {
        if (status == MDP_MEMORY) throw std::bad_alloc();
        if (status) throw misuse(status);
    }

    // Where no place is told, what is out of its range is an option.
    static constexpr std::uint64_t untold = UINT64_MAX;

    static void opened(std::uint32_t status, std::uint64_t place) {
        if (status == MDP_DONE || status == MDP_MEMORY || (status == MDP_OUT_OF_RANGE && place == untold)) return done(status);
        throw listing_error(status, place == untold ? std::nullopt : std::optional(place));
    }

    mdp_handler raw_ = MDP_HANDLER_CLOSED;
};

}  // namespace mdp

#endif
