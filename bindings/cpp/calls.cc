// Tests of the class, in the root folder of the repository: that a handler is moved and never copied, and what each fault comes as.
// Prints what is otherwise, then 'N passed, M failed'.
#include "mdp_handler.hpp"

#include <cstdio>
#include <type_traits>

static_assert(!std::is_copy_constructible_v<mdp::handler> && !std::is_copy_assignable_v<mdp::handler>);
static_assert(std::is_nothrow_move_constructible_v<mdp::handler> && std::is_nothrow_move_assignable_v<mdp::handler>);

namespace {

unsigned passed = 0, failed = 0;

void check(bool holds, const char *what) {
    (holds ? passed : failed)++;
    if (!holds) std::printf("calls.cc: not so: %s\n", what);
}

// The status of the exception of this type that a call throws, or -1.
template <class Error, class Call>
int thrown(Call call) {
    try {
        call();
    } catch (const Error &error) {
        return static_cast<int>(error.status());
    } catch (const std::exception &) {
    }
    return -1;
}

// Packet 1 of examples/plain.capture: a bid of 5 at 100.
const unsigned char packet[] = {
    1, 0, 0, 0, 0, 0, 0, 0, 0, 0, 0, 0, 0x38, 0, 0x0b, 0, 0x2e, 0, 1, 0, 9, 0, 0, 0, 0, 0, 0, 0, 0, 0, 0x80, 0, 0, 0x20,
    0, 1, 0x64, 0, 0, 0, 0, 0, 0, 0, 5, 0, 0, 0, 1, 0, 0, 0, 0, 0, 0, 0, 1, 0, 0, 0, 1, 0, 0x30, 0, 0, 0, 0, 0};

void run() {
    mdp::handler first("I 1 NEAR O\n");
    const auto answer = first.datagram(mdp::feed::a, packet, sizeof packet);
    check(answer && answer.became() && answer.became()->fate == MDP_FIRST, "packet 1 is the first of its number");
    check(!first.datagram(mdp::feed::b, packet, 11), "a short datagram is refused");
    check(std::string(first.datagram(mdp::feed::b, packet, 11).name()) == "TooShort", "it is TooShort");
    mdp::handler second(std::vector{mdp::outright(1, "NEAR"), mdp::outright(2, "FAR", 5), mdp::calendar(3, "CAL", 1, 2)});
    second = std::move(first);
    mdp::handler third(std::move(second));
    check(thrown<mdp::misuse>([&] { first.state(); }) == MDP_CLOSED, "one that was moved from is closed");
    check(thrown<mdp::misuse>([&] { second.lines(); }) == MDP_CLOSED, "one that was moved from again is closed");
    check(third.lines() == "D 1.1 NEAR B 100x5 O\nI 1.1 NEAR B O\nC 1.1 NEAR B 100x5 O\n", "the lines moved along");
    check(third.changed() == std::vector<std::uint32_t>{0}, "slot 0 changed");
    check(third.levels(0, mdp::book::consolidated, mdp::side::bid).size() == 1, "there is one bid");
    check(third.best(0) && third.best(0)->bid && third.best(0)->bid->price == 100, "the best bid is 100");
    check(third.best(0) && !third.best(0)->offer, "there is no offer");
    check(!third.fault(0) && third.is_current(0), "the book is good and current");
    check(third.state().next == 2, "packet 2 comes next");
    check(thrown<mdp::misuse>([&] { third.best(1); }) == MDP_OUT_OF_RANGE, "slot 1 is not listed");
    third.clear_lines();
    check(third.lines().empty() && third.changed().empty(), "the lines went");
    third.close();
    check(third.datagram(mdp::feed::a, packet, sizeof packet).became()->fate == MDP_AFTER_CLOSE, "the channel is closed");

    check(thrown<mdp::listing_error>([] { mdp::handler(""); }) == MDP_NONE_LISTED, "no instrument is listed");
    check(thrown<mdp::listing_error>([] { mdp::handler("I 1 NEAR O\nI 1 FAR O\n"); }) == MDP_DUPLICATE_ID, "an id comes twice");
    check(thrown<mdp::listing_error>([] { mdp::handler(std::vector{mdp::outright(0, "N")}); }) == MDP_OUT_OF_RANGE, "an id is 0");
    check(thrown<mdp::misuse>([] { mdp::handler("I 1 NEAR O\n", {0}); }) == MDP_OUT_OF_RANGE, "a window is 0");
    try {
        mdp::handler("I 1 NEAR O\nI 1 FAR O\n");
    } catch (const mdp::listing_error &error) {
        check(error.place() == 2, "line 2 is refused");
    }
}

}  // namespace

int main() {
    run();
    std::printf("%u passed, %u failed\n", passed, failed);
    return failed > 0;
}
