// Reads a capture on standard input, and prints after each datagram the best levels of each book that changed:
// its slot, the bid and the offer. Lines of other forms are passed over.
#include "mdp_handler.hpp"

#include <cstdio>
#include <exception>
#include <iostream>
#include <string>

namespace {

std::string words_of(const std::optional<mdp::level> &level) {
    return level ? std::to_string(level->price) + "x" + std::to_string(level->size) : "-";
}

void print_changed(mdp::handler &handler) {
    for (const auto slot : handler.changed()) {
        std::cout << slot;
        if (const auto best = handler.best(slot)) {
            std::cout << ' ' << words_of(best->bid) << ' ' << words_of(best->offer) << '\n';
        } else {
            std::cout << " - - faulty\n";
        }
    }
    handler.clear_lines();
}

std::string bytes_of(const std::string &digits) {
    std::string bytes;
    for (std::size_t n = 0; n + 1 < digits.size(); n += 2) {
        bytes += static_cast<char>(std::stoi(digits.substr(n, 2), nullptr, 16));
    }
    return bytes;
}

void follow(std::istream &capture) {
    std::string listing, line;
    std::optional<mdp::handler> handler;
    mdp::options options;
    options.lines = false;
    while (std::getline(capture, line)) {
        if (line.rfind("I ", 0) == 0) listing += line + "\n";
        if (line.size() < 2 || std::string("ABS").find(line[0]) == std::string::npos || line[1] != ' ') continue;
        if (!handler) handler.emplace(listing, options);
        const auto feed = line[0] == 'S' ? mdp::feed::snapshots : line[0] == 'A' ? mdp::feed::a : mdp::feed::b;
        const std::string bytes = bytes_of(line.substr(2));
        const auto answer = handler->datagram(feed, bytes.data(), bytes.size());
        if (!answer) std::cerr << answer.status() << ' ' << answer.name() << '\n';
        print_changed(*handler);
    }
}

}  // namespace

int main() try {
    follow(std::cin);
} catch (const std::exception &error) {
    std::cerr << error.what() << '\n';
    return 1;
}
