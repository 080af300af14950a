// Sessions of a server, in two lists by use and in a tree by deadline. Nothing is allocated after the start.
#include "ic.hpp"
#include <cstdint>
#include <cstdio>
#include <cstdlib>
#include <optional>
#include <vector>

/// Stops the program if an edit is refused.
static void must(ic::status done) {
    if (done == ic::status::ok)
        return;
    std::fprintf(stderr, "%s\n", ic::name(done));
    std::exit(1);
}

class sessions {
public:
    explicit sessions(std::uint32_t most) : uses_(most), deadlines_(most), users_(most), ends_(most) {
        for (std::uint32_t place = 0; place < most; place++)
            must(vacant().push_back(place));
    }

    /// Opens a session. If there is no room, the one that has been idle longest is closed.
    std::uint32_t open(unsigned user, std::uint64_t deadline) {
        if (vacant().empty())
            close(open_ones().front().value_or(ic::none));
        const std::uint32_t place = vacant().pop_front().value_or(ic::none);
        must(open_ones().push_back(place));
        users_[place] = user;
        ends_[place] = deadline;
        must(by_deadline().insert(ends_, place));
        return place;
    }

    void use(std::uint32_t place) {
        must(open_ones().remove(place));
        must(open_ones().push_back(place));
    }

    void close(std::uint32_t place) {
        must(by_deadline().remove(place));
        must(open_ones().remove(place));
        must(vacant().push_front(place));
    }

    /// Closes the sessions whose deadline has passed.
    void close_due(std::uint64_t now) {
        for (std::optional<std::uint32_t> first; (first = by_deadline().front()) && ends_[*first] <= now;)
            close(*first);
    }

    /// Closes the sessions of a user, while it walks through all of them.
    void log_out(unsigned user) {
        must(open_ones().remove_if([&](std::uint32_t place) { return users_[place] == user; },
                                   [&](std::uint32_t place) {
                                       must(by_deadline().remove(place));
                                       must(vacant().push_front(place));
                                   }));
    }

    void print(const char *title) {
        std::printf("%s:", title);
        for (const std::uint32_t place : open_ones())
            std::printf(" %u", users_[place]);
        std::printf(", by deadline:");
        for (const std::uint32_t place : by_deadline())
            std::printf(" %u until %u", users_[place], static_cast<unsigned>(ends_[place]));
        std::printf("\n");
    }

private:
    ic::list_view open_ones() { return {uses_, open_}; } // the one that has been idle longest comes first
    ic::list_view vacant() { return {uses_, vacant_}; }
    ic::tree_view by_deadline() { return {deadlines_, by_deadline_}; }

    std::vector<ic_link2> uses_; // of both lists: a session is in one of them
    std::vector<ic_link3> deadlines_;
    std::vector<unsigned> users_;
    std::vector<std::uint64_t> ends_;
    ic_list open_{}, vacant_{};
    ic_tree by_deadline_{};
};

int main() {
    sessions all(4);
    const std::uint32_t first = all.open(1, 30);
    all.open(2, 10);
    all.open(3, 50);
    all.open(1, 20);
    all.print("users with a session");
    all.use(first);
    all.open(4, 40);
    all.print("user 2 was idle longest");
    all.log_out(1);
    all.print("user 1 has logged out");
    all.close_due(45);
    all.print("it is 45");
}
