// Plays the cases of reads.txt by the views of ic.hpp, as far as a view has the read.
//     reads tests/library/reads.txt
#include "ic.hpp"
#include "reads.h"

#include <string>
#include <vector>

namespace {

void add(char *said, bool is) {
    strcat(said, is ? " yes" : " no");
}

/// What all views have. A view's front() reads the table, too: it is the first member of a walk.
template <class View>
bool play_view(const View &view, const std::string &read, std::uint32_t at, char *said) {
    if (read == "is_linked")
        add(said, view.is_linked(at));
    else if (read == "is_empty")
        add(said, view.empty());
    else if (read == "walk")
        for (std::uint32_t place : view)
            reads_add(said, place);
    else
        return false;
    return true;
}

bool play_ring(ic::ring_view view, const reads_case &it, char *said) {
    const std::string read = it.read;
    const std::uint32_t at = it.arguments[0];
    if (read == "next")
        reads_add(said, view.next(at));
    else if (read == "prev")
        reads_add(said, view.prev(at));
    else if (read == "is_linked")
        add(said, view.is_linked(at));
    else if (read == "is_empty")
        add(said, view.empty(at));
    else if (read == "walk")
        view.for_each(static_cast<std::uint32_t>(it.head[0]), [said](std::uint32_t place) { reads_add(said, place); });
    else
        return false;
    return true;
}

int play(const reads_case *it, char *said) {
    const std::string kind = it->kind, read = it->read;
    const std::uint32_t at = it->arguments[0];
    std::vector<ic_link1> singles;
    std::vector<ic_link2> pairs;
    std::vector<ic_link3> nodes;
    for (std::size_t i = 0; i < it->count; i++) {
        singles.push_back({it->words[i]});
        if (i % 2 == 1)
            pairs.push_back({it->words[i - 1], it->words[i]});
        if (i % 3 == 2)
            nodes.push_back({it->words[i - 2], it->words[i - 1], it->words[i]});
    }
    const ic_list list{it->head[0], it->head[1]};
    const ic_stack stack{it->head[0]};
    const ic_xor_list both{it->head[0], it->head[1]};
    const ic_tree tree{it->head[0]};
    if (kind == "list")
        return play_view(ic::const_list_view{pairs, list}, read, at, said);
    if (kind == "ring")
        return play_ring(ic::ring_view{pairs}, *it, said);
    if (kind == "stack")
        return play_view(ic::const_stack_view{singles, stack}, read, at, said);
    if (kind == "xor")
        return play_view(ic::const_xor_view{singles, both}, read, at, said);
    return play_view(ic::const_tree_view{nodes, tree}, read, at, said);
}

} // namespace

int main(int count, char **words) {
    return count == 2 ? reads_play(words[1], play) : 2;
}
