// What Boost.Intrusive has that is most like calls of the library for C, by the workloads of bench/library/calls.c.
//
// `calls WORKLOAD MEMBERS OPERATIONS` prints the nanoseconds of all operations. MEMBERS is even. The functions timed_* are what callgrind counts.

#include "objects.hpp"

// Keeps the compiler from making nothing of two operations of which the second undoes the first.
#define AND_THEN asm volatile("" ::: "memory")

// Half of the members, of which `even` says whether they are those at even positions of the order, so that two of them differ.
template <class Object> static Object &half_of(const references<Object> &order, generator &random, bool even) {
    return *order[2 * random.below(order.size() / 2) + !even];
}

template <class Object> static Object &any_of(const references<Object> &order, generator &random) { return *order[random.below(order.size())]; }

// ---- The doubly linked list ----

TIMED timed_list_back(doubly_list &list, uint64_t operations) {
    while (operations--) {
        auto &object = list.back();
        list.pop_back();
        list.push_front(object);
    }
    return 0;
}

TIMED timed_list_after(doubly_list &list, const references<doubly_object> &order, uint64_t operations) {
    generator random;
    while (operations--) {
        auto &object = half_of(order, random, true);
        list.erase(list.iterator_to(object));
        list.insert(std::next(list.iterator_to(half_of(order, random, false))), object);
    }
    return 0;
}

TIMED timed_list_before(doubly_list &list, const references<doubly_object> &order, uint64_t operations) {
    generator random;
    while (operations--) {
        auto &object = half_of(order, random, true);
        list.erase(list.iterator_to(object));
        list.insert(list.iterator_to(half_of(order, random, false)), object);
    }
    return 0;
}

TIMED timed_list_move_before(doubly_list &list, const references<doubly_object> &order, uint64_t operations) {
    generator random;
    while (operations--) {
        auto &object = half_of(order, random, true);
        list.splice(list.iterator_to(half_of(order, random, false)), list, list.iterator_to(object));
    }
    return 0;
}

TIMED timed_list_to_front(doubly_list &list, const references<doubly_object> &order, uint64_t operations) {
    generator random;
    while (operations--)
        list.splice(list.begin(), list, list.iterator_to(any_of(order, random)));
    return 0;
}

TIMED timed_list_append(doubly_list &list, const references<doubly_object> &order, uint64_t operations) {
    generator random;
    while (operations--) {
        doubly_list rest;
        rest.splice(rest.end(), list, list.begin(), list.iterator_to(any_of(order, random)));
        list.splice(list.end(), rest);
    }
    return 0;
}

TIMED timed_list_transfer(doubly_list &list, const references<doubly_object> &order, uint64_t operations) {
    generator random;
    doubly_list other;
    while (operations--) {
        auto &object = any_of(order, random);
        other.splice(other.begin(), list, list.iterator_to(object));
        AND_THEN;
        list.splice(list.end(), other, other.iterator_to(object));
    }
    return 0;
}

TIMED timed_ring_splice(doubly_list &list, uint64_t operations) {
    doubly_list other;
    while (operations--) {
        other.splice(other.begin(), list);
        AND_THEN;
        list.splice(list.end(), other);
    }
    return 0;
}

TIMED timed_list_clear(doubly_list &list) {
    list.clear();
    return 0;
}

static bool is_less(const doubly_object &one, const doubly_object &other) { return one.value < other.value; }
static bool is_less_singly(const singly_object &one, const singly_object &other) { return one.value < other.value; }

TIMED timed_list_merge(doubly_list &list, doubly_list &other) {
    list.merge(other, is_less);
    return 0;
}

static uint64_t doubly(const std::string &workload, uint64_t members, uint64_t operations) {
    generator random;
    auto objects = make_objects<doubly_object>(random, members);
    auto order = refer(random, objects);
    doubly_list list, other;
    auto fill = [&](bool halves) {
        list.clear();
        other.clear();
        for (uint64_t index = 0; index < members; ++index)
            (halves && index % 2 ? other : list).push_back(*order[index]);
        list.sort(is_less);
        other.sort(is_less);
    };
    for (auto object : order)
        list.push_back(*object);
    if (workload == "list_clear" || workload == "list_merge") {
        for (uint64_t rounds = operations / members; rounds--;) {
            fill(workload == "list_merge");
            workload == "list_clear" ? timed_list_clear(list) : timed_list_merge(list, other);
        }
    } else {
        workload == "list_back"          ? timed_list_back(list, operations)
        : workload == "list_after"       ? timed_list_after(list, order, operations)
        : workload == "list_before"      ? timed_list_before(list, order, operations)
        : workload == "list_move_before" ? timed_list_move_before(list, order, operations)
        : workload == "list_to_front"    ? timed_list_to_front(list, order, operations)
        : workload == "list_append"      ? timed_list_append(list, order, operations)
        : workload == "list_transfer"    ? timed_list_transfer(list, order, operations)
                                         : timed_ring_splice(list, operations);
    }
    uint64_t result = hash(list);
    list.clear();
    other.clear();
    return result;
}

// ---- The singly linked list ----

TIMED timed_stack_after(singly_list &list, const references<singly_object> &order, uint64_t operations) {
    generator random;
    while (operations--) {
        auto at = list.iterator_to(*order[random.below(order.size() - 1)]);
        auto &object = *std::next(at);
        list.erase_after(at);
        AND_THEN;
        list.insert_after(at, object);
    }
    return 0;
}

TIMED timed_stack_clear(singly_list &list) {
    list.clear();
    return 0;
}

TIMED timed_stack_sort(singly_list &list) {
    list.sort(is_less_singly);
    return 0;
}

TIMED timed_stack_merge(singly_list &list, singly_list &other) {
    list.merge(other, is_less_singly);
    return 0;
}

static uint64_t singly(const std::string &workload, uint64_t members, uint64_t operations) {
    generator random;
    auto objects = make_objects<singly_object>(random, members);
    auto order = refer(random, objects);
    singly_list list, other;
    auto fill = [&](bool halves) {
        list.clear();
        other.clear();
        for (uint64_t index = members; index--;)
            (halves && index % 2 ? other : list).push_front(*order[index]);
    };
    fill(false);
    if (workload == "stack_after") {
        timed_stack_after(list, order, operations);
    } else {
        for (uint64_t rounds = operations / members; rounds--;) {
            fill(workload == "stack_merge");
            if (workload == "stack_merge") {
                list.sort(is_less_singly);
                other.sort(is_less_singly);
            }
            workload == "stack_clear" ? timed_stack_clear(list) : workload == "stack_sort" ? timed_stack_sort(list) : timed_stack_merge(list, other);
        }
    }
    uint64_t result = hash(list);
    list.clear();
    other.clear();
    return result;
}

// ---- The tree ----

TIMED timed_tree_beside(tree &tree, const references<tree_object> &order, uint64_t operations) {
    generator random;
    while (operations--) {
        auto &object = any_of(order, random);
        auto next = tree.erase(tree.iterator_to(object));
        tree.insert_before(next, object);
    }
    return 0;
}

TIMED timed_tree_replace(tree &tree, const references<tree_object> &order, tree_object &spare, uint64_t operations) {
    generator random;
    while (operations--) {
        auto &object = any_of(order, random);
        tree.replace_node(tree.iterator_to(object), spare);
        AND_THEN;
        tree.replace_node(tree.iterator_to(spare), object);
    }
    return 0;
}

TIMED timed_tree_upper_bound(const tree &tree, uint64_t members, uint64_t operations) {
    generator random;
    uint64_t sum = 0;
    while (operations--)
        sum += std::prev(tree.upper_bound(2 * random.below(members) + 1))->value;
    return sum;
}

TIMED timed_tree_prev(const tree &tree, uint64_t operations) {
    auto at = tree.end();
    while (operations--)
        at = at == tree.begin() ? tree.end() : std::prev(at);
    return at == tree.end() ? 0 : at->value;
}

TIMED timed_ends_turn(tree &tree, const references<tree_object> &order, uint64_t operations) {
    generator random;
    while (operations--) {
        auto &object = any_of(order, random);
        tree.erase(tree.iterator_to(object));
        tree.insert(object);
    }
    return 0;
}

TIMED timed_tree_clear(tree &tree) {
    tree.clear();
    return 0;
}

static uint64_t on_tree(const std::string &workload, uint64_t members, uint64_t operations) {
    generator random;
    auto objects = make_objects<tree_object>(random, members);
    auto order = refer(random, objects);
    tree_object spare;
    tree tree;
    auto fill = [&] {
        tree.clear();
        for (auto object : order)
            tree.insert(*object);
    };
    fill();
    uint64_t sum = 0;
    if (workload == "tree_clear") {
        for (uint64_t rounds = operations / members; rounds--; fill())
            timed_tree_clear(tree);
    } else {
        sum = workload == "tree_beside"        ? timed_tree_beside(tree, order, operations)
              : workload == "tree_replace"     ? timed_tree_replace(tree, order, spare, operations)
              : workload == "tree_upper_bound" ? timed_tree_upper_bound(tree, members, operations)
              : workload == "tree_prev"        ? timed_tree_prev(tree, operations)
                                               : timed_ends_turn(tree, order, operations);
    }
    sum += hash(tree);
    tree.clear();
    return sum;
}

int main(int count, char **words) {
    if (count != 4)
        return 2;
    std::string workload = words[1];
    uint64_t members = std::strtoull(words[2], nullptr, 10), operations = std::strtoull(words[3], nullptr, 10);
    bool is_doubly = workload.rfind("list_", 0) == 0 || workload.rfind("ring_", 0) == 0, is_singly = workload.rfind("stack_", 0) == 0;
    outcome outcome = timed([&] {
        return is_doubly ? doubly(workload, members, operations) : is_singly ? singly(workload, members, operations) : on_tree(workload, members, operations);
    });
    std::cout << outcome.time.count() << ' ' << outcome.checksum << '\n';
}
