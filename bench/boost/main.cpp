// The workloads on Boost.Intrusive.
//
// `peer WORKLOAD MEMBERS OPERATIONS` prints the nanoseconds of all operations and a checksum. bench/README.md says what each workload
// does. The functions timed_* are what is timed, and what callgrind counts.

#include "objects.hpp"

// ---- The doubly linked list ----

TIMED timed_fill(doubly_list &list, const references<doubly_object> &order) {
    for (auto object : order)
        list.push_back(*object);
    return 0;
}

TIMED timed_pair(doubly_list &list, uint64_t operations) {
    while (operations--) {
        auto &object = list.front();
        list.pop_front();
        list.push_back(object);
    }
    return 0;
}

TIMED timed_touch(doubly_list &list, const references<doubly_object> &order, uint64_t operations) {
    generator random;
    while (operations--) {
        list.splice(list.end(), list, list.iterator_to(*order[random.below(order.size())]));
    }
    return 0;
}

TIMED timed_splice(doubly_list &list, const references<doubly_object> &order, uint64_t operations) {
    generator random;
    while (operations--) {
        auto &object = *order[random.below(order.size())];
        doubly_list rest;
        rest.splice(rest.end(), list, std::next(list.iterator_to(object)), list.end());
        list.splice(list.begin(), rest);
    }
    return 0;
}

// A cursor: from the end it goes to the first.
template <class Collection> static inline uint64_t step(const Collection &collection, uint64_t operations) {
    auto at = collection.begin();
    while (operations--) {
        if (at == collection.end())
            at = collection.begin();
        else
            ++at;
    }
    return at == collection.end() ? 0 : at->value;
}

template <class Collection> static inline uint64_t iterate(const Collection &collection, uint64_t rounds) {
    uint64_t total = 0;
    while (rounds--)
        total += sum(collection);
    return total;
}

TIMED timed_step(const doubly_list &list, uint64_t operations) { return step(list, operations); }

TIMED timed_iter(const doubly_list &list, uint64_t rounds) { return iterate(list, rounds); }

static outcome doubly(const std::string &workload, uint64_t members, uint64_t operations) {
    generator random;
    auto objects = make_objects<doubly_object>(random, members);
    auto order = refer(random, objects);
    doubly_list list;
    outcome outcome = timed([&] { return timed_fill(list, order); });
    if (workload == "fill") {
        outcome.checksum += hash(list);
        return outcome;
    }
    outcome = timed([&] {
        return workload == "pair"     ? timed_pair(list, operations)
               : workload == "touch"  ? timed_touch(list, order, operations)
               : workload == "splice" ? timed_splice(list, order, operations)
               : workload == "step"   ? timed_step(list, operations)
                                      : timed_iter(list, operations / members);
    });
    outcome.checksum += hash(list);
    return outcome;
}

// ---- The sort of a doubly linked list ----

struct less_value {
    bool operator()(const doubly_object &one, const doubly_object &other) const { return one.value < other.value; }
};

TIMED timed_sort(doubly_list &list) {
    list.sort(less_value());
    return 0;
}

// How often it compares two objects.
static uint64_t count_comparisons(doubly_list &list) {
    uint64_t count = 0;
    list.sort([&](const doubly_object &one, const doubly_object &other) {
        ++count;
        return less_value()(one, other);
    });
    return count;
}

static outcome sorted(const std::string &workload, uint64_t members, uint64_t operations) {
    generator random;
    auto objects = make_objects<doubly_object>(random, members);
    auto order = refer(random, objects);
    std::vector<uint64_t> values;
    for (auto &object : objects)
        values.push_back(object.value);
    doubly_list list;
    outcome outcome;
    for (uint64_t rounds = operations / members; rounds--;) {
        list.clear();
        for (auto object : order)
            list.push_back(*object);
        if (workload == "sort-counted")
            outcome.time = std::chrono::nanoseconds(count_comparisons(list));
        else
            outcome.time += timed([&] { return timed_sort(list); }).time;
        // Another value for each object, so that the next sort has another order to make.
        for (auto &object : objects)
            object.value *= 6364136223846793005u;
    }
    for (auto &object : list)
        outcome.checksum = outcome.checksum * 31 + values[&object - objects.data()];
    return outcome;
}

// ---- The hash table ----

TIMED timed_hash_fill(hash_table &table, const references<hash_object> &order) {
    for (auto object : order)
        table.insert(*object);
    return 0;
}

TIMED timed_hash_find(const hash_table &table, uint64_t members, uint64_t operations) {
    generator random;
    uint64_t sum = 0;
    while (operations--) {
        auto found = table.find(2 * random.below(members));
        if (found != table.end())
            sum += found->value;
    }
    return sum;
}

// As many buckets as members, rounded up to a power of two.
static outcome hashed(const std::string &workload, uint64_t members, uint64_t operations) {
    generator random;
    auto objects = make_objects<hash_object>(random, members);
    std::size_t count = 1;
    while (count < members)
        count *= 2;
    std::vector<hash_table::bucket_type> buckets(count);
    hash_table table(hash_table::bucket_traits(buckets.data(), count));
    auto order = refer(random, objects);
    auto filled = timed([&] { return timed_hash_fill(table, order); });
    auto found = timed([&] { return timed_hash_find(table, members, operations); });
    table.clear();
    return {workload == "hash_fill" ? filled.time : found.time, found.checksum};
}

// ---- The singly linked list ----

TIMED timed_singly(singly_list &list, const references<singly_object> &order, uint64_t rounds) {
    while (rounds--) {
        while (!list.empty())
            list.pop_front();
        for (auto object : order)
            list.push_front(*object);
    }
    return 0;
}

static outcome singly(uint64_t members, uint64_t operations) {
    generator random;
    auto objects = make_objects<singly_object>(random, members);
    auto order = refer(random, objects);
    singly_list list;
    for (auto object : order)
        list.push_front(*object);
    outcome outcome = timed([&] { return timed_singly(list, order, operations / members); });
    outcome.checksum += hash(list);
    return outcome;
}

// ---- The tree ----

TIMED timed_insert(tree &tree, const references<tree_object> &order) {
    for (auto object : order)
        tree.insert(*object);
    return 0;
}

TIMED timed_remove(tree &tree, const references<tree_object> &order, uint64_t count) {
    for (uint64_t index = 0; index < count; ++index)
        tree.erase(tree.iterator_to(*order[index]));
    return 0;
}

TIMED timed_find(const tree &tree, uint64_t members, uint64_t operations) {
    generator random;
    uint64_t sum = 0;
    while (operations--) {
        auto found = tree.find(2 * random.below(members));
        if (found != tree.end())
            sum += found->value;
    }
    return sum;
}

TIMED timed_lower_bound(const tree &tree, uint64_t members, uint64_t operations) {
    generator random;
    uint64_t sum = 0;
    while (operations--) {
        auto found = tree.lower_bound(2 * random.below(members) + 1);
        if (found != tree.end())
            sum += found->value;
    }
    return sum;
}

TIMED timed_turn(tree &tree, uint64_t members, uint64_t operations) {
    generator random;
    while (operations--) {
        auto found = tree.find(2 * random.below(members));
        if (found != tree.end()) {
            auto &object = *found;
            tree.erase(found);
            tree.insert(object);
        }
    }
    return 0;
}

TIMED timed_queue(tree &tree, uint64_t members, uint64_t operations) {
    while (operations--) {
        auto &object = *tree.begin();
        tree.erase(tree.begin());
        object.value += 2 * members;
        tree.insert(object);
    }
    return 0;
}

TIMED timed_tree_step(const tree &tree, uint64_t operations) { return step(tree, operations); }

TIMED timed_tree_iter(const tree &tree, uint64_t rounds) { return iterate(tree, rounds); }

// Builds one tree, walks through it, and finds keys. It prints the nanoseconds of the first two steps, each before a colon, and returns those of the last one.
static outcome tree_once(uint64_t members, uint64_t operations) {
    generator random;
    auto objects = make_objects<tree_object>(random, members);
    auto order = refer(random, objects);
    tree tree;
    auto built = timed([&] { return timed_insert(tree, order); }), walked = timed([&] { return timed_tree_iter(tree, 1); });
    auto found = timed([&] { return timed_find(tree, members, operations); });
    std::cout << built.time.count() << ':' << walked.time.count() << ':';
    found.checksum += walked.checksum + hash(tree);
    return found;
}

static outcome on_tree(const std::string &workload, uint64_t members, uint64_t operations) {
    generator random;
    auto objects = make_objects<tree_object>(random, members);
    auto order = refer(random, objects);
    auto shuffled = refer(random, objects);
    tree tree;
    auto fill = [&] {
        tree.clear();
        for (auto object : order)
            tree.insert(*object);
    };
    outcome outcome;
    fill();
    if (workload == "insert") {
        for (uint64_t rounds = operations / members; rounds--;) {
            tree.clear();
            outcome.time += timed([&] { return timed_insert(tree, order); }).time;
        }
    } else if (workload == "remove") {
        for (uint64_t rounds = operations / (members / 2); rounds--;) {
            fill();
            outcome.time += timed([&] { return timed_remove(tree, shuffled, members / 2); }).time;
        }
    } else {
        outcome = timed([&] {
            return workload == "find"          ? timed_find(tree, members, operations)
                   : workload == "lower_bound" ? timed_lower_bound(tree, members, operations)
                   : workload == "turn"        ? timed_turn(tree, members, operations)
                   : workload == "queue"       ? timed_queue(tree, members, operations)
                   : workload == "tree_step"   ? timed_tree_step(tree, operations)
                                               : timed_tree_iter(tree, operations / members);
        });
    }
    outcome.checksum += hash(tree);
    return outcome;
}

int main(int count, char **words) {
    if (count != 4) {
        std::cerr << "peer WORKLOAD MEMBERS OPERATIONS\n";
        return 2;
    }
    const std::string workload = words[1];
    const uint64_t members = std::strtoull(words[2], nullptr, 10), operations = std::strtoull(words[3], nullptr, 10);
    const std::string on_doubly = " fill pair touch splice step iter ";
    const outcome outcome = workload == "singly"      ? singly(members, operations)
                            : workload.rfind("hash", 0) == 0 ? hashed(workload, members, operations)
                            : workload == "tree_once" ? tree_once(members, operations)
                            : workload.rfind("sort", 0) == 0 ? sorted(workload, members, operations)
                            : on_doubly.find(" " + workload + " ") != std::string::npos ? doubly(workload, members, operations)
                                                                                        : on_tree(workload, members, operations);
    std::cout << outcome.time.count() << ' ' << outcome.checksum << '\n';
}
