// The objects and collections of the programs on Boost.Intrusive, and what they print.

#pragma once

#include <boost/intrusive/list.hpp>
#include <boost/intrusive/set.hpp>
#include <boost/intrusive/slist.hpp>
#include <boost/intrusive/unordered_set.hpp>
#include <chrono>
#include <cstdint>
#include <cstdlib>
#include <iostream>
#include <numeric>
#include <string>
#include <utility>
#include <vector>

namespace bi = boost::intrusive;
using std::uint64_t;

template <class Hook> struct object : Hook {
    uint64_t value;
};

struct by_value {
    using type = uint64_t;
    template <class Object> const uint64_t &operator()(const Object &object) const { return object.value; }
};

// The hash that all programs share.
struct by_product {
    std::size_t operator()(uint64_t key) const {
        uint64_t product = key * 11400714819323198485u;
        return product ^ product >> 29;
    }
};

using doubly_object = object<bi::list_base_hook<>>;
using singly_object = object<bi::slist_base_hook<>>;
using tree_object = object<bi::set_base_hook<bi::optimize_size<true>>>;
using hash_object = object<bi::unordered_set_base_hook<>>;
using doubly_list = bi::list<doubly_object, bi::constant_time_size<false>>;
using singly_list = bi::slist<singly_object, bi::constant_time_size<false>>;
using tree = bi::multiset<tree_object, bi::key_of_value<by_value>, bi::constant_time_size<false>>;
using hash_table = bi::unordered_multiset<hash_object, bi::key_of_value<by_value>, bi::hash<by_product>, bi::power_2_buckets<true>,
                                          bi::constant_time_size<false>>;
template <class Object> using references = std::vector<Object *>;

// The generator that all programs share.
struct generator {
    uint64_t state = 1;

    uint64_t below(uint64_t bound) {
        state = state * 6364136223846793005u + 1442695040888963407u;
        return ((state >> 32) * bound) >> 32;
    }

    // The numbers below `count`, in a random order.
    std::vector<uint64_t> shuffled(uint64_t count) {
        std::vector<uint64_t> numbers(count);
        std::iota(numbers.begin(), numbers.end(), 0);
        for (uint64_t last = count - 1; last > 0; --last)
            std::swap(numbers[last], numbers[below(last + 1)]);
        return numbers;
    }
};

// Objects with the even numbers as values, in a random order.
template <class Object> std::vector<Object> make_objects(generator &random, uint64_t members) {
    std::vector<Object> objects(members);
    auto values = random.shuffled(members);
    for (uint64_t index = 0; index < members; ++index)
        objects[index].value = 2 * values[index];
    return objects;
}

// References to them, in another random order.
template <class Object> references<Object> refer(generator &random, std::vector<Object> &objects) {
    references<Object> order;
    for (uint64_t index : random.shuffled(objects.size()))
        order.push_back(&objects[index]);
    return order;
}

template <class Collection> uint64_t sum(const Collection &collection) {
    uint64_t sum = 0;
    for (auto &object : collection)
        sum += object.value;
    return sum;
}

template <class Collection> uint64_t hash(const Collection &collection) {
    uint64_t hash = 0;
    for (auto &object : collection)
        hash = hash * 31 + object.value;
    return hash;
}

struct outcome {
    std::chrono::nanoseconds time{0};
    uint64_t checksum = 0;
};

template <class Work> outcome timed(Work work) {
    auto start = std::chrono::steady_clock::now();
    uint64_t result = work();
    return {std::chrono::steady_clock::now() - start, result};
}

#define TIMED [[gnu::noinline]] static uint64_t
