/* What the containers of Boost.Intrusive's tests share: values, each with a place, iterators that are places, and what runs the functions of a test. */
#ifndef PEER_BOOST_HPP
#define PEER_BOOST_HPP

#include "../places.h"

#include <cstdio>
#include <iterator>
#include <type_traits>
#include <utility>
#include <vector>

#define DO(call) peer_expect((call) == IC_OK, #call, __LINE__)

namespace peer {

/* The key of a member by which it is sorted. */
std::uint64_t ranks[PEER_PLACES];
#define RANKS peer::ranks, PEER_PLACES

/* Returns the place of an object. */
std::uint32_t at(const void *object) {
    const std::uint32_t place = peer_find(object);
    return place == IC_NONE ? peer_add(object, 0) : place;
}

struct value {
    boost::intrusive::int_holder value_;

    explicit value(int number = 0) : value_(number) {}
    int int_value() const { return value_.int_value(); }
    bool is_linked() const;
    friend bool operator==(const value &one, const value &other) { return one.value_ == other.value_; }
    friend bool operator!=(const value &one, const value &other) { return one.value_ != other.value_; }
    friend bool operator<(const value &one, const value &other) { return one.value_ < other.value_; }
    friend bool operator!=(int one, const value &other) { return one != other.int_value(); }
};

/* Drops what it is handed. */
struct nobody {
    template <class Any>
    void operator()(const Any &) const {}
};

/* A sort and a merge take keys here and no comparison. The key of a member is how many members of both lists come before it. */
template <class List, class Less>
void rank(const List &mine, const List &other, Less less) {
    for (const value &it : mine) {
        ranks[at(&it)] = 0;
        for (const List *all : {&mine, &other})
            for (const value &before : *all)
                ranks[at(&it)] += less(before, it);
    }
}

/* Containers are compared by their values. */
template <class List>
struct compared {
    friend bool operator==(const List &one, const List &other) { return std::equal(one.begin(), one.end(), other.begin(), other.end()); }
    friend bool operator!=(const List &one, const List &other) { return !(one == other); }
    friend bool operator<(const List &one, const List &other) { return std::lexicographical_compare(one.begin(), one.end(), other.begin(), other.end()); }
    friend bool operator>(const List &one, const List &other) { return other < one; }
    friend bool operator<=(const List &one, const List &other) { return !(other < one); }
    friend bool operator>=(const List &one, const List &other) { return !(one < other); }
};

/* The names that containers have for types. */
template <class Iterator, class ConstIterator>
struct types {
    using value_type = value;
    using pointer = value *;
    using const_pointer = const value *;
    using reference = value &;
    using const_reference = const value &;
    using size_type = std::size_t;
    using difference_type = std::ptrdiff_t;
    using iterator = Iterator;
    using const_iterator = ConstIterator;
    struct value_traits {
        using value_type = value;
    };
    struct node_algorithms {};
};

/* Runs one function of a test. */
template <class Test>
void run(const char *name, Test test) {
    const auto before = boost::detail::test_errors() + static_cast<int>(peer_failures);
    test();
    std::printf("%s %s\n", boost::detail::test_errors() + static_cast<int>(peer_failures) == before ? "ok" : "not ok", name);
}

/* The values 1 to 5. */
inline std::vector<value> one_to_five() {
    std::vector<value> values;
    for (int i = 1; i <= 5; i++)
        values.emplace_back(i);
    return values;
}

} // namespace peer

#endif
