/* Boost.Intrusive's test of its singly linked list (slist_test.cpp), over a container whose members are calls of singly linked lists. */
#include "slist_test.cpp"

#include "boost.hpp"

namespace peer {

ic_link1 links[PEER_PLACES];
#define LINKS peer::links, PEER_PLACES

bool value::is_linked() const {
    return ic_stack_is_linked(LINKS, at(this));
}

/* A list of this library ends with no place, as a list of Boost that is linear. For such a list, the test exchanges no nodes. */
template <class Algorithms>
void swap_nodes(value &, value &) {}

template <class Value>
struct iterator {
    using iterator_category = std::forward_iterator_tag;
    using value_type = std::remove_const_t<Value>;
    using difference_type = std::ptrdiff_t;
    using pointer = Value *;
    using reference = Value &;

    std::uint32_t place = IC_NONE;
    const ic_stack *list = nullptr; /* the list, if this is the position before its first member */

    iterator() = default;
    explicit iterator(std::uint32_t place, const ic_stack *list = nullptr) : place(place), list(list) {}
    template <class Other, class = std::enable_if_t<std::is_same_v<const Other, Value> && !std::is_const_v<Other>>>
    iterator(iterator<Other> other) : place(other.place), list(other.list) {}
    Value &operator*() const { return *static_cast<Value *>(peer_object(place)); }
    Value *operator->() const { return &**this; }
    iterator &operator++() { return *this = iterator(list ? ic_stack_first(list) : ic_stack_next(LINKS, place)); }
    iterator operator++(int) { return std::exchange(*this, ++iterator(*this)); }
};
template <class One, class Other>
bool operator==(iterator<One> one, iterator<Other> other) {
    return one.place == other.place && one.list == other.list;
}
template <class One, class Other>
bool operator!=(iterator<One> one, iterator<Other> other) {
    return !(one == other);
}

class slist : public types<iterator<value>, iterator<const value>>, compared<slist> {
public:
    static constexpr bool linear = true, cache_last = true, has_container_from_iterator = false;

    slist() = default;
    template <class Iterator>
    slist(Iterator first, Iterator last) {
        insert_after(before_begin(), first, last);
    }
    slist(slist &&other) { swap(other); }
    slist &operator=(slist &&other) { return swap(other), *this; }
    ~slist() { clear(); }

    iterator begin() { return ++before_begin(); }
    iterator end() { return iterator(); }
    iterator before_begin() { return iterator(IC_NONE, &list); }
    const_iterator begin() const { return ++before_begin(); }
    const_iterator end() const { return const_iterator(); }
    const_iterator before_begin() const { return const_iterator(IC_NONE, &list); }
    const_iterator cbegin() const { return begin(); }
    const_iterator cend() const { return end(); }
    static iterator s_iterator_to(value &it) { return iterator(at(&it)); }
    static const_iterator s_iterator_to(const value &it) { return const_iterator(at(&it)); }
    iterator iterator_to(value &it) { return iterator(at(&it)); }
    const_iterator iterator_to(const value &it) const { return const_iterator(at(&it)); }

    /* Returns the position before another one, by a walk from the front. */
    iterator previous(const_iterator it) {
        iterator before = before_begin();
        while (std::next(before) != it)
            ++before;
        return before;
    }

    bool empty() const { return ic_stack_is_empty(&list); }
    size_type size() const { return count(); }
    void check() const { count(); }
    value &front() { return *begin(); }
    value &back() { return *previous(end()); }

    void push_front(value &it) { DO(ic_stack_push_front(LINKS, &list, at(&it))); }
    void push_back(value &it) { insert_after(previous(end()), it); }
    void pop_front() { DO(ic_stack_pop_front(LINKS, &list, &taken)); }
    iterator insert_after(const_iterator before, value &it) { return DO(ic_stack_insert_after(LINKS, &list, before.place, at(&it))), iterator_to(it); }
    template <class Iterator>
    void insert_after(const_iterator before, Iterator first, Iterator last) {
        for (; first != last; ++first)
            before = insert_after(before, *first);
    }
    iterator insert(const_iterator it, value &added) { return insert_after(previous(it), added); }
    template <class Iterator>
    void insert(const_iterator it, Iterator first, Iterator last) {
        insert_after(previous(it), first, last);
    }
    template <class Iterator>
    void assign(Iterator first, Iterator last) {
        clear(), insert_after(before_begin(), first, last);
    }

    template <class Disposer>
    iterator erase_after_and_dispose(const_iterator before, Disposer dispose) {
        DO(ic_stack_remove_after(LINKS, &list, before.place, &taken));
        return dispose(static_cast<value *>(peer_object(taken))), ++iterator(before.place, before.list);
    }
    iterator erase_after(const_iterator before) { return erase_after_and_dispose(before, nobody()); }
    template <class Disposer>
    iterator erase_and_dispose(const_iterator it, Disposer dispose) {
        return erase_after_and_dispose(previous(it), dispose);
    }
    iterator erase(const_iterator it) { return erase_after(previous(it)); }
    iterator erase(const_iterator first, const_iterator last) {
        const iterator before = previous(first);
        while (std::next(before) != last)
            erase_after(before);
        return iterator(last.place);
    }
    template <class Disposer>
    void clear_and_dispose(Disposer dispose) {
        while (!empty())
            erase_after_and_dispose(before_begin(), dispose);
    }
    void clear() { DO(ic_stack_clear(LINKS, &list)); }
    template <class Predicate, class Disposer>
    void remove_and_dispose_if(Predicate is_wanted, Disposer dispose) {
        for (iterator before = before_begin(); std::next(before) != end();)
            if (is_wanted(*std::next(before)))
                erase_after_and_dispose(before, dispose);
            else
                ++before;
    }
    template <class Predicate>
    void remove_if(Predicate is_wanted) {
        remove_and_dispose_if(is_wanted, nobody());
    }
    void unique() {
        for (iterator it = begin(); it != end() && std::next(it) != end();)
            it = *it == *std::next(it) ? (erase_after(it), it) : std::next(it);
    }
    template <class Cloner, class Disposer>
    void clone_from(const slist &other, Cloner clone, Disposer dispose) {
        clear_and_dispose(dispose);
        for (const value &it : other)
            push_back(*clone(it));
    }

    void splice_after(const_iterator before, slist &other) { DO(ic_stack_splice_after(LINKS, &list, before.place, &other.list)); }
    void splice_after(const_iterator before, slist &other, const_iterator from) { splice_after(before, other, from, std::next(from)); }
    /* Moves what comes after `from`, up to `last`: it parts the other list there twice, and joins what is left of it. */
    void splice_after(const_iterator before, slist &other, const_iterator from, const_iterator last) {
        slist moved, rest;
        DO(ic_stack_split_after(LINKS, &other.list, last.place, &rest.list));
        DO(ic_stack_split_after(LINKS, &other.list, from.place, &moved.list));
        DO(ic_stack_splice_after(LINKS, &other.list, from.place, &rest.list));
        DO(ic_stack_splice_after(LINKS, &list, before.place, &moved.list));
    }
    void swap(slist &other) { std::swap(list, other.list); }
    void shift_forward(size_type steps = 1) {
        while (steps-- && !empty())
            pop_front(), push_back(*static_cast<value *>(peer_object(taken)));
    }
    void shift_backwards(size_type steps = 1) {
        while (steps-- && !empty())
            erase(previous(end())), push_front(*static_cast<value *>(peer_object(taken)));
    }
    void reverse() {
        slist turned;
        while (!empty())
            pop_front(), turned.push_front(*static_cast<value *>(peer_object(taken)));
        swap(turned);
    }
    template <class Less>
    void sort(Less less) {
        rank(*this, *this, less), (void)DO(ic_stack_sort(LINKS, RANKS, &list));
    }
    void sort() { sort(std::less<value>()); }
    void merge(slist &other) {
        rank(*this, other, std::less<value>()), rank(other, *this, std::less<value>());
        DO(ic_stack_merge(LINKS, RANKS, &list, &other.list));
    }

private:
    ic_stack list{};
    std::uint32_t taken = IC_NONE;

    size_type count() const {
        std::uint64_t members = 0;
        return DO(ic_stack_check(LINKS, &list, &members)), members;
    }
};

} // namespace peer

int main() {
    using namespace peer;
    using tests = test_slist<peer::slist, std::vector<value>>;
    std::vector<value> values = one_to_five();
    run("test_container", [&] { peer::slist it(values.begin(), values.end()); test::test_container(it); });
    run("test_sequence_container", [&] { peer::slist it(values.begin(), values.end()); test::test_sequence_container(it, values); });
    run("test_iterator_forward", [&] { peer::slist it(values.begin(), values.end()); test::test_iterator_forward(it); });
    run("test_front", [&] { tests::test_front(values); });
    run("test_back", [&] { tests::test_back(values, detail::true_type()); });
    run("test_sort", [&] { tests::test_sort(values); });
    run("test_merge", [&] { tests::test_merge(values); });
    run("test_remove_unique", [&] { tests::test_remove_unique(values); });
    run("test_insert", [&] { tests::test_insert(values); });
    run("test_shift", [&] { tests::test_shift(values); });
    run("test_slow_insert", [&] { tests::test_slow_insert(values); });
    run("test_swap", [&] { tests::test_swap(values); });
    run("test_clone", [&] { tests::test_clone(values); });
    return boost::report_errors() || peer_failures;
}
