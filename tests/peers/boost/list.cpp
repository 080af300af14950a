/* Boost.Intrusive's test of its list (list_test.cpp), over a container whose members are calls of rings. */
#include "list_test.cpp"

#include "boost.hpp"

namespace peer {

ic_link2 links[PEER_PLACES];
#define RING peer::links, PEER_PLACES

bool value::is_linked() const {
    return ic_ring_is_linked(RING, at(this));
}

/* Exchanges two values in their lists. If only one of them is in a list, the other takes its place. */
template <class Algorithms>
void swap_nodes(value &one, value &other) {
    if (one.is_linked() && other.is_linked())
        DO(ic_ring_swap(RING, at(&one), at(&other)));
    else if (one.is_linked() || other.is_linked())
        DO(ic_ring_replace(RING, at(one.is_linked() ? &one : &other), at(one.is_linked() ? &other : &one)));
}

template <class Value>
struct iterator {
    using iterator_category = std::bidirectional_iterator_tag;
    using value_type = std::remove_const_t<Value>;
    using difference_type = std::ptrdiff_t;
    using pointer = Value *;
    using reference = Value &;

    std::uint32_t place = IC_NONE;

    iterator() = default;
    explicit iterator(std::uint32_t place) : place(place) {}
    template <class Other, class = std::enable_if_t<std::is_same_v<const Other, Value> && !std::is_const_v<Other>>>
    iterator(iterator<Other> other) : place(other.place) {}
    Value &operator*() const { return *static_cast<Value *>(peer_object(place)); }
    Value *operator->() const { return &**this; }
    iterator &operator++() { return place = ic_ring_next(RING, place), *this; }
    iterator &operator--() { return place = ic_ring_prev(RING, place), *this; }
    iterator operator++(int) { return std::exchange(*this, ++iterator(*this)); }
    iterator operator--(int) { return std::exchange(*this, --iterator(*this)); }
};
template <class One, class Other>
bool operator==(iterator<One> one, iterator<Other> other) {
    return one.place == other.place;
}
template <class One, class Other>
bool operator!=(iterator<One> one, iterator<Other> other) {
    return one.place != other.place;
}

/* A list is the head of a ring, which has a place itself. */
class list : public types<iterator<value>, iterator<const value>>, compared<list> {
public:
    using reverse_iterator = boost::intrusive::reverse_iterator<iterator>;
    using const_reverse_iterator = boost::intrusive::reverse_iterator<const_iterator>;

    list() { DO(ic_ring_init(RING, head())); }
    template <class Iterator>
    list(Iterator first, Iterator last) : list() { insert(end(), first, last); }
    list(list &&other) : list() { swap(other); }
    list &operator=(list &&other) { return swap(other), *this; }
    ~list() { clear(), (void)DO(ic_ring_remove(RING, head())); }

    iterator begin() { return ++end(); }
    iterator end() { return iterator(head()); }
    const_iterator begin() const { return ++end(); }
    const_iterator end() const { return const_iterator(head()); }
    const_iterator cbegin() const { return begin(); }
    const_iterator cend() const { return end(); }
    reverse_iterator rbegin() { return reverse_iterator(end()); }
    reverse_iterator rend() { return reverse_iterator(begin()); }
    const_reverse_iterator rbegin() const { return const_reverse_iterator(end()); }
    const_reverse_iterator rend() const { return const_reverse_iterator(begin()); }
    const_reverse_iterator crbegin() const { return rbegin(); }
    const_reverse_iterator crend() const { return rend(); }
    static iterator s_iterator_to(value &it) { return iterator(at(&it)); }
    static const_iterator s_iterator_to(const value &it) { return const_iterator(at(&it)); }
    iterator iterator_to(value &it) { return iterator(at(&it)); }
    const_iterator iterator_to(const value &it) const { return const_iterator(at(&it)); }
    static list &container_from_end_iterator(const_iterator end) { return *static_cast<list *>(peer_object(end.place)); }

    bool empty() const { return ic_ring_is_empty(RING, head()); }
    size_type size() const { return count(); }
    void check() const { count(); }
    value &front() { return *begin(); }
    value &back() { return *--end(); }
    const value &front() const { return *begin(); }
    const value &back() const { return *--end(); }

    void push_front(value &it) { DO(ic_ring_push_front(RING, head(), at(&it))); }
    void push_back(value &it) { DO(ic_ring_push_back(RING, head(), at(&it))); }
    void pop_front() { DO(ic_ring_pop_front(RING, head(), &popped)); }
    void pop_back() { DO(ic_ring_pop_back(RING, head(), &popped)); }
    iterator insert(const_iterator before, value &it) { return DO(ic_ring_insert_before(RING, before.place, at(&it))), iterator_to(it); }
    template <class Iterator>
    void insert(const_iterator before, Iterator first, Iterator last) {
        for (; first != last; ++first)
            insert(before, *first);
    }
    template <class Iterator>
    void assign(Iterator first, Iterator last) {
        clear(), insert(end(), first, last);
    }

    template <class Disposer>
    iterator erase_and_dispose(const_iterator it, Disposer dispose) {
        const iterator next(ic_ring_next(RING, it.place));
        DO(ic_ring_remove(RING, it.place));
        return dispose(static_cast<value *>(peer_object(it.place))), next;
    }
    template <class Disposer>
    iterator erase_and_dispose(const_iterator first, const_iterator last, Disposer dispose) {
        while (first != last)
            first = erase_and_dispose(first, dispose);
        return iterator(last.place);
    }
    iterator erase(const_iterator it) { return erase_and_dispose(it, nobody()); }
    iterator erase(const_iterator first, const_iterator last) { return erase_and_dispose(first, last, nobody()); }
    template <class Disposer>
    void clear_and_dispose(Disposer dispose) {
        erase_and_dispose(begin(), end(), dispose);
    }
    void clear() { clear_and_dispose(nobody()); }
    template <class Predicate, class Disposer>
    void remove_and_dispose_if(Predicate is_wanted, Disposer dispose) {
        for (iterator it = begin(); it != end();)
            it = is_wanted(*it) ? erase_and_dispose(it, dispose) : ++it;
    }
    template <class Predicate>
    void remove_if(Predicate is_wanted) {
        remove_and_dispose_if(is_wanted, nobody());
    }
    void unique() {
        for (iterator it = begin(); it != end();)
            it = it != begin() && *std::prev(it) == *it ? erase(it) : ++it;
    }
    template <class Cloner, class Disposer>
    void clone_from(const list &other, Cloner clone, Disposer dispose) {
        clear_and_dispose(dispose);
        for (const value &it : other)
            push_back(*clone(it));
    }

    void splice(const_iterator before, list &other) { DO(ic_ring_splice_before(RING, before.place, other.head())); }
    void splice(const_iterator before, list &, const_iterator it) { DO(ic_ring_move_before(RING, before.place, it.place)); }
    void splice(const_iterator before, list &, const_iterator first, const_iterator last) {
        if (first != last)
            DO(ic_ring_move_range_before(RING, before.place, first.place, ic_ring_prev(RING, last.place)));
    }
    void swap(list &other) { DO(ic_ring_swap(RING, head(), other.head())); }
    void shift_forward(size_type steps = 1) {
        while (steps-- && !empty())
            DO(ic_ring_move_before(RING, head(), begin().place));
    }
    void shift_backwards(size_type steps = 1) {
        while (steps-- && !empty())
            DO(ic_ring_move_after(RING, head(), (--end()).place));
    }
    void reverse() {
        for (iterator it = begin(); it != end();)
            DO(ic_ring_move_after(RING, head(), (it++).place));
    }

    template <class Less>
    void sort(Less less) {
        rank(*this, *this, less), (void)DO(ic_ring_sort(RING, RANKS, head()));
    }
    void sort() { sort(std::less<value>()); }
    void merge(list &other) {
        rank(*this, other, std::less<value>()), rank(other, *this, std::less<value>());
        DO(ic_ring_merge(RING, RANKS, head(), other.head()));
    }

private:
    std::uint32_t popped = IC_NONE;

    std::uint32_t head() const { return at(this); }
    size_type count() const {
        std::uint64_t members = 0;
        return DO(ic_ring_check(RING, head(), &members)), members;
    }
};

} // namespace peer

int main() {
    using namespace peer;
    using tests = test_list<peer::list, std::vector<value>>;
    std::vector<value> values = one_to_five();
    run("test_container", [&] { peer::list it(values.begin(), values.end()); test::test_container(it); });
    run("test_sequence_container", [&] { peer::list it(values.begin(), values.end()); test::test_sequence_container(it, values); });
    run("test_iterator_bidirectional", [&] { peer::list it(values.begin(), values.end()); test::test_iterator_bidirectional(it); });
    run("test_front_back", [&] { tests::test_front_back(values); });
    run("test_sort", [&] { tests::test_sort(values); });
    run("test_merge", [&] { tests::test_merge(values); });
    run("test_remove_unique", [&] { tests::test_remove_unique(values); });
    run("test_insert", [&] { tests::test_insert(values); });
    run("test_shift", [&] { tests::test_shift(values); });
    run("test_swap", [&] { tests::test_swap(values); });
    run("test_clone", [&] { tests::test_clone(values); });
    run("test_container_from_end", [&] { tests::test_container_from_end(values, detail::true_type()); });
    return boost::report_errors() || peer_failures;
}
