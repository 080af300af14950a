// What the views of ic.hpp have in common with containers of the standard library: a table of eight properties of six kinds of views.
//
//     ranges
//
// Each kind has the members 3, 0, 4, 1, 5, 2. The functions that erase are written once, and run with std::list too. Prints a line for each
// row, and then how many there are. C++17 has the 30 rows that need no <ranges>.
#include "ic.hpp"
#include <algorithm>
#include <cstdio>
#include <cstdlib>
#include <iterator>
#include <list>
#include <vector>
#ifdef __cpp_lib_ranges
#include <ranges>
// Clang up to version 15 can't compile the adaptors of GCC's standard library.
#if !(defined(__clang__) && __clang_major__ < 16 && defined(__GLIBCXX__))
#define HAS_ADAPTORS
#endif
#endif

namespace {

using place = std::uint32_t;
constexpr place places = 6;
const std::vector<place> order{3, 0, 4, 1, 5, 2};
int rows;

void expect(bool is_so, const char *kind, const char *wrong) {
    if (is_so)
        return;
    std::printf("%s: %s\n", kind, wrong);
    std::exit(1);
}

void must(ic::status done) {
    expect(done == ic::status::ok, "a view", ic::name(done));
}

template <class Range>
std::vector<place> gathered(const Range &range) {
    return std::vector<place>(range.begin(), range.end());
}

// ---- Kinds: the members, the view, its twin that reads, and another list or tree of the same table ------------------------------------

struct a_list {
    static constexpr const char *name = "list";
    static constexpr bool goes_back = true;
    using const_view = ic::const_list_view;
    std::vector<ic_link2> table = std::vector<ic_link2>(places);
    ic_list head{}, other{};
    ic::list_view view{table, head};

    a_list() {
        for (const place at : order)
            must(view.push_back(at));
    }
    const_view read() const { return {table, head}; }
    void keep(place at) { must(ic::list_view{table, other}.push_front(at)); }
};

struct a_stack {
    static constexpr const char *name = "stack";
    static constexpr bool goes_back = false;
    using const_view = ic::const_stack_view;
    std::vector<ic_link1> table = std::vector<ic_link1>(places);
    ic_stack head{}, other{};
    ic::stack_view view{table, head};

    a_stack() {
        std::for_each(order.rbegin(), order.rend(), [&](place at) { must(view.push_front(at)); });
    }
    const_view read() const { return {table, head}; }
    void keep(place at) { must(ic::stack_view{table, other}.push_front(at)); }
};

struct an_xor_list {
    static constexpr const char *name = "XOR list";
    static constexpr bool goes_back = true;
    using const_view = ic::const_xor_view;
    std::vector<ic_link1> table = std::vector<ic_link1>(places);
    ic_xor_list head{}, other{};
    ic::xor_view view{table, head};

    an_xor_list() {
        for (const place at : order)
            must(view.push_back(at));
    }
    const_view read() const { return {table, head}; }
    void keep(place at) { must(ic::xor_view{table, other}.push_front(at)); }
};

struct a_ring {
    static constexpr const char *name = "ring";
    static constexpr bool goes_back = true;
    static constexpr place head = places, other = places + 1;
    using const_view = ic::const_ring_members;
    std::vector<ic_link2> table = std::vector<ic_link2>(places + 2);
    ic::ring_members view = ic::ring_view(table).members(head);

    a_ring() {
        must(ic::ring_view(table).init(head));
        must(ic::ring_view(table).init(other));
        for (const place at : order)
            must(view.push_back(at));
    }
    const_view read() const { return ic::const_ring_view(table).members(head); }
    void keep(place at) { must(ic::ring_view(table).push_front(other, at)); }
};

struct a_hash_table {
    static constexpr const char *name = "hash table";
    static constexpr bool goes_back = false;
    using const_view = ic::const_hash_view;
    std::vector<ic_link1> table = std::vector<ic_link1>(places);
    std::vector<ic_stack> buckets = std::vector<ic_stack>(3);
    ic_stack other{};
    ic::hash_view view{table, buckets};

    /// The hash of a place is its number, so 0 and 3 share a bucket, 1 and 4, and 2 and 5. A chain begins with what was inserted last.
    a_hash_table() {
        for (place at = 0; at < places; at++)
            must(view.insert(at, at));
    }
    const_view read() const { return {table, buckets}; }
    void keep(place at) { must(ic::stack_view{table, other}.push_front(at)); }
};

struct a_tree {
    static constexpr const char *name = "tree";
    static constexpr bool goes_back = true;
    using const_view = ic::const_tree_view;
    std::vector<ic_link3> table = std::vector<ic_link3>(places);
    std::vector<std::uint64_t> keys = std::vector<std::uint64_t>(places);
    ic_tree head{}, other{};
    ic::tree_view view{table, head};

    a_tree() {
        for (std::size_t i = 0; i < places; i++)
            keys[order[i]] = i;
        for (place at = 0; at < places; at++)
            must(view.insert(keys, at));
    }
    const_view read() const { return {table, head}; }
    void keep(place at) { must(ic::tree_view{table, other}.insert(keys, at)); }
};

// ---- Properties --------------------------------------------------------------------------------------------------------------------------

/// The iterators have the category and the concept that they should, and copies of them walk on their own.
template <class Kind>
void iterators() {
    using view = decltype(Kind::view);
    using category = typename std::iterator_traits<typename view::iterator>::iterator_category;
    static_assert(std::is_same_v<category, std::conditional_t<Kind::goes_back, std::bidirectional_iterator_tag, std::forward_iterator_tag>>);
#ifdef __cpp_lib_ranges
    static_assert(std::ranges::forward_range<view> && std::ranges::forward_range<const view> && std::ranges::common_range<view>);
    static_assert(std::ranges::bidirectional_range<view> == Kind::goes_back && !std::ranges::random_access_range<view>);
    static_assert(std::sentinel_for<typename view::iterator, typename view::iterator>);
#endif
    Kind it;
    const auto second = std::next(it.view.begin());
    auto third = second;
    expect(*third++ == order[1] && *third == order[2] && *second == order[1], Kind::name, "a copy of an iterator has moved");
    expect(std::distance(it.view.begin(), it.view.end()) == places && typename view::iterator() == typename view::iterator(), Kind::name,
           "a walk has another length");
    if constexpr (Kind::goes_back) {
        expect(*std::prev(it.view.end()) == order.back() && *std::prev(third) == order[1], Kind::name, "a step back leads elsewhere");
        const std::vector<place> back(std::make_reverse_iterator(it.view.end()), std::make_reverse_iterator(it.view.begin()));
        expect(std::equal(back.begin(), back.end(), order.rbegin(), order.rend()), Kind::name, "a reversed walk has other members");
        expect(std::equal(back.begin(), back.end(), it.view.rbegin(), it.view.rend()), Kind::name, "a walk from rbegin has other members");
    }
}

/// A const table is read by the twin, which a view becomes without a cast.
template <class Kind>
void const_views() {
    const Kind it;
    const typename Kind::const_view twin = it.read(), of_view = it.view;
    expect(gathered(twin) == order && gathered(of_view) == order && gathered(it.view) == order, Kind::name, "a const view has other members");
    expect(!twin.empty() && twin.is_linked(2) && std::is_same_v<decltype(twin.begin()), typename Kind::const_view::const_iterator>, Kind::name,
           "a const view reads something else");
}

/// Takes off those of a mask, as programs do with the containers of the standard library.
template <class Container>
void erase_and_take_next(Container &members, unsigned mask) {
    for (auto it = members.begin(); it != members.end();)
        if (mask >> *it & 1)
            it = members.erase(it);
        else
            ++it;
}

template <class Container, class Then>
void erase_behind(Container &members, unsigned mask, Then then) {
    for (auto it = members.begin(); it != members.end();) {
        const place at = *it;
        if (mask >> at & 1) {
            members.erase(it++);
            then(at);
        } else
            ++it;
    }
}

/// Each subset is taken off by `it = erase(it)`.
template <class Kind>
void erase_next() {
    for (unsigned mask = 0; mask < 1u << places; mask++) {
        Kind it;
        std::list<place> plain(order.begin(), order.end());
        erase_and_take_next(it.view, mask);
        erase_and_take_next(plain, mask);
        expect(gathered(it.view) == gathered(plain), Kind::name, "it = erase(it) leaves other members");
    }
    Kind it;
    auto first = it.view.begin();
    const auto rest = it.view.erase(std::next(first), std::next(first, 3));
    expect(rest.status() == ic::status::ok && *rest == 1 && gathered(it.view) == std::vector<place>{3, 1, 5, 2}, Kind::name, "a range is erased wrong");
    const auto constant = it.view.begin();
    expect(*it.view.erase(constant) == 1 && it.view.erase(it.view.begin()) != it.view.end(), Kind::name, "erase returns another member");
    auto end = it.view.end();
    const auto refused = it.view.erase(end);
    expect(refused == it.view.end() && refused != ic::status::ok && gathered(it.view) == std::vector<place>{5, 2}, Kind::name, "the end is erased");
    expect(it.view.remove_if([](place at) { return at == 5; }) == ic::status::ok && *it.view.begin() == 2, Kind::name, "remove_if is wrong");
}

/// Each subset is taken off by `erase(it++)`, and dropped, or linked in another list of the table.
template <class Kind>
void erase_passed() {
    for (unsigned mask = 0; mask < 1u << places; mask++)
        for (const bool is_kept : {false, true}) {
            Kind it;
            std::list<place> plain(order.begin(), order.end());
            erase_behind(plain, mask, [](place) {});
            erase_behind(it.view, mask, [&](place at) {
                if (is_kept)
                    it.keep(at);
            });
            expect(gathered(it.view) == gathered(plain), Kind::name, "erase(it++) leaves other members");
        }
}

template <class Kind>
void algorithms() {
    Kind it;
    const auto is_greater = [](place at) { return at > 3; };
    expect(*std::find_if(it.view.begin(), it.view.end(), is_greater) == 4, Kind::name, "find_if finds another member");
    expect(std::count_if(it.view.begin(), it.view.end(), is_greater) == 2, Kind::name, "count_if counts other members");
    expect(std::equal(it.view.begin(), it.view.end(), order.begin(), order.end()), Kind::name, "equal sees other members");
    expect(*std::max_element(it.view.begin(), it.view.end()) == 5 && std::next(std::find(it.view.begin(), it.view.end(), 2u)) == it.view.end(),
           Kind::name, "an algorithm finds another member");
#ifdef __cpp_lib_ranges
    expect(*std::ranges::find_if(it.view, is_greater) == 4 && std::ranges::count_if(it.read(), is_greater) == 2, Kind::name,
           "an algorithm of ranges finds other members");
    expect(std::ranges::equal(it.view, order) && std::ranges::distance(it.view) == places && *std::ranges::max_element(it.view) == 5, Kind::name,
           "an algorithm of ranges sees other members");
    expect(it.view.erase(std::ranges::find(it.view, 4u)) == ic::status::ok && std::ranges::find(it.view, 4u) == it.view.end(), Kind::name,
           "what an algorithm has found is not erased");
#endif
}

#ifdef __cpp_lib_ranges
/// A view is one for the standard library, which copies it in constant time.
template <class Kind>
void views() {
    using view = decltype(Kind::view);
    static_assert(std::ranges::view<view> && std::ranges::view<typename Kind::const_view>);
    static_assert(std::ranges::viewable_range<view> && std::ranges::viewable_range<const view &>);
    Kind it;
    view copy = it.view;
    copy = it.view;
    expect(std::ranges::equal(copy, order) && *std::ranges::begin(copy) == 3 && !std::ranges::empty(copy), Kind::name, "a copy has other members");
}

/// Iterators outlive the view. So an algorithm returns one, although the view that it was handed is gone.
template <class Kind>
void borrowed() {
    using view = decltype(Kind::view);
    static_assert(std::ranges::borrowed_range<view> && std::ranges::borrowed_range<typename Kind::const_view>);
    Kind it;
    const auto found = std::ranges::find(view(it.view), 4u);
    static_assert(std::is_same_v<decltype(found), const typename view::iterator>);
    expect(*found == 4 && *std::next(found) == 1, Kind::name, "an iterator of a view that is gone leads elsewhere");
    expect(*std::ranges::find_if(it.read(), [](place at) { return at > 4; }) == 5, Kind::name, "an iterator of a twin that is gone leads elsewhere");
}
#endif

#ifdef HAS_ADAPTORS
template <class Kind>
void adaptors() {
    Kind it;
    const auto even = std::views::filter([](place at) { return at % 2 == 0; });
    const auto tenfold = std::views::transform([](place at) { return at * 10; });
    expect(std::ranges::equal(it.view | even | tenfold, std::vector<place>{0, 40, 20}), Kind::name, "filter and transform are wrong");
    expect(std::ranges::equal(it.read() | std::views::take(2), std::vector<place>{3, 0}), Kind::name, "take is wrong");
    expect(std::ranges::equal(it.view | std::views::drop(4), std::vector<place>{5, 2}), Kind::name, "drop is wrong");
    if constexpr (Kind::goes_back)
        expect(std::ranges::equal(it.view | std::views::reverse | tenfold, std::vector<place>{20, 50, 10, 40, 0, 30}), Kind::name, "reverse is wrong");
}
#endif

// ---- The table -----------------------------------------------------------------------------------------------------------------------------

#define ROW(property)                                   \
    property<Kind>(), std::printf("%s: %s\n", Kind::name, #property), rows++

template <class Kind>
void rows_of() {
    ROW(iterators);
    ROW(const_views);
    ROW(erase_next);
    ROW(erase_passed);
    ROW(algorithms);
#ifdef __cpp_lib_ranges
    ROW(views);
    ROW(borrowed);
#endif
#ifdef HAS_ADAPTORS
    ROW(adaptors);
#endif
}

// ---- What views are made of ----------------------------------------------------------------------------------------------------------------

static_assert(std::is_constructible_v<ic::list_view, std::vector<ic_link2> &, ic_list &>);
static_assert(!std::is_constructible_v<ic::list_view, std::vector<ic_link2>, ic_list &>, "a table that ends with the expression");
static_assert(!std::is_constructible_v<ic::list_view, const std::vector<ic_link2> &, ic_list &>, "a table that is const");
static_assert(!std::is_constructible_v<ic::const_list_view, std::vector<ic_link2> &, ic_list>, "a list that ends with the expression");
static_assert(std::is_constructible_v<ic::const_list_view, ic::array_view<ic_link2>, const ic_list &>);
#ifdef __cpp_lib_ranges
static_assert(std::is_constructible_v<ic::list_view, std::span<ic_link2>, ic_list &>);
static_assert(std::is_constructible_v<ic::ring_view, std::span<ic_link2, 4>>);
static_assert(std::is_constructible_v<ic::hash_view, std::span<ic_link1>, std::span<ic_stack>>);
static_assert(!std::is_constructible_v<ic::list_view, std::span<const ic_link2>, ic_list &>, "a table that is const");

void spans() {
    a_tree it;
    const ic::tree_view view{std::span(it.table), it.head};
    expect(view.find(std::span(it.keys), 5) == 2u && view.find(std::span<const std::uint64_t>(it.keys), 0) == 3u, "a span", "leads elsewhere");
}
#endif

} // namespace

int main() {
    rows_of<a_list>();
    rows_of<a_stack>();
    rows_of<an_xor_list>();
    rows_of<a_ring>();
    rows_of<a_hash_table>();
    rows_of<a_tree>();
#ifdef __cpp_lib_ranges
    spans();
#endif
    std::printf("%d rows\n", rows);
}
