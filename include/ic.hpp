// This header for C++17 has a view for each list, ring, hash table and tree of ic.h. A view has iterators. A call that may find no member returns its
// result as a std::optional. If you ignore the status of a call, the compiler warns.
//
//     std::vector<ic_link2> links(100);                 // a hundred unlinked places
//     ic_list head{};                                   // a list with no members
//     ic::list_view list{links, head};
//     ic::status done = list.push_back(7);              // ic::status::ok
//     for (std::uint32_t place : list)                  // reads the members from the first to the last
//         std::printf("%u\n", place);
//     std::optional<std::uint32_t> oldest = list.pop_front();
//
// A view has pointers to a table and to a list or tree. You own the table and the list or tree, and must keep them as long as you use the view or its
// iterators. You can copy a view as you copy a pointer. If an edit has no comment in this header, the comment of the call with the same name in ic.h
// says what the edit does and when it is refused. For each view except ic::tree_ends_view, there is a second view whose name begins with const_, such
// as ic::const_list_view. It only reads, so its table and its list or tree may be const.
//
// In C++20 each view with a begin() is a std::ranges::view and a borrowed range, so you may use its iterators after the view is destroyed.
//
// No function of this header allocates memory or throws, and the header compiles with -fno-exceptions and -fno-rtti. As in C, a view never reads or
// writes outside the table, whatever the words of the table are. A loop from begin() to end(), or from rbegin() to rend(), has at most as many rounds
// as the table has places.
#ifndef IC_HPP
#define IC_HPP

#if !(__cplusplus >= 201703L || (defined(_MSVC_LANG) && _MSVC_LANG >= 201703L))
#error "ic.hpp needs C++17: compile with -std=c++17 or a later standard, or include ic.h."
#else

#include "ic.h"

#include <cstddef>
#include <cstdint>
#include <iterator>
#include <optional>
#include <type_traits>
#include <utility>
#if __has_include(<version>)
#include <version>
#endif
#ifdef __cpp_lib_ranges
#include <span> // declares enable_view and enable_borrowed_range, and is a shorter header than <ranges>
#endif

namespace ic {

/// The number `none` names no place.
inline constexpr std::uint32_t none = IC_NONE;

/// An edit returns a status. A status other than `ok` means that the edit was refused, and has changed nothing.
enum class [[nodiscard]] status : std::uint32_t {
    ok = IC_OK,
    out_of_range = IC_OUT_OF_RANGE,
    linked = IC_LINKED,
    not_linked = IC_NOT_LINKED,
    null = IC_NULL,
    broken = IC_BROKEN
};

/// Returns the name that a status has in C, such as "IC_OK".
[[nodiscard]] inline const char *name(status it) noexcept {
    return ic_status_name(static_cast<std::uint32_t>(it));
}

template <class Element>
class array_view;

namespace detail {

/// Is true for a container type whose objects do not own their elements, such as std::span, and false for a type such as std::vector.
template <class Container>
#ifdef __cpp_lib_ranges
inline constexpr bool is_borrowed = std::ranges::enable_borrowed_range<Container>;
#else
inline constexpr bool is_borrowed = false;
#endif
template <class Element>
inline constexpr bool is_borrowed<array_view<Element>> = true;

} // namespace detail

/// An array_view is a pointer and a length. You make an array_view from a pointer and a length, from an array, or from a container with data() and
/// size(), such as a vector. The constructor takes a temporary object only if this object does not own its elements, for example a std::span.
template <class Element>
class array_view {
    template <class Container>
    using element = std::remove_pointer_t<decltype(std::data(std::declval<Container &>()))>;

    template <class Container>
    static constexpr bool lasts = std::is_lvalue_reference_v<Container> || detail::is_borrowed<std::remove_cv_t<Container>>;

public:
    constexpr array_view(Element *data, std::size_t size) noexcept : data_(data), size_(size) {}

    template <class Container, class = std::enable_if_t<std::is_convertible_v<element<Container> (*)[], Element (*)[]> && lasts<Container>>>
    constexpr array_view(Container &&container) noexcept : data_(std::data(container)), size_(std::size(container)) {}

    [[nodiscard]] constexpr Element *data() const noexcept { return data_; }
    [[nodiscard]] constexpr std::size_t size() const noexcept { return size_; }

private:
    Element *data_;
    std::size_t size_;
};

namespace detail {

/// A position is a member `at`, and the member `from` from which a walk came to `at`. If `at` is the first member of the walk, `from` is `none`. At
/// the end of the walk, `at` is `none`.
struct position {
    std::uint32_t from = none, at = none;
};

/// A struct words has pointers to the table that a view reads, and to a list or tree in this table.
template <class Link, class Head>
struct words {
    const Link *table = nullptr;
    std::size_t places = 0;
    const Head *head = nullptr;
};

// ---- Kinds: a kind has the calls of ic.h for one type of list, ring or tree, and finds ends and neighbors of members -----------------

/// This is the base class of the kinds of lists and trees, but not of rings. A view of a list or tree has a pointer to a struct such as ic_list.
template <class Link, class Head>
struct headed {
    using link = Link;
    using head = Head;
    using source = words<Link, Head>;
    using argument = Head &;
    using handle = Head *;
    static handle handle_of(argument list) noexcept { return &list; }
};

/// wide_list has the calls of doubly linked lists whose links have words of 8 bytes. narrow_list has the calls for links with words of 4 bytes,
/// without fill, sort and merge.
struct wide_list {
    using link = ic_link2;
    static constexpr auto clear = ic_list_clear;
    static constexpr auto check = ic_list_check;
    static constexpr auto fill = ic_list_fill;
    static constexpr auto push_front = ic_list_push_front;
    static constexpr auto push_back = ic_list_push_back;
    static constexpr auto pop_front = ic_list_pop_front;
    static constexpr auto pop_back = ic_list_pop_back;
    static constexpr auto insert_after = ic_list_insert_after;
    static constexpr auto insert_before = ic_list_insert_before;
    static constexpr auto remove = ic_list_remove;
    static constexpr auto replace = ic_list_replace;
    static constexpr auto move_after = ic_list_move_after;
    static constexpr auto move_before = ic_list_move_before;
    static constexpr auto move_to_front = ic_list_move_to_front;
    static constexpr auto move_to_back = ic_list_move_to_back;
    static constexpr auto splice_after = ic_list_splice_after;
    static constexpr auto splice_before = ic_list_splice_before;
    static constexpr auto append = ic_list_append;
    static constexpr auto split_after = ic_list_split_after;
    static constexpr auto split_before = ic_list_split_before;
    static constexpr auto transfer_after = ic_list_transfer_after;
    static constexpr auto transfer_before = ic_list_transfer_before;
    static constexpr auto next = ic_list_next;
    static constexpr auto prev = ic_list_prev;
    static constexpr auto first = ic_list_first;
    static constexpr auto last = ic_list_last;
    static constexpr auto sort = ic_list_sort;
    static constexpr auto merge = ic_list_merge;
    static constexpr auto is_linked_in = ic_list_is_linked;
    static constexpr auto has_none = ic_list_is_empty;
};

struct narrow_list {
    using link = ic_link2_32;
    static constexpr auto clear = ic_list32_clear;
    static constexpr auto check = ic_list32_check;
    static constexpr auto push_front = ic_list32_push_front;
    static constexpr auto push_back = ic_list32_push_back;
    static constexpr auto pop_front = ic_list32_pop_front;
    static constexpr auto pop_back = ic_list32_pop_back;
    static constexpr auto insert_after = ic_list32_insert_after;
    static constexpr auto insert_before = ic_list32_insert_before;
    static constexpr auto remove = ic_list32_remove;
    static constexpr auto replace = ic_list32_replace;
    static constexpr auto move_after = ic_list32_move_after;
    static constexpr auto move_before = ic_list32_move_before;
    static constexpr auto move_to_front = ic_list32_move_to_front;
    static constexpr auto move_to_back = ic_list32_move_to_back;
    static constexpr auto splice_after = ic_list32_splice_after;
    static constexpr auto splice_before = ic_list32_splice_before;
    static constexpr auto append = ic_list32_append;
    static constexpr auto split_after = ic_list32_split_after;
    static constexpr auto split_before = ic_list32_split_before;
    static constexpr auto transfer_after = ic_list32_transfer_after;
    static constexpr auto transfer_before = ic_list32_transfer_before;
    static constexpr auto next = ic_list32_next;
    static constexpr auto prev = ic_list32_prev;
    static constexpr auto first = ic_list32_first;
    static constexpr auto last = ic_list32_last;
    static constexpr auto is_linked_in = ic_list32_is_linked;
    static constexpr auto has_none = ic_list32_is_empty;
};

template <class List>
struct doubly : List {
    using link = typename List::link;
    using head = ic_list;
    using source = words<link, head>;
    using argument = head &;
    using handle = head *;
    static handle handle_of(argument list) noexcept { return &list; }
    static constexpr bool is_bidirectional = true, needs_from = false;

    static bool is_linked(const source &in, std::uint32_t at) noexcept { return List::is_linked_in(in.table, in.places, at) != 0; }
    static bool is_empty(const source &in) noexcept { return List::has_none(in.head) != 0; }
    static std::uint32_t outermost(const source &in, bool back) noexcept { return back ? List::last(in.head) : List::first(in.head); }
    static std::uint32_t beyond(const source &in, position it, bool back) noexcept {
        return (back ? List::prev : List::next)(in.table, in.places, it.at);
    }
    static std::uint32_t take(link *table, std::size_t places, head *list, position it) noexcept {
        return List::remove(table, places, list, it.at);
    }
};

struct singly : headed<ic_link1, ic_stack> {
    static constexpr bool is_bidirectional = false, needs_from = true;
    static constexpr auto clear = ic_stack_clear;
    static constexpr auto check = ic_stack_check;
    static constexpr auto sort = ic_stack_sort;
    static constexpr auto merge = ic_stack_merge;
    static constexpr auto fill = ic_stack_fill;
    static constexpr auto push_front = ic_stack_push_front;
    static constexpr auto pop_front = ic_stack_pop_front;

    static bool is_linked(const source &in, std::uint32_t at) noexcept { return ic_stack_is_linked(in.table, in.places, at) != 0; }
    static bool is_empty(const source &in) noexcept { return ic_stack_is_empty(in.head) != 0; }
    static std::uint32_t outermost(const source &in, bool) noexcept { return ic_stack_first(in.head); }
    static std::uint32_t beyond(const source &in, position it, bool) noexcept { return ic_stack_next(in.table, in.places, it.at); }
    static std::uint32_t take(link *table, std::size_t places, head *list, position it) noexcept {
        std::uint32_t removed = it.from == none ? ic_stack_first(list) : ic_stack_next(table, places, it.from);
        return removed == it.at ? ic_stack_remove_after(table, places, list, it.from, &removed) : std::uint32_t{IC_BROKEN};
    }
};

struct xored : headed<ic_link1, ic_xor_list> {
    static constexpr bool is_bidirectional = true, needs_from = true;
    static constexpr auto clear = ic_xor_clear;
    static constexpr auto fill = ic_xor_fill;
    static constexpr auto push_front = ic_xor_push_front, push_back = ic_xor_push_back;
    static constexpr auto pop_front = ic_xor_pop_front, pop_back = ic_xor_pop_back;

    static bool is_linked(const source &in, std::uint32_t at) noexcept { return ic_xor_is_linked(in.table, in.places, at) != 0; }
    static bool is_empty(const source &in) noexcept { return ic_xor_is_empty(in.head) != 0; }
    static std::uint32_t outermost(const source &in, bool back) noexcept { return back ? ic_xor_last(in.head) : ic_xor_first(in.head); }
    static std::uint32_t beyond(const source &in, position it, bool) noexcept {
        return ic_xor_step(in.table, in.places, it.from, it.at);
    }
    static std::uint32_t take(link *table, std::size_t places, head *list, position it) noexcept {
        return ic_xor_remove(table, places, list, it.from, it.at);
    }
};

struct red_black : headed<ic_link3, ic_tree> {
    static constexpr bool is_bidirectional = true, needs_from = false;
    static constexpr auto clear = ic_tree_clear;
    static constexpr auto check = ic_tree_check;

    static bool is_linked(const source &in, std::uint32_t at) noexcept { return ic_tree_is_linked(in.table, in.places, at) != 0; }
    static bool is_empty(const source &in) noexcept { return ic_tree_is_empty(in.head) != 0; }
    static std::uint32_t outermost(const source &in, bool back) noexcept { return beyond(in, {}, back); }
    static std::uint32_t beyond(const source &in, position it, bool back) noexcept {
        return (back ? ic_tree_before : ic_tree_after)(in.table, in.places, in.head, it.at);
    }
    static std::uint32_t take(link *table, std::size_t places, head *tree, position it) noexcept {
        return ic_tree_remove(table, places, tree, it.at);
    }
};

/// wide_ring has the calls of rings whose links have words of 8 bytes. narrow_ring has the calls for links with words of 4 bytes, without check, sort
/// and merge.
struct wide_ring {
    using link = ic_link2;
    static constexpr auto init = ic_ring_init;
    static constexpr auto remove = ic_ring_remove;
    static constexpr auto insert_after = ic_ring_insert_after;
    static constexpr auto insert_before = ic_ring_insert_before;
    static constexpr auto replace = ic_ring_replace;
    static constexpr auto move_after = ic_ring_move_after;
    static constexpr auto move_before = ic_ring_move_before;
    static constexpr auto splice_after = ic_ring_splice_after;
    static constexpr auto splice_before = ic_ring_splice_before;
    static constexpr auto exchange = ic_ring_exchange;
    static constexpr auto swap = ic_ring_swap;
    static constexpr auto push_front = ic_ring_push_front;
    static constexpr auto push_back = ic_ring_push_back;
    static constexpr auto move_range_after = ic_ring_move_range_after;
    static constexpr auto move_range_before = ic_ring_move_range_before;
    static constexpr auto pop_front = ic_ring_pop_front;
    static constexpr auto pop_back = ic_ring_pop_back;
    static constexpr auto next = ic_ring_next;
    static constexpr auto prev = ic_ring_prev;
    static constexpr auto is_linked_in = ic_ring_is_linked;
    static constexpr auto is_empty_in = ic_ring_is_empty;
    static constexpr auto check = ic_ring_check;
    static constexpr auto sort = ic_ring_sort;
    static constexpr auto merge = ic_ring_merge;
};

struct narrow_ring {
    using link = ic_link2_32;
    static constexpr auto init = ic_ring32_init;
    static constexpr auto remove = ic_ring32_remove;
    static constexpr auto insert_after = ic_ring32_insert_after;
    static constexpr auto insert_before = ic_ring32_insert_before;
    static constexpr auto replace = ic_ring32_replace;
    static constexpr auto move_after = ic_ring32_move_after;
    static constexpr auto move_before = ic_ring32_move_before;
    static constexpr auto splice_after = ic_ring32_splice_after;
    static constexpr auto splice_before = ic_ring32_splice_before;
    static constexpr auto exchange = ic_ring32_exchange;
    static constexpr auto swap = ic_ring32_swap;
    static constexpr auto push_front = ic_ring32_push_front;
    static constexpr auto push_back = ic_ring32_push_back;
    static constexpr auto move_range_after = ic_ring32_move_range_after;
    static constexpr auto move_range_before = ic_ring32_move_range_before;
    static constexpr auto pop_front = ic_ring32_pop_front;
    static constexpr auto pop_back = ic_ring32_pop_back;
    static constexpr auto next = ic_ring32_next;
    static constexpr auto prev = ic_ring32_prev;
    static constexpr auto is_linked_in = ic_ring32_is_linked;
    static constexpr auto is_empty_in = ic_ring32_is_empty;
};

/// This class is the kind of rings. A view of a ring has no pointer to a struct, because the head of a ring is a place.
template <class Ring>
struct circular : Ring {
    using link = typename Ring::link;
    using head = std::uint32_t;
    struct source {
        const link *table = nullptr;
        std::size_t places = 0;
        std::uint32_t head = none;
    };
    using argument = head;
    using handle = head;
    static handle handle_of(argument place) noexcept { return place; }
    static constexpr bool is_bidirectional = true, needs_from = false;

    static bool is_linked(const source &in, std::uint32_t at) noexcept { return Ring::is_linked_in(in.table, in.places, at) != 0; }
    static bool is_empty(const source &in) noexcept { return Ring::is_empty_in(in.table, in.places, in.head) != 0; }
    static std::uint32_t outermost(const source &in, bool back) noexcept { return beyond(in, {none, in.head}, back); }
    static std::uint32_t beyond(const source &in, position it, bool back) noexcept {
        const std::uint32_t place = (back ? Ring::prev : Ring::next)(in.table, in.places, it.at);
        return place == in.head ? none : place;
    }
    static std::uint32_t take(link *table, std::size_t places, handle, position it) noexcept {
        return Ring::remove(table, places, it.at);
    }
};

// ---- Iterators ---------------------------------------------------------------------------------------------------------------------

/// `it++` moves an iterator to the next position. In a list whose links do not name the previous member, `it++` also stores in `before` the position
/// before the old one.
struct trail {
    position before{};
    bool is_kept = false;
};
struct no_trail {};

/// An iterator goes from member to member, and `*it` is the place of the member. An iterator is valid until its member is removed. In a singly linked
/// list or an XOR list the iterator also needs the member from which it came, so make a new iterator if you have removed this member. After `it++`
/// the iterator does not need the member from which it came, so you may write `erase(it++)` for every list, ring and tree.
///
/// If `Back` is true, the iterator goes from the last member to the first. The iterator counts its steps. After as many `++` as the table has places,
/// the iterator is at the end. After as many `--` as the table has places, the iterator is at the beginning.
template <class Kind, bool Back>
class iterator : std::conditional_t<Kind::needs_from, trail, no_trail> {
public:
    using iterator_category = std::conditional_t<Kind::is_bidirectional, std::bidirectional_iterator_tag, std::forward_iterator_tag>;
    using value_type = std::uint32_t;
    using difference_type = std::ptrdiff_t;
    using pointer = void;
    using reference = std::uint32_t;

    iterator() = default;

    /// Makes an iterator at a position, or the end iterator if `it.at` is no linked place of the table.
    iterator(typename Kind::source in, position it) noexcept : in_(in), left_(ic_bound(in.places)) { go(it); }

    [[nodiscard]] std::uint32_t operator*() const noexcept { return it_.at; }

#ifdef __GNUC__
    [[gnu::always_inline]] // or else Clang calls it in a loop over an XOR list
#endif
    iterator &operator++() noexcept {
        if constexpr (Kind::is_bidirectional)
            settle();
        const std::uint32_t beyond = Kind::beyond(in_, {it_.from, it_.at}, Back);
        left_ -= left_ > 0;
        go({it_.at, beyond});
        return *this;
    }

    iterator operator++(int) noexcept {
        settle();
        const iterator was = *this;
        ++*this;
        if constexpr (Kind::needs_from) {
            const position it = was.it_;
            this->before = {it.from == none ? none : Kind::beyond(in_, {it.at, it.from}, !Back), it.from};
            this->is_kept = true;
        }
        return was;
    }

    iterator &operator--() noexcept {
        static_assert(Kind::is_bidirectional, "a singly linked list is walked forwards only");
        settle();
        position it{none, it_.at == none ? Kind::outermost(in_, !Back) : Kind::needs_from ? it_.from : Kind::beyond(in_, it_, !Back)};
        if constexpr (Kind::needs_from)
            it.from = Kind::beyond(in_, {it_.at, it.at}, !Back);
        if (left_ < ic_bound(in_.places))
            ++left_;
        else if (++ahead_ >= left_)
            it = {none, Kind::outermost(in_, Back)};
        go(it);
        return *this;
    }

    iterator operator--(int) noexcept {
        const iterator was = *this;
        --*this;
        return was;
    }

    [[nodiscard]] friend bool operator==(const iterator &one, const iterator &other) noexcept { return one.it_.at == other.it_.at; }
    [[nodiscard]] friend bool operator!=(const iterator &one, const iterator &other) noexcept { return !(one == other); }

    /// Returns the member of the iterator and the member from which the iterator came. If `erase(it++)` has removed the member from which the
    /// iterator came, the call returns the previous neighbor of the removed member instead.
    [[nodiscard]] position where() const noexcept {
        iterator settled = *this;
        settled.settle();
        return settled.it_;
    }

    /// Returns an iterator at the next member. This new iterator stays valid if the caller then removes the member of the old iterator.
    [[nodiscard]] iterator past() const noexcept {
        iterator next = *this;
        ++next;
        next.it_.from = where().from;
        return next;
    }

private:
    /// Corrects `from` if `erase(it++)` has removed the member from which the iterator came.
    void settle() noexcept {
        if constexpr (Kind::needs_from) {
            if (this->is_kept)
                it_.from = front_of(in_, this->before, it_.from, it_.at);
            this->is_kept = false;
        }
    }

    /// Returns the member before `at`. If `from` has been removed, the link of `before.at` leads to `at`, and the function returns `before.at`.
    /// Otherwise the function returns `from`. It takes values and is not inlined, so that compilers keep iterators in registers.
#ifdef __GNUC__
    [[gnu::noinline]]
#endif
    static std::uint32_t front_of(typename Kind::source in, position before, std::uint32_t from, std::uint32_t at) noexcept {
        return at == (before.at == none ? Kind::outermost(in, Back) : Kind::beyond(in, before, Back)) ? before.at : from;
    }

    void go(position it) noexcept {
        it_ = it;
        if (left_ == 0 || !Kind::is_linked(in_, it.at))
            it_.at = none;
    }

    typename Kind::source in_;
    position it_;
    /// `left_` is the number of steps that the iterator may still make forwards. `ahead_` is the number of steps that the iterator has made backwards
    /// from its first position.
    std::uint32_t left_ = 0, ahead_ = 0;
};

/// `erase` returns an `erased`, which is an iterator at the member after the removed member, together with the status of the removal. If the status
/// is not ok, no member has been removed, and the iterator is end(), so that a loop with `it = erase(it)` ends.
template <class Iterator>
class erased : public Iterator {
public:
    erased(ic::status done, Iterator next) noexcept : Iterator(next), done_(done) {}

    [[nodiscard]] ic::status status() const noexcept { return done_; }
    [[nodiscard]] operator ic::status() const noexcept { return done_; }

private:
    ic::status done_;
};

// ---- What all kinds have -----------------------------------------------------------------------------------------------------------

/// This is the base class of all views that read members. A copy of a view is cheap, and you may use the iterators of a view after the view is
/// destroyed.
struct view_base {};

#ifdef __cpp_lib_ranges
template <class View>
concept is_view = std::is_base_of_v<view_base, View>;
#endif

/// Reads a list, a ring or a tree. The class `Kind` has the calls for this type of list, ring or tree.
template <class Kind>
class members : public view_base {
public:
    using kind = Kind;
    using value_type = std::uint32_t;
    using iterator = detail::iterator<Kind, false>;
    using const_iterator = iterator;

    [[nodiscard]] iterator begin() const noexcept { return {in_, {none, Kind::outermost(in_, false)}}; }
    [[nodiscard]] iterator end() const noexcept { return {in_, {}}; }

    [[nodiscard]] bool empty() const noexcept { return Kind::is_empty(in_); }

    /// Returns the number of members, in O(n), or std::nullopt if the words form no list, ring or tree. Call check() if the words come from a file,
    /// or from memory to which other programs write. XOR lists have no check().
    [[nodiscard]] std::optional<std::uint64_t> check() const noexcept {
        std::uint64_t count = 0;
        return Kind::check(in_.table, in_.places, in_.head, &count) == IC_OK ? std::optional<std::uint64_t>(count) : std::nullopt;
    }

    /// Returns whether a place is in a list or tree of the table, which may be another list or tree than this one.
    [[nodiscard]] bool is_linked(std::uint32_t place) const noexcept { return Kind::is_linked(in_, place); }

    /// Returns the first member, or std::nullopt if there is none or if the first member is not linked in this table.
    [[nodiscard]] std::optional<std::uint32_t> front() const noexcept { return found(*begin()); }

protected:
    explicit members(typename Kind::source in) noexcept : in_(in) {}

    static std::optional<std::uint32_t> found(std::uint32_t place) noexcept {
        return place == none ? std::nullopt : std::optional<std::uint32_t>(place);
    }

    typename Kind::source in_;
};

/// Reads a list or a tree from the first member to the last, and from the last to the first.
template <class Kind>
class two_way : public members<Kind> {
public:
    using reverse_iterator = detail::iterator<Kind, true>;
    using const_reverse_iterator = reverse_iterator;

    [[nodiscard]] reverse_iterator rbegin() const noexcept { return {this->in_, {none, Kind::outermost(this->in_, true)}}; }
    [[nodiscard]] reverse_iterator rend() const noexcept { return {this->in_, {}}; }

    /// Returns the last member, or std::nullopt if there is none or if the last member is not linked in this table.
    [[nodiscard]] std::optional<std::uint32_t> back() const noexcept { return this->found(*rbegin()); }

protected:
    using members<Kind>::members;
};

/// Reads a list or a tree in which an iterator needs the place of its member, and not the member from which it came.
template <class Kind>
class placed : public two_way<Kind> {
public:
    /// Returns an iterator at the member `place`, or end() if `place` is `none` or unlinked.
    [[nodiscard]] typename two_way<Kind>::iterator iterator_to(std::uint32_t place) const noexcept {
        return {this->in_, {none, place}};
    }

protected:
    using two_way<Kind>::two_way;
};

/// Has the constructor of a view. The constructor takes a table, and a list or a tree.
template <class Base>
class of_head : public Base {
    using link = typename Base::kind::link;
    using head = typename Base::kind::head;

public:
    of_head(array_view<const link> table, const head &list) noexcept : Base({table.data(), table.size(), &list}) {}
    of_head(array_view<const link> table, const head &&list) = delete;
};

/// Has the calls that remove the members to which iterators lead.
template <class Base>
class erases : public Base {
public:
    using iterator = typename Base::iterator;
    using Base::Base;

    /// Removes the member `*at`, and moves the iterator `at` to the next member.
    [[nodiscard]] erased<iterator> erase(iterator &at) const noexcept {
        const iterator next = at.past();
        const status done = this->take(at);
        if (done != status::ok)
            return {done, this->end()};
        at = next;
        return {done, next};
    }

    /// Removes the member `*at` if `at` is a temporary iterator, such as `it++`. You may ignore the result of this call, as in the standard library.
    erased<iterator> erase(iterator &&at) const noexcept { return erase(at); }
    [[nodiscard]] erased<iterator> erase(const iterator &at) const noexcept { return erase(iterator(at)); }

    /// Removes the members from `*first` up to the member before `*last`. If the removal of a member is refused, the call stops, and returns the
    /// status of this removal.
    [[nodiscard]] erased<iterator> erase(iterator first, iterator last) const noexcept {
        while (first != last)
            if (const auto done = erase(first); done.status() != status::ok)
                return done;
        return {status::ok, first};
    }

    /// Removes each member for which the predicate is true, and then calls the function `then` with this member. `then` may insert the member into
    /// another list or tree. Neither the predicate nor `then` may edit this list or tree. If the removal of a member is refused, the call stops, and
    /// returns the status of this removal.
    template <class Predicate, class Then>
    status remove_if(Predicate is_unwanted, Then then) const {
        for (iterator at = this->begin(); at != this->end();) {
            const std::uint32_t place = *at;
            if (!is_unwanted(place)) {
                ++at;
                continue;
            }
            if (const status done = erase(at); done != status::ok)
                return done;
            then(place);
        }
        return status::ok;
    }

    /// Removes each member for which the predicate is true.
    template <class Predicate>
    status remove_if(Predicate is_unwanted) const {
        return remove_if(std::move(is_unwanted), [](std::uint32_t) {});
    }

    /// Removes each member for which the predicate is false.
    template <class Predicate>
    status retain(Predicate is_wanted) const {
        return remove_if([&](std::uint32_t place) { return !is_wanted(place); });
    }
};

/// Has the calls that edit a list, a ring or a tree.
template <class Base>
class writes : public Base {
public:
    using kind = typename Base::kind;
    using link = typename kind::link;
    using head = typename kind::head;

    writes(array_view<link> table, typename kind::argument list) noexcept
        : Base(array_view<const link>(table), list), table_(table.data()), head_(kind::handle_of(list)) {}

protected:
    status take(const typename Base::iterator &at) const noexcept {
        return static_cast<status>(kind::take(table_, this->in_.places, head_, at.where()));
    }

    template <class Call, class... Arguments>
    status edit(Call call, Arguments... arguments) const noexcept {
        return static_cast<status>(call(table_, this->in_.places, head_, arguments...));
    }

    /// Makes a call of C that removes a place, and returns this place, or std::nullopt if the call is refused.
    template <class Call, class... Arguments>
    std::optional<std::uint32_t> taken(Call call, Arguments... arguments) const noexcept {
        std::uint32_t place = none;
        return call(table_, this->in_.places, head_, arguments..., &place) == IC_OK ? this->found(place) : std::nullopt;
    }

    /// Makes a call of C for this list and the list `other`. If `other` is this list itself or a list of another table, the function makes no call,
    /// and returns status::broken.
    template <class Call, class... Arguments>
    status edit_both(const writes &other, Call call, Arguments... arguments) const noexcept {
        return other.table_ == table_ && other.head_ != head_ ? edit(call, arguments...) : status::broken;
    }

    link *table_;
    typename kind::handle head_;
};

/// Edits a list or a ring at its front.
template <class Base>
class front_edits : public erases<writes<Base>> {
public:
    using kind = typename Base::kind;
    using erases<writes<Base>>::erases;

    status push_front(std::uint32_t place) const noexcept { return this->edit(kind::push_front, place); }

    /// Removes and returns the first member, or returns std::nullopt if there is none. If the list is not empty(), std::nullopt means that the call
    /// was refused with ic::status::broken.
    [[nodiscard]] std::optional<std::uint32_t> pop_front() const noexcept { return this->taken(kind::pop_front); }
};

/// Edits a list or a ring at both ends.
template <class Base>
class end_edits : public front_edits<Base> {
public:
    using kind = typename Base::kind;
    using front_edits<Base>::front_edits;

    status push_back(std::uint32_t place) const noexcept { return this->edit(kind::push_back, place); }

    /// Removes and returns the last member, or returns std::nullopt if there is none. If the list is not empty(), std::nullopt means that the call
    /// was refused with ic::status::broken.
    [[nodiscard]] std::optional<std::uint32_t> pop_back() const noexcept { return this->taken(kind::pop_back); }
};

/// Has the call that removes all members of a list.
template <class Base>
class list_edits : public Base {
public:
    using kind = typename Base::kind;
    using Base::Base;

    /// Removes all members. If the links do not lead from the first member to the last, the call returns ic::status::broken and changes nothing.
    status clear() const noexcept { return this->edit(kind::clear); }
};

/// Has the call that inserts many places at once.
template <class Base>
class fills : public Base {
public:
    using kind = typename Base::kind;
    using Base::Base;

    /// Inserts the `count` places `first`, `first` + 1 and so on, in rising order. The call inserts the places at the back, but in a singly linked
    /// list at the front. If one of the places is out of range or linked already, the call inserts none of them.
    status fill(std::uint32_t first, std::uint32_t count) const noexcept { return this->edit(kind::fill, first, count); }
};

/// Has the call that sorts a list or the members of a ring.
template <class Base>
class sorts : public Base {
public:
    using kind = typename Base::kind;
    using keys_view = array_view<const std::uint64_t>;
    using Base::Base;

    /// Sorts the members by their keys. `keys` has a key for each place. Members with equal keys keep their order.
    status sort(keys_view keys) const noexcept {
        return static_cast<status>(kind::sort(this->table_, this->in_.places, keys.data(), keys.size(), this->head_));
    }
};

/// Has the calls that sort a list or the members of a ring, and merge two lists or the members of two rings.
template <class Base>
class merges : public sorts<Base> {
public:
    using kind = typename Base::kind;
    using typename sorts<Base>::keys_view;
    using sorts<Base>::sorts;

    /// Moves all members of `given` into this list or ring. If both were sorted by keys, this list or ring is sorted by keys after the call. Of
    /// members with equal keys, those of this list or ring come first. The call returns ic::status::broken if `given` is this list or ring itself, or
    /// a list or ring of another table.
    status merge(keys_view keys, const merges &given) const noexcept {
        if (given.table_ != this->table_ || given.head_ == this->head_)
            return status::broken;
        return static_cast<status>(kind::merge(this->table_, this->in_.places, keys.data(), keys.size(), this->head_, given.head_));
    }
};

} // namespace detail

// ---- Doubly linked lists -----------------------------------------------------------------------------------------------------------

namespace detail {

/// Edits a doubly linked list.
template <class List>
class edits_of_list : public list_edits<end_edits<of_head<placed<doubly<List>>>>> {
    using base = list_edits<end_edits<of_head<placed<doubly<List>>>>>;

public:
    using iterator = typename base::iterator;
    using base::base;

    /// Inserts `place` before the member `*at`, or at the back if `at` is end().
    status insert(iterator at, std::uint32_t place) const noexcept { return insert_before(*at, place); }
    status insert_after(std::uint32_t at, std::uint32_t place) const noexcept { return this->edit(List::insert_after, at, place); }
    status insert_before(std::uint32_t at, std::uint32_t place) const noexcept { return this->edit(List::insert_before, at, place); }
    status remove(std::uint32_t at) const noexcept { return this->edit(List::remove, at); }
    status replace(std::uint32_t at, std::uint32_t place) const noexcept { return this->edit(List::replace, at, place); }

    /// The calls move_after, move_before, move_to_front and move_to_back move the member `place`, which stays linked during the call.
    status move_after(std::uint32_t at, std::uint32_t place) const noexcept { return this->edit(List::move_after, at, place); }
    status move_before(std::uint32_t at, std::uint32_t place) const noexcept { return this->edit(List::move_before, at, place); }
    status move_to_front(std::uint32_t place) const noexcept { return this->edit(List::move_to_front, place); }
    status move_to_back(std::uint32_t place) const noexcept { return this->edit(List::move_to_back, place); }

    /// Moves all members of `given` before the member `*at`, or to the back if `at` is end(). The calls splice, splice_after, splice_before, append,
    /// split_after and split_before return ic::status::broken if `given` or `rest` is this list itself or a list of another table.
    status splice(iterator at, const edits_of_list &given) const noexcept { return splice_before(*at, given); }
    status splice_after(std::uint32_t at, const edits_of_list &given) const noexcept {
        return this->edit_both(given, List::splice_after, at, given.head_);
    }
    status splice_before(std::uint32_t at, const edits_of_list &given) const noexcept {
        return this->edit_both(given, List::splice_before, at, given.head_);
    }
    status append(const edits_of_list &given) const noexcept { return this->edit_both(given, List::append, given.head_); }
    status split_after(std::uint32_t at, const edits_of_list &rest) const noexcept { return this->edit_both(rest, List::split_after, at, rest.head_); }
    status split_before(std::uint32_t at, const edits_of_list &rest) const noexcept { return this->edit_both(rest, List::split_before, at, rest.head_); }

    /// Moves the member `*member` of `given` before the member `*at` of this list, or to the back if `at` is end(). The moved member stays linked
    /// during the call. This call, transfer_after and transfer_before return ic::status::broken if `given` is this list itself or a list of another
    /// table.
    status splice(iterator at, const edits_of_list &given, iterator member) const noexcept { return transfer_before(*at, given, *member); }

    /// Moves the member `place` of `given` after the member `at`, or to the front if `at` is `none`. `place` stays linked during the call.
    status transfer_after(std::uint32_t at, const edits_of_list &given, std::uint32_t place) const noexcept {
        return this->edit_both(given, List::transfer_after, at, given.head_, place);
    }

    /// Moves the member `place` of `given` before the member `at`, or to the back if `at` is `none`. `place` stays linked during the call.
    status transfer_before(std::uint32_t at, const edits_of_list &given, std::uint32_t place) const noexcept {
        return this->edit_both(given, List::transfer_before, at, given.head_, place);
    }
};

} // namespace detail

using const_list_view = detail::of_head<detail::placed<detail::doubly<detail::wide_list>>>;

/// Edits a doubly linked list, and fills, sorts and merges it.
class list_view : public detail::merges<detail::fills<detail::edits_of_list<detail::wide_list>>> {
public:
    using merges::merges;
};

/// These two views read or edit doubly linked lists whose links have words of 4 bytes. The views have no fill, sort or merge.
using const_list32_view = detail::of_head<detail::placed<detail::doubly<detail::narrow_list>>>;
using list32_view = detail::edits_of_list<detail::narrow_list>;

// ---- Rings ---------------------------------------------------------------------------------------------------------------------------

namespace detail {

/// Reads the members of one ring, beginning with the first member, which is the place after the head.
template <class Ring>
class const_members_of_ring : public placed<circular<Ring>> {
    using base = placed<circular<Ring>>;

public:
    const_members_of_ring(array_view<const typename Ring::link> table, std::uint32_t head) noexcept : base({table.data(), table.size(), head}) {}

    /// Returns an iterator at the member `place`, or end() if `place` is the head, `none` or unlinked.
    [[nodiscard]] typename base::iterator iterator_to(std::uint32_t place) const noexcept {
        return base::iterator_to(place == this->in_.head ? none : place);
    }
};

/// Edits the members of one ring.
template <class Ring>
class members_of_ring : public end_edits<const_members_of_ring<Ring>> {
    using base = end_edits<const_members_of_ring<Ring>>;

public:
    using base::base;

    /// Inserts `place` before the member `*at`, or at the back if `at` is end().
    status insert(typename base::iterator at, std::uint32_t place) const noexcept {
        return *at == none ? this->push_back(place) : static_cast<status>(Ring::insert_before(this->table_, this->in_.places, *at, place));
    }
};

/// Reads the rings of a table. The heads of the rings are places of this table.
template <class Ring>
class const_rings {
    using link = typename Ring::link;

public:
    const_rings(array_view<const link> table) noexcept : in_(table) {}

    [[nodiscard]] bool empty(std::uint32_t head) const noexcept { return Ring::is_empty_in(in_.data(), in_.size(), head) != 0; }
    [[nodiscard]] bool is_linked(std::uint32_t place) const noexcept { return Ring::is_linked_in(in_.data(), in_.size(), place) != 0; }
    [[nodiscard]] std::uint32_t next(std::uint32_t at) const noexcept { return Ring::next(in_.data(), in_.size(), at); }
    [[nodiscard]] std::uint32_t prev(std::uint32_t at) const noexcept { return Ring::prev(in_.data(), in_.size(), at); }

    /// Returns a view of the members of the ring with the head `head`, for a loop or an algorithm.
    [[nodiscard]] const_members_of_ring<Ring> members(std::uint32_t head) const noexcept { return {in_, head}; }

protected:
    array_view<const link> in_;
};

/// Edits the rings of a table. To remove or move a member, you do not name its ring. The base class `Reads` reads the rings.
template <class Ring, class Reads>
class rings : public Reads {
    using link = typename Ring::link;

public:
    rings(array_view<link> table) noexcept : Reads(array_view<const link>(table)), table_(table.data()), places_(table.size()) {}

    /// Returns a view that reads and erases the members of the ring with the head `head`.
    [[nodiscard]] members_of_ring<Ring> members(std::uint32_t head) const noexcept { return {{table_, places_}, head}; }

    /// Makes the place `head` the head of a ring with no members.
    status init(std::uint32_t head) const noexcept { return edit(Ring::init, head); }

    status insert_after(std::uint32_t at, std::uint32_t place) const noexcept { return edit(Ring::insert_after, at, place); }
    status insert_before(std::uint32_t at, std::uint32_t place) const noexcept { return edit(Ring::insert_before, at, place); }
    status push_front(std::uint32_t head, std::uint32_t place) const noexcept { return edit(Ring::push_front, head, place); }
    status push_back(std::uint32_t head, std::uint32_t place) const noexcept { return edit(Ring::push_back, head, place); }

    /// Removes a place from its ring, which you do not name.
    status remove(std::uint32_t place) const noexcept { return edit(Ring::remove, place); }
    status replace(std::uint32_t at, std::uint32_t place) const noexcept { return edit(Ring::replace, at, place); }
    status move_after(std::uint32_t at, std::uint32_t place) const noexcept { return edit(Ring::move_after, at, place); }
    status move_before(std::uint32_t at, std::uint32_t place) const noexcept { return edit(Ring::move_before, at, place); }

    /// splice_after moves all members of the ring with the head `given` after the place `at` of another ring, and splice_before moves them before
    /// `at`.
    status splice_after(std::uint32_t at, std::uint32_t given) const noexcept { return edit(Ring::splice_after, at, given); }
    status splice_before(std::uint32_t at, std::uint32_t given) const noexcept { return edit(Ring::splice_before, at, given); }

    /// Exchanges the positions of the places `one` and `other`, which may be in one ring or in two.
    status swap(std::uint32_t one, std::uint32_t other) const noexcept { return edit(Ring::swap, one, other); }

    /// move_range_after moves the places from `first` to `last` of a ring after the place `at` of the same ring or of another ring. move_range_before
    /// moves these places before `at`. `at` must not be one of the places that move.
    status move_range_after(std::uint32_t at, std::uint32_t first, std::uint32_t last) const noexcept {
        return edit(Ring::move_range_after, at, first, last);
    }
    status move_range_before(std::uint32_t at, std::uint32_t first, std::uint32_t last) const noexcept {
        return edit(Ring::move_range_before, at, first, last);
    }

    /// Makes the place after `one` follow `other`, and the place after `other` follow `one`. `one` and `other` may be in one ring or in two.
    status exchange(std::uint32_t one, std::uint32_t other) const noexcept { return edit(Ring::exchange, one, other); }

    /// pop_front removes and returns the first member of the ring with the head `head`, and pop_back removes and returns the last member. Both calls
    /// return std::nullopt if there is no member or if the call is refused.
    [[nodiscard]] std::optional<std::uint32_t> pop_front(std::uint32_t head) const noexcept { return taken(Ring::pop_front, head); }
    [[nodiscard]] std::optional<std::uint32_t> pop_back(std::uint32_t head) const noexcept { return taken(Ring::pop_back, head); }

    /// Calls the function `then` with each member of the ring with the head `head`. `then` may remove the member that it gets.
    template <class Function>
    void for_each(std::uint32_t head, Function then) const {
        IC_LOOP_SAFE(place, after, Ring::next(table_, places_, head), places_, place != head && this->is_linked(place), Ring::next(table_, places_, place))
            then(place);
    }

protected:
    template <class Call, class... Arguments>
    status edit(Call call, Arguments... arguments) const noexcept {
        return static_cast<status>(call(table_, places_, arguments...));
    }

    template <class Call>
    std::optional<std::uint32_t> taken(Call call, std::uint32_t head) const noexcept {
        std::uint32_t place = none;
        return call(table_, places_, head, &place) == IC_OK ? std::optional<std::uint32_t>(place) : std::nullopt;
    }

    link *table_;
    std::size_t places_;
};

} // namespace detail

using const_ring_members = detail::const_members_of_ring<detail::wide_ring>;

/// Edits the members of one ring, and sorts and merges them.
class ring_members : public detail::merges<detail::members_of_ring<detail::wide_ring>> {
public:
    using merges::merges;
};

/// Reads and checks the rings of a table.
class const_ring_view : public detail::const_rings<detail::wide_ring> {
public:
    using const_rings::const_rings;

    /// Returns the number of members of the ring with the head `head`, in O(n), or std::nullopt if the words form no ring with this head. Call
    /// check() if the words come from a file, or from memory to which other programs write.
    [[nodiscard]] std::optional<std::uint64_t> check(std::uint32_t head) const noexcept { return members(head).check(); }
};

/// Edits the rings of a table, and sorts and merges their members.
class ring_view : public detail::rings<detail::wide_ring, const_ring_view> {
public:
    using rings::rings;

    /// Returns a view that reads and erases the members of the ring with the head `head`.
    [[nodiscard]] ring_members members(std::uint32_t head) const noexcept { return {{table_, places_}, head}; }

    /// Sorts the members of the ring with the head `head` by their keys. `keys` has a key for each place. Members with equal keys keep their order.
    status sort(array_view<const std::uint64_t> keys, std::uint32_t head) const noexcept { return members(head).sort(keys); }

    /// Moves all members of the ring with the head `given` into the ring with the head `head`. If both rings were sorted by keys, the ring with the
    /// head `head` is sorted by keys after the call. Of members with equal keys, the moved members come last.
    status merge(array_view<const std::uint64_t> keys, std::uint32_t head, std::uint32_t given) const noexcept {
        return static_cast<status>(ic_ring_merge(table_, places_, keys.data(), keys.size(), head, given));
    }
};

/// These views read or edit the rings of a table whose links have words of 4 bytes. The views have no check, sort or merge.
using const_ring32_members = detail::const_members_of_ring<detail::narrow_ring>;
using ring32_members = detail::members_of_ring<detail::narrow_ring>;
using const_ring32_view = detail::const_rings<detail::narrow_ring>;
using ring32_view = detail::rings<detail::narrow_ring, const_ring32_view>;

// ---- Singly linked lists -----------------------------------------------------------------------------------------------------------

using const_stack_view = detail::of_head<detail::members<detail::singly>>;

/// Edits a singly linked list. A call that takes a member `at` edits the list after `at`, or at the front if `at` is `none`.
class stack_view : public detail::merges<detail::fills<detail::list_edits<detail::front_edits<const_stack_view>>>> {
public:
    using merges::merges;

    status insert_after(std::uint32_t at, std::uint32_t place) const noexcept { return edit(ic_stack_insert_after, at, place); }

    /// Removes and returns the member after `at`, or returns std::nullopt if the call is refused.
    [[nodiscard]] std::optional<std::uint32_t> remove_after(std::uint32_t at) const noexcept { return taken(ic_stack_remove_after, at); }

    /// Removes the member after `at`, inserts `place` in its position, and returns the removed member. If the call is refused, it returns
    /// std::nullopt.
    [[nodiscard]] std::optional<std::uint32_t> replace_after(std::uint32_t at, std::uint32_t place) const noexcept {
        return taken(ic_stack_replace_after, at, place);
    }

    /// Removes `place` from any position in the list, in O(n).
    status remove(std::uint32_t place) const noexcept { return edit(ic_stack_remove, place); }

    /// splice_after and split_after return ic::status::broken if `given` or `rest` is this list itself or a list of another table.
    status splice_after(std::uint32_t at, stack_view given) const noexcept {
        return edit_both(given, ic_stack_splice_after, at, given.head_);
    }
    status split_after(std::uint32_t at, stack_view rest) const noexcept { return edit_both(rest, ic_stack_split_after, at, rest.head_); }
};

// ---- Hash tables ---------------------------------------------------------------------------------------------------------------------

namespace detail {

/// A struct hash_words has pointers to the table and to the buckets that a view reads.
struct hash_words {
    const ic_link1 *table = nullptr;
    std::size_t places = 0;
    const ic_stack *buckets = nullptr;
    std::size_t bucket_count = 0;
};

/// An iterator of a hash table goes from member to member, chain by chain. An iterator is valid until its member is removed. After as many steps as
/// the table has places, the iterator is at the end.
class hash_iterator {
public:
    using iterator_category = std::forward_iterator_tag;
    using value_type = std::uint32_t;
    using difference_type = std::ptrdiff_t;
    using pointer = void;
    using reference = std::uint32_t;

    hash_iterator() = default;

    /// Makes the iterator at the first member.
    explicit hash_iterator(hash_words in) noexcept : in_(in), left_(ic_bound(in.places)) {
        if (in.bucket_count > 0)
            go(ic_stack_first(in.buckets));
    }

    [[nodiscard]] std::uint32_t operator*() const noexcept { return at_; }

    hash_iterator &operator++() noexcept {
        left_ -= left_ > 0;
        go(ic_stack_next(in_.table, in_.places, at_));
        return *this;
    }

    hash_iterator operator++(int) noexcept {
        const hash_iterator was = *this;
        ++*this;
        return was;
    }

    [[nodiscard]] friend bool operator==(const hash_iterator &one, const hash_iterator &other) noexcept { return one.at_ == other.at_; }
    [[nodiscard]] friend bool operator!=(const hash_iterator &one, const hash_iterator &other) noexcept { return !(one == other); }

    /// Returns the index of the member's bucket.
    [[nodiscard]] std::size_t bucket() const noexcept { return bucket_; }

    /// Returns the iterator at the next member.
    [[nodiscard]] hash_iterator past() const noexcept {
        hash_iterator next = *this;
        ++next;
        return next;
    }

private:
    /// Moves the iterator to `place` if `place` is linked, and otherwise to the first member of the next chain that has members.
    void go(std::uint32_t place) noexcept {
        while (!ic_stack_is_linked(in_.table, in_.places, place) && ++bucket_ < in_.bucket_count)
            place = ic_stack_first(&in_.buckets[bucket_]);
        at_ = left_ > 0 && bucket_ < in_.bucket_count ? place : none;
    }

    hash_words in_;
    std::size_t bucket_ = 0;
    std::uint32_t at_ = none, left_ = 0;
};

} // namespace detail

/// Reads a hash table, which is an array of buckets. Each bucket is a singly linked list, which is called a chain. The chain of a hash is the bucket
/// with the index hash % bucket_count. Your hash function computes the hash of an object from its key, so pass the same hash whenever you name this
/// object. A loop goes over all members, chain by chain.
class const_hash_view : public detail::view_base {
public:
    using keys_view = array_view<const std::uint64_t>;
    using value_type = std::uint32_t;
    using iterator = detail::hash_iterator;
    using const_iterator = iterator;

    const_hash_view(array_view<const ic_link1> table, array_view<const ic_stack> buckets) noexcept
        : in_{table.data(), table.size(), buckets.data(), buckets.size()} {}

    [[nodiscard]] iterator begin() const noexcept { return iterator(in_); }
    [[nodiscard]] iterator end() const noexcept { return {}; }
    [[nodiscard]] bool empty() const noexcept { return begin() == end(); }

    /// Returns whether `place` is a member of this hash table, or of another list or hash table of the same table of links.
    [[nodiscard]] bool is_linked(std::uint32_t place) const noexcept { return ic_stack_is_linked(in_.table, in_.places, place) != 0; }

    /// Returns the first member with the key `key` in the chain of `hash`, or std::nullopt if there is none or if the call is refused. If several
    /// members have this key, the first of them is the one that you inserted last.
    [[nodiscard]] std::optional<std::uint32_t> find(keys_view keys, std::uint64_t hash, std::uint64_t key) const noexcept {
        std::uint32_t place = none;
        const std::uint32_t done =
            ic_hash_find(in_.table, in_.places, keys.data(), keys.size(), in_.buckets, in_.bucket_count, hash, key, &place);
        return found(done, place);
    }

    /// Returns the next member after the member `at` that is in the same chain as `at` and has the same key as `at`. If there is none, or if the call
    /// is refused, it returns std::nullopt.
    [[nodiscard]] std::optional<std::uint32_t> next_equal(keys_view keys, std::uint32_t at) const noexcept {
        std::uint32_t place = none;
        const std::uint32_t done = ic_hash_next_equal(in_.table, in_.places, keys.data(), keys.size(), at, &place);
        return found(done, place);
    }

    /// Returns the number of members, in O(buckets + n), or std::nullopt if the call is refused. The call is refused if the words form no hash table,
    /// or if a member is not in the chain of its hash. `hashes` has the hash of each place. Call check() if the words come from a file, or from
    /// memory to which other programs write.
    [[nodiscard]] std::optional<std::uint64_t> check(keys_view hashes) const noexcept {
        std::uint64_t count = 0;
        const std::uint32_t done =
            ic_hash_check(in_.table, in_.places, hashes.data(), hashes.size(), in_.buckets, in_.bucket_count, &count);
        return done == IC_OK ? std::optional<std::uint64_t>(count) : std::nullopt;
    }

    /// Returns the first member in the chain of `hash` for which the predicate is true, or std::nullopt if there is none.
    template <class Predicate>
    [[nodiscard]] std::optional<std::uint32_t> find_by(std::uint64_t hash, Predicate is_equal) const {
        IC_HASH_FOREACH(place, in_.table, in_.places, in_.buckets, in_.bucket_count, hash)
            if (is_equal(place))
                return place;
        return std::nullopt;
    }

    /// Returns a view of the chain of `hash`, which is a singly linked list. The hash table must have at least one bucket.
    [[nodiscard]] const_stack_view chain(std::uint64_t hash) const noexcept {
        return {{in_.table, in_.places}, in_.buckets[hash % in_.bucket_count]};
    }

    /// Calls the function `then` with each member, chain by chain.
    template <class Function>
    void for_each(Function then) const {
        for (std::size_t i = 0; i < in_.bucket_count; ++i)
            for (const std::uint32_t place : chain(i))
                then(place);
    }

protected:
    static std::optional<std::uint32_t> found(std::uint32_t done, std::uint32_t place) noexcept {
        return done == IC_OK ? std::optional<std::uint32_t>(place) : std::nullopt;
    }

    detail::hash_words in_;
};

namespace detail {

/// Has the calls that edit a hash table.
class hash_writes : public const_hash_view {
public:
    hash_writes(array_view<ic_link1> table, array_view<ic_stack> buckets) noexcept
        : const_hash_view(array_view<const ic_link1>(table), array_view<const ic_stack>(buckets)), table_(table.data()), buckets_(buckets.data()) {}

protected:
    status take(const iterator &at) const noexcept { return edit(ic_hash_remove, at.bucket(), *at); }

    template <class Call>
    status edit(Call call, std::uint64_t hash, std::uint32_t place) const noexcept {
        return static_cast<status>(call(table_, in_.places, buckets_, in_.bucket_count, hash, place));
    }

    ic_link1 *table_;
    ic_stack *buckets_;
};

} // namespace detail

/// Edits a hash table.
class hash_view : public detail::erases<detail::hash_writes> {
public:
    using erases::erases;

    /// Inserts `place` at the front of the chain of `hash`.
    status insert(std::uint64_t hash, std::uint32_t place) const noexcept { return edit(ic_hash_insert, hash, place); }

    /// Removes `place` from any position in the chain of `hash`.
    status remove(std::uint64_t hash, std::uint32_t place) const noexcept { return edit(ic_hash_remove, hash, place); }

    /// Moves each member of `chain`, a bucket of another array, to the chain of the member's hash in this hash table. Members that move to the same
    /// chain keep their order, and come first in this chain. `hashes` has the hash of each place. The call returns ic::status::broken if `chain` is a
    /// bucket of this hash table. To grow or shrink a hash table, make a view of a second array of buckets, and make this call for each bucket of the
    /// old array.
    status move_chain(keys_view hashes, ic_stack &chain) const noexcept {
        for (std::size_t i = 0; i < in_.bucket_count; ++i)
            if (&chain == &buckets_[i])
                return status::broken;
        return static_cast<status>(
            ic_hash_move_chain(table_, in_.places, hashes.data(), hashes.size(), &chain, buckets_, in_.bucket_count));
    }

    /// Returns a view of the chain of `hash`, which is a singly linked list. The hash table must have at least one bucket.
    [[nodiscard]] stack_view chain(std::uint64_t hash) const noexcept { return {{table_, in_.places}, buckets_[hash % in_.bucket_count]}; }
};

// ---- XOR lists ---------------------------------------------------------------------------------------------------------------------

using const_xor_view = detail::of_head<detail::two_way<detail::xored>>;

/// Edits an XOR list. To insert in the middle, you pass an iterator, or the members `before` and `after` between which you insert. To insert at the
/// front, pass `none` as `before`. To insert at the back, pass `none` as `after`.
class xor_view : public detail::fills<detail::list_edits<detail::end_edits<const_xor_view>>> {
public:
    using fills::fills;

    /// Inserts `place` before the member `*at`, or at the back if `at` is end().
    status insert(iterator at, std::uint32_t place) const noexcept { return insert_between(front_of(at), place, *at); }
    status insert_between(std::uint32_t before, std::uint32_t place, std::uint32_t after) const noexcept {
        return edit(ic_xor_insert_between, before, place, after);
    }
    status remove(std::uint32_t before, std::uint32_t at) const noexcept { return edit(ic_xor_remove, before, at); }
    status replace(std::uint32_t before, std::uint32_t at, std::uint32_t place) const noexcept {
        return edit(ic_xor_replace, before, at, place);
    }
    void reverse() const noexcept { ic_xor_reverse(head_); }

    /// Moves all members of `given` before the member `*at`, or to the back if `at` is end(). The calls splice, splice_between, append and
    /// split_between return ic::status::broken if `given` or `rest` is this list itself or a list of another table.
    status splice(iterator at, xor_view given) const noexcept { return splice_between(front_of(at), given, *at); }
    status splice_between(std::uint32_t before, xor_view given, std::uint32_t after) const noexcept {
        return edit_both(given, ic_xor_splice_between, before, given.head_, after);
    }
    status append(xor_view given) const noexcept { return edit_both(given, ic_xor_append, given.head_); }
    status split_between(std::uint32_t before, std::uint32_t after, xor_view rest) const noexcept {
        return edit_both(rest, ic_xor_split_between, before, after, rest.head_);
    }

private:
    std::uint32_t front_of(iterator at) const noexcept { return *at == none ? ic_xor_last(head_) : at.where().from; }
};

// ---- Red-black trees ---------------------------------------------------------------------------------------------------------------

/// Reads a tree. A search by keys takes a keys_view, which is an array_view with a key for each place.
class const_tree_view : public detail::of_head<detail::placed<detail::red_black>> {
public:
    using keys_view = array_view<const std::uint64_t>;
    using of_head::of_head;

    /// Returns the first member with the key `key`. Each search by keys returns std::nullopt if it finds no member, if there are fewer keys than
    /// places, or if the root is not linked in this table.
    [[nodiscard]] std::optional<std::uint32_t> find(keys_view keys, std::uint64_t key) const noexcept {
        return search(ic_tree_find, keys, key);
    }

    /// Returns the first member whose key is not less than `key`.
    [[nodiscard]] std::optional<std::uint32_t> lower_bound(keys_view keys, std::uint64_t key) const noexcept {
        return search(ic_tree_lower_bound, keys, key);
    }

    /// Returns the first member whose key is greater than `key`, as in the standard library. The call ic_tree_upper_bound of C is named at_most() in
    /// C++.
    [[nodiscard]] std::optional<std::uint32_t> upper_bound(keys_view keys, std::uint64_t key) const noexcept {
        return key < UINT64_MAX ? lower_bound(keys, key + 1) : std::nullopt;
    }

    /// Returns the last member whose key is not greater than `key`.
    [[nodiscard]] std::optional<std::uint32_t> at_most(keys_view keys, std::uint64_t key) const noexcept {
        return search(ic_tree_upper_bound, keys, key);
    }

    /// A sums_view has a value and a sum for each place. A call that writes sums takes a writable_sums_view. In ic.h, the section on trees with sums
    /// says what a sum is.
    using sums_view = array_view<const ic_sum>;
    using writable_sums_view = array_view<ic_sum>;

    /// Returns the sum at the root, in O(1). If the sums are right, this is the combined value of all members. The call returns 0 if the tree has no
    /// members.
    [[nodiscard]] std::uint64_t sums_total(sums_view sums) const noexcept { return ic_tree_sums_total(sums.data(), sums.size(), in_.head); }

    /// Makes the sums right after you have changed the value of the member `at`, in O(log n). If `at` is `none`, the call makes all sums of the table
    /// right after any edits, in O(p log p) for a table of p places.
    status sums_renew(writable_sums_view sums, std::uint32_t sum_kind, std::uint32_t at = none) const noexcept {
        return static_cast<status>(ic_tree_sums_renew(in_.table, in_.places, sums.data(), sums.size(), sum_kind, at));
    }

    /// Returns the first member at which the combined value becomes greater than `bound`. The call combines the values of the members one after the
    /// other, in their order. It begins with the member after the member `at`, or with the first member if `at` is `none`. The call returns
    /// std::nullopt if there is no such member, or if the call is refused.
    [[nodiscard]] std::optional<std::uint32_t> sums_find(sums_view sums, std::uint32_t sum_kind, std::uint64_t bound, std::uint32_t at = none) const noexcept {
        std::uint32_t member = none;
        const std::uint32_t done = ic_tree_sums_find(in_.table, in_.places, sums.data(), sums.size(), sum_kind, in_.head, at, bound, &member);
        return done == IC_OK ? found(member) : std::nullopt;
    }

    /// Returns the combined value of the members before the member `at`, or std::nullopt if the call is refused.
    [[nodiscard]] std::optional<std::uint64_t> sums_before(sums_view sums, std::uint32_t sum_kind, std::uint32_t at) const noexcept {
        std::uint64_t sum = 0;
        const std::uint32_t done = ic_tree_sums_before(in_.table, in_.places, sums.data(), sums.size(), sum_kind, at, &sum);
        return done == IC_OK ? std::optional<std::uint64_t>(sum) : std::nullopt;
    }

    /// Returns the first member whose interval overlaps the interval that begins at `from` and ends before `to`. The search begins after the member
    /// `at`, or at the first member if `at` is `none`. The interval of a member begins at its key and ends before its value. The call returns
    /// std::nullopt if there is no such member, or if the call is refused.
    [[nodiscard]] std::optional<std::uint32_t> sums_overlap(keys_view keys, sums_view sums, std::uint64_t from, std::uint64_t to,
                                                            std::uint32_t at = none) const noexcept {
        std::uint32_t member = none;
        const std::uint32_t done =
            ic_tree_sums_overlap(in_.table, in_.places, keys.data(), keys.size(), sums.data(), sums.size(), in_.head, at, from, to, &member);
        return done == IC_OK ? found(member) : std::nullopt;
    }

    /// Returns an iterator at the first member with the key `key`, and an iterator at the member after the last member with this key. If no member
    /// has this key, both iterators are at the first member with a greater key, or at the end.
    [[nodiscard]] std::pair<iterator, iterator> equal_range(keys_view keys, std::uint64_t key) const noexcept {
        return {iterator_to(lower_bound(keys, key).value_or(none)), iterator_to(upper_bound(keys, key).value_or(none))};
    }

    /// Returns the first member `at` for which `order(at)` is 0, or std::nullopt if there is none. `order(at)` compares the key that you look for
    /// with the key of the member `at`. Its value must be negative if your key comes before the key of `at`, 0 if the keys are equal, and positive if
    /// your key comes after the key of `at`, as with strcmp and `<=>`.
    template <class Order>
    [[nodiscard]] std::optional<std::uint32_t> find_by(Order order) const {
        std::uint32_t first = none;
        descend([&](std::uint32_t at) {
            const auto it = order(at);
            first = it == 0 ? at : first;
            return it <= 0;
        });
        return found(first);
    }

    /// Returns the first member for which the predicate is false, or std::nullopt if there is none. The predicate must be false for all members after
    /// this one, too.
    template <class Predicate>
    [[nodiscard]] std::optional<std::uint32_t> partition_point(Predicate is_before) const {
        std::uint32_t first = none;
        descend([&](std::uint32_t at) {
            const bool goes_left = !is_before(at);
            first = goes_left ? at : first;
            return goes_left;
        });
        return found(first);
    }

protected:
    /// A hole is the position in which a descent from the root ends, and into which a place can be inserted. The place becomes the left or the right
    /// child of the member `under`, or the root if `under` is `none`.
    struct hole {
        std::uint32_t under = none;
        bool is_left = true;
    };

    /// Descends from the root. At each member the descent goes to the left child if the predicate is true for this member, and otherwise to the right
    /// child.
    template <class Predicate>
    hole descend(Predicate goes_left) const {
        hole end;
        std::uint32_t at = ic_tree_root(in_.head);
        for (std::uint32_t left = ic_bound(in_.places); left > 0 && is_linked(at); --left) {
            end = {at, goes_left(at)};
            at = (end.is_left ? ic_tree_left : ic_tree_right)(in_.table, in_.places, at);
        }
        return end;
    }

private:
    template <class Call>
    std::optional<std::uint32_t> search(Call call, keys_view keys, std::uint64_t key) const noexcept {
        std::uint32_t place = none;
        return call(in_.table, in_.places, keys.data(), keys.size(), in_.head, key, &place) == IC_OK ? found(place) : std::nullopt;
    }
};

/// Edits a tree.
class tree_view : public detail::erases<detail::writes<const_tree_view>> {
public:
    using erases::erases;

    /// Inserts `place` by its key, after all members whose keys are not greater than the key of `place`.
    status insert(keys_view keys, std::uint32_t place) const noexcept {
        return static_cast<status>(ic_tree_insert(table_, in_.places, keys.data(), keys.size(), head_, place));
    }

    /// Inserts `place` by a comparison of yours, after all members that are not greater than `place`. `is_less(one, other)` returns whether the place
    /// `one` is less than the place `other`.
    template <class Less>
    status insert_by(std::uint32_t place, Less is_less) const {
        if (place >= ic_bound(in_.places))
            return status::out_of_range;
        const hole end = descend([&](std::uint32_t at) { return is_less(place, at); });
        return end.is_left ? insert_left(end.under, place) : insert_right(end.under, place);
    }

    /// Inserts `place` if no member has its key. The call returns the first member with this key, which is `place` if the call has inserted it. If
    /// the call is refused, it returns std::nullopt.
    [[nodiscard]] std::optional<std::uint32_t> insert_unique(keys_view keys, std::uint32_t place) const noexcept {
        std::uint32_t member = none;
        const std::uint32_t done = ic_tree_insert_unique(table_, in_.places, keys.data(), keys.size(), head_, place, &member);
        return done == IC_OK ? found(member) : std::nullopt;
    }

    status insert_left(std::uint32_t at, std::uint32_t place) const noexcept { return edit(ic_tree_insert_left, at, place); }
    status insert_right(std::uint32_t at, std::uint32_t place) const noexcept { return edit(ic_tree_insert_right, at, place); }
    status remove(std::uint32_t at) const noexcept { return edit(ic_tree_remove, at); }
    status replace(std::uint32_t at, std::uint32_t place) const noexcept { return edit(ic_tree_replace, at, place); }

    /// Inserts `place` as insert() does, and updates each sum that the insertion changes, in O(log n).
    status sums_insert(keys_view keys, writable_sums_view sums, std::uint32_t sum_kind, std::uint32_t place) const noexcept {
        return static_cast<status>(
            ic_tree_sums_insert(table_, in_.places, keys.data(), keys.size(), sums.data(), sums.size(), sum_kind, head_, place));
    }

    /// sums_insert_left, sums_insert_right and sums_remove edit the tree as insert_left(), insert_right() and remove() do, and update each sum that
    /// the edit changes.
    status sums_insert_left(writable_sums_view sums, std::uint32_t sum_kind, std::uint32_t at, std::uint32_t place) const noexcept {
        return edit_summed(ic_tree_sums_insert_left, sums, sum_kind, at, place);
    }
    status sums_insert_right(writable_sums_view sums, std::uint32_t sum_kind, std::uint32_t at, std::uint32_t place) const noexcept {
        return edit_summed(ic_tree_sums_insert_right, sums, sum_kind, at, place);
    }
    status sums_remove(writable_sums_view sums, std::uint32_t sum_kind, std::uint32_t at) const noexcept {
        return edit_summed(ic_tree_sums_remove, sums, sum_kind, at);
    }

    /// Removes and returns the first member, or returns std::nullopt if there is none. If the tree is not empty(), std::nullopt means that the root
    /// is not linked in this table.
    [[nodiscard]] std::optional<std::uint32_t> pop_front() const noexcept { return popped(*begin()); }

    /// Removes and returns the last member, or returns std::nullopt if there is none. If the tree is not empty(), std::nullopt means that the root is
    /// not linked in this table.
    [[nodiscard]] std::optional<std::uint32_t> pop_back() const noexcept { return popped(*rbegin()); }

    /// Moves all members of `given` after the members of this tree, and leaves `given` empty, in O(n). The calls append, join and split compare no
    /// keys, and first check whether the links form the trees. If they do not, or if you pass this tree as `given` or `rest`, the call returns
    /// ic::status::broken and changes nothing.
    status append(tree_view given) const noexcept { return edit_both(given, ic_tree_append, given.head_); }

    /// Inserts `place` after all members of this tree, moves all members of `given` after `place`, and leaves `given` empty, in O(n).
    status join(std::uint32_t place, tree_view given) const noexcept { return edit_both(given, ic_tree_join, place, given.head_); }

    /// Moves the member `at` and all members after `at` to `rest`, which has to be empty, in O(n).
    status split(std::uint32_t at, tree_view rest) const noexcept { return edit_both(rest, ic_tree_split, at, rest.head_); }

    /// Removes all members. If a walk over the members goes in a circle, or comes to a place that is not linked, the call returns ic::status::broken
    /// and changes nothing.
    status clear() const noexcept { return edit(ic_tree_clear); }

private:
    template <class Call, class... Places>
    status edit_summed(Call call, writable_sums_view sums, std::uint32_t sum_kind, Places... places) const noexcept {
        return static_cast<status>(call(table_, in_.places, sums.data(), sums.size(), sum_kind, head_, places...));
    }

    std::optional<std::uint32_t> popped(std::uint32_t place) const noexcept {
        return remove(place) == status::ok ? found(place) : std::nullopt;
    }
};

namespace detail {

/// Has the calls that edit a tree and its ends.
class ends_writes : public writes<const_tree_view> {
public:
    ends_writes(array_view<ic_link3> table, ic_tree &tree, ic_tree_ends &ends) noexcept : writes(table, tree), ends_(&ends) {}

protected:
    status take(const iterator &at) const noexcept { return edit(ic_tree_ends_remove, ends_, *at); }

    ic_tree_ends *ends_;
};

} // namespace detail

/// Edits a tree together with an ic_tree_ends of yours, which names the first and the last member. Edit a tree that has an ic_tree_ends only by this
/// view.
class tree_ends_view : public detail::erases<detail::ends_writes> {
public:
    using erases::erases;

    /// Returns the first member, in O(1), or std::nullopt if there is none or if the first member is not linked in this table.
    [[nodiscard]] std::optional<std::uint32_t> front() const noexcept { return found(ic_tree_ends_first(table_, in_.places, ends_)); }

    /// Returns the last member, in O(1), or std::nullopt if there is none or if the last member is not linked in this table.
    [[nodiscard]] std::optional<std::uint32_t> back() const noexcept { return found(ic_tree_ends_last(table_, in_.places, ends_)); }

    /// Inserts `place` by its key, after all members whose keys are not greater than the key of `place`.
    status insert(keys_view keys, std::uint32_t place) const noexcept {
        return static_cast<status>(ic_tree_ends_insert(table_, in_.places, keys.data(), keys.size(), head_, ends_, place));
    }
    status insert_left(std::uint32_t at, std::uint32_t place) const noexcept { return edit(ic_tree_ends_insert_left, ends_, at, place); }
    status insert_right(std::uint32_t at, std::uint32_t place) const noexcept { return edit(ic_tree_ends_insert_right, ends_, at, place); }
    status remove(std::uint32_t at) const noexcept { return edit(ic_tree_ends_remove, ends_, at); }
    status replace(std::uint32_t at, std::uint32_t place) const noexcept { return edit(ic_tree_ends_replace, ends_, at, place); }

    /// Removes and returns the first member, or returns std::nullopt if the ends name no first member, or if the call is refused.
    [[nodiscard]] std::optional<std::uint32_t> pop_front() const noexcept { return taken(ic_tree_ends_pop_first, ends_); }

    /// Removes all members. If a walk over the members goes in a circle, or comes to a place that is not linked, the call returns ic::status::broken
    /// and changes nothing.
    status clear() const noexcept {
        const status done = edit(ic_tree_clear);
        if (done == status::ok)
            *ends_ = {};
        return done;
    }
};

} // namespace ic

#ifdef __cpp_lib_ranges
template <ic::detail::is_view View>
inline constexpr bool std::ranges::enable_view<View> = true;
template <ic::detail::is_view View>
inline constexpr bool std::ranges::enable_borrowed_range<View> = true;
#endif

#endif // C++17
#endif
