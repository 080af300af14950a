// Random edits through the views of ic.hpp beside std::list and std::multimap.
//
//     views [EDITS [SEED]]
//
// Two lists of each kind are in one table, and two trees, two rings, and a hash table. After each edit they have the members of the plain ones,
// forwards and backwards. In between, loops run over tables of random words: each ends within as many rounds as there are places. Prints how
// many edits were made, and how many of them were refused.
#include "ic.hpp"
#include "common.h"
#include <algorithm>
#include <cstring>
#include <list>
#include <map>
#include <vector>

namespace {

constexpr std::uint32_t places = 24;
std::uint64_t edits, refused;

void expect(bool is_so, const char *wrong) {
    if (is_so)
        return;
    std::printf("after %llu edits: %s\n", static_cast<unsigned long long>(edits), wrong);
    std::exit(1);
}

/// Whether an edit was made, which has to return this status.
bool made(ic::status is, ic::status expected) {
    edits++;
    refused += is != ic::status::ok;
    if (is != expected)
        std::printf("%s instead of %s\n", ic::name(is), ic::name(expected));
    expect(is == expected, "an edit returned another status");
    return is == ic::status::ok;
}

void expect_taken(std::optional<std::uint32_t> is, std::optional<std::uint32_t> expected) {
    edits++;
    refused += !is;
    expect(is == expected, "an edit gave another member");
}

/// The status of an edit that links a place which may be linked already.
template <class View>
ic::status to_link(const View &view, std::uint32_t place) {
    return place >= places ? ic::status::out_of_range : view.is_linked(place) ? ic::status::linked : ic::status::ok;
}

template <class View, class Members>
void check(const View &view, const Members &members) {
    expect(std::equal(view.begin(), view.end(), members.begin(), members.end()), "a view has other members");
    expect(view.empty() == members.empty(), "a view is empty, or is not");
    if constexpr (!std::is_same_v<typename View::kind, ic::xor_view::kind>)
        expect(view.check() == members.size(), "a check counts other members");
    expect(view.front() == (members.empty() ? std::nullopt : std::optional(members.front())), "a view has another first member");
    if constexpr (View::kind::is_bidirectional) {
        expect(std::equal(view.rbegin(), view.rend(), members.rbegin(), members.rend()), "a view has other members backwards");
        expect(view.back() == (members.empty() ? std::nullopt : std::optional(members.back())), "a view has another last member");
        auto at = view.end();
        for (auto member = members.rbegin(); member != members.rend(); ++member)
            expect(*--at == *member, "an iterator goes back to another member");
        expect(at == view.begin(), "an iterator has not gone back to the first member");
        auto back = std::next(view.rbegin(), static_cast<std::ptrdiff_t>(members.size()));
        for (const std::uint32_t member : members)
            expect(*--back == member, "an iterator of the way back goes forwards to another member");
    }
}

// ---- Lists ---------------------------------------------------------------------------------------------------------------------------

template <class View>
struct lists {
    std::vector<typename View::link> table = std::vector<typename View::link>(places);
    typename View::head heads[2] = {};
    std::list<std::uint32_t> plain[2];

    View view(int which) { return {table, heads[which]}; }
    void check_both() {
        for (int which : {0, 1})
            check(view(which), plain[which]);
    }
};

std::optional<std::uint32_t> take_front(std::list<std::uint32_t> &members) {
    if (members.empty())
        return std::nullopt;
    const std::uint32_t place = members.front();
    members.pop_front();
    return place;
}

std::optional<std::uint32_t> take_back(std::list<std::uint32_t> &members) {
    if (members.empty())
        return std::nullopt;
    const std::uint32_t place = members.back();
    members.pop_back();
    return place;
}

/// Takes off the members of a mask by iterators that have gone on before, and links some of them in the other list.
template <class View>
void erase_passed(lists<View> &it, int which, std::uint32_t mask) {
    const View view = it.view(which), other = it.view(1 - which);
    auto &plain = it.plain[which], &others = it.plain[1 - which];
    auto member = plain.begin();
    for (auto at = view.begin(); at != view.end();) {
        const std::uint32_t value = *at;
        if (!(mask >> value & 1)) {
            below(2) ? void(++at) : void(at++);
            ++member;
            continue;
        }
        made(view.erase(at++), ic::status::ok);
        plain.erase(member++);
        if (below(2) && made(other.push_front(value), ic::status::ok))
            others.push_front(value);
    }
}

/// An edit that each kind of list has, at the member with this number.
template <class View>
void edit(lists<View> &it, int which, std::uint32_t index, std::uint32_t call) {
    const View view = it.view(which), other = it.view(1 - which);
    auto &plain = it.plain[which];
    const std::uint32_t place = below(places + 1), mask = static_cast<std::uint32_t>(any());
    const ic::status linking = to_link(view, place);
    auto at = std::next(view.begin(), index);
    const auto member = std::next(plain.begin(), index);
    const auto leaves = [&](std::uint32_t value) { return (mask >> value & 1) != 0; };
    switch (call) {
    case 0:
        if (made(view.push_front(place), linking))
            plain.push_front(place);
        break;
    case 1: expect_taken(view.pop_front(), take_front(plain)); break;
    case 2:
        if (at != view.end() && made(view.erase(at), ic::status::ok)) {
            const auto behind = plain.erase(member);
            expect(at == std::next(view.begin(), std::distance(plain.begin(), behind)), "erase has not gone on to the next member");
        }
        break;
    case 3:
        made(view.remove_if(leaves, [&](std::uint32_t value) { made(other.push_front(value), ic::status::ok); }), ic::status::ok);
        for (const std::uint32_t value : plain)
            if (leaves(value))
                it.plain[1 - which].push_front(value);
        plain.remove_if(leaves);
        break;
    case 4:
        if (below(2)) {
            erase_passed(it, which, mask);
            break;
        }
        made(view.retain(leaves), ic::status::ok);
        plain.remove_if([&](std::uint32_t value) { return !leaves(value); });
        break;
    default:
        if (below(8) == 0 && made(view.clear(), ic::status::ok))
            plain.clear();
    }
}

/// An edit that lists have which are walked both ways.
template <class View>
void edit_two_way(lists<View> &it, int which, std::uint32_t index, std::uint32_t call) {
    const View view = it.view(which), other = it.view(1 - which);
    auto &plain = it.plain[which];
    const auto at = below(2) ? std::next(view.begin(), index) : std::prev(view.end(), static_cast<int>(plain.size() - index));
    const std::uint32_t place = below(places + 1);
    const ic::status linking = to_link(view, place);
    switch (call) {
    case 0:
        if (made(view.push_back(place), linking))
            plain.push_back(place);
        break;
    case 1: expect_taken(view.pop_back(), take_back(plain)); break;
    case 2:
        if (made(view.insert(at, place), linking))
            plain.insert(std::next(plain.begin(), index), place);
        break;
    default:
        made(view.splice(at, view), ic::status::broken);
        made(view.append(view), ic::status::broken);
        if (below(4))
            return;
        if (index == plain.size() ? made(view.append(other), ic::status::ok) : made(view.splice(at, other), ic::status::ok))
            plain.splice(std::next(plain.begin(), index), it.plain[1 - which]);
    }
}

/// Moves a member to an end, or into a gap beside another one or itself.
template <class View>
void move(lists<View> &it, int which, std::uint32_t index) {
    const View view = it.view(which);
    auto &plain = it.plain[which];
    const auto member = std::next(plain.begin(), index), gap = std::next(plain.begin(), below(static_cast<std::uint32_t>(plain.size()) + 1));
    switch (below(4)) {
    case 0:
        if (made(view.move_to_front(*member), ic::status::ok))
            plain.splice(plain.begin(), plain, member);
        break;
    case 1:
        if (made(view.move_to_back(*member), ic::status::ok))
            plain.splice(plain.end(), plain, member);
        break;
    case 2:
        if (made(view.move_before(gap == plain.end() ? ic::none : *gap, *member), ic::status::ok))
            plain.splice(gap, plain, member);
        break;
    default:
        if (made(view.move_after(gap == plain.begin() ? ic::none : *std::prev(gap), *member), ic::status::ok))
            plain.splice(gap, plain, member);
    }
}

/// A key for each place, many of them equal.
std::vector<std::uint64_t> some_keys(std::size_t count) {
    std::vector<std::uint64_t> keys(count);
    for (std::uint64_t &key : keys)
        key = below(5);
    return keys;
}

/// Sorts both lists by random keys, and merges one into the other, as the standard library does.
template <class View>
void sort_and_merge(lists<View> &it, int which) {
    const View view = it.view(which), other = it.view(1 - which);
    const std::vector<std::uint64_t> keys = some_keys(places);
    const auto is_less = [&](std::uint32_t one, std::uint32_t two) { return keys[one] < keys[two]; };
    made(view.sort({keys.data(), keys.size() - 1}), ic::status::out_of_range);
    made(view.merge(keys, view), ic::status::broken);
    if (made(view.sort(keys), ic::status::ok))
        it.plain[which].sort(is_less);
    if (below(4) == 0 && made(other.sort(keys), ic::status::ok) && made(view.merge(keys, other), ic::status::ok)) {
        it.plain[1 - which].sort(is_less);
        it.plain[which].merge(it.plain[1 - which], is_less);
    }
}

/// Moves a member of the other list into a gap of this one.
template <class View>
void transfer(lists<View> &it, int which, std::uint32_t index) {
    const View view = it.view(which), other = it.view(1 - which);
    auto &plain = it.plain[which], &others = it.plain[1 - which];
    const auto at = std::next(view.begin(), index);
    const auto member = std::next(others.begin(), below(static_cast<std::uint32_t>(others.size())));
    const std::uint32_t before = index ? *std::next(view.begin(), index - 1) : ic::none;
    const std::uint32_t call = below(3);
    made(view.transfer_after(before, other, ic::none), ic::status::null);
    made(view.transfer_before(*at, view, *member), ic::status::broken);
    if (made(call == 0 ? view.transfer_after(before, other, *member)
             : call == 1 ? view.transfer_before(*at, other, *member)
                         : view.splice(at, other, other.iterator_to(*member)), ic::status::ok))
        plain.splice(std::next(plain.begin(), index), others, member);
}

/// An edit of a doubly linked list of either width, of which those with words of 4 bytes have no sorts and merges.
template <class View>
void edit_doubly(lists<View> &it, int which, std::uint32_t index) {
    const View view = it.view(which), other = it.view(1 - which);
    auto &plain = it.plain[which], &others = it.plain[1 - which];
    const std::uint32_t place = below(places + 1), at = *std::next(view.begin(), index);
    const std::uint32_t before = index ? *std::next(view.begin(), index - 1) : ic::none;
    const ic::status linking = to_link(view, place);
    const auto member = std::next(plain.begin(), index);
    if (below(16) == 0) {
        if constexpr (std::is_same_v<View, ic::list_view>)
            sort_and_merge(it, which);
    } else if (!others.empty() && below(8) == 0) {
        transfer(it, which, index);
    } else if (at != ic::none && below(3) == 0) {
        move(it, which, index);
    } else if (at != ic::none && below(2)) {
        expect(*view.iterator_to(at) == at, "there is another iterator to a member");
        if (below(4) == 0 && made(view.remove(at), ic::status::ok))
            plain.erase(member);
        else if (view.is_linked(at) && made(view.replace(at, place), linking))
            *member = place;
    } else if (below(2)) {
        if (made(view.insert_after(before, place), linking))
            plain.insert(member, place);
    } else if (!others.empty()) {
        if (below(4) == 0 && made(view.splice_after(before, other), ic::status::ok))
            plain.splice(member, others);
    } else if (below(2)) {
        if (made(view.split_before(at, other), ic::status::ok))
            others.splice(others.begin(), plain, plain.begin(), member);
    } else if (made(view.split_after(before, other), ic::status::ok))
        others.splice(others.begin(), plain, member, plain.end());
}

void edit_own(lists<ic::list_view> &it, int which, std::uint32_t index) { edit_doubly(it, which, index); }
void edit_own(lists<ic::list32_view> &it, int which, std::uint32_t index) { edit_doubly(it, which, index); }

void edit_own(lists<ic::stack_view> &it, int which, std::uint32_t index) {
    const ic::stack_view view = it.view(which), rest = it.view(1 - which);
    auto &plain = it.plain[which], &other = it.plain[1 - which];
    const std::uint32_t place = below(places + 1), before = index ? *std::next(view.begin(), index - 1) : ic::none;
    const ic::status linking = to_link(view, place);
    const auto member = std::next(plain.begin(), index);
    const bool is_end = member == plain.end();
    if (below(16) == 0) {
        sort_and_merge(it, which);
    } else if (below(2)) {
        if (made(view.insert_after(before, place), linking))
            plain.insert(member, place);
    } else if (below(2)) {
        if (is_end || below(2))
            expect_taken(view.remove_after(before), is_end ? std::nullopt : std::optional(*member));
        else
            made(view.remove(*member), ic::status::ok);
        if (!is_end)
            plain.erase(member);
    } else if (other.empty()) {
        if (made(view.split_after(before, rest), ic::status::ok))
            other.splice(other.begin(), plain, member, plain.end());
    } else if (made(view.splice_after(before, rest), ic::status::ok))
        plain.splice(member, other);
}

void edit_own(lists<ic::xor_view> &it, int which, std::uint32_t index) {
    const ic::xor_view view = it.view(which), rest = it.view(1 - which);
    auto &plain = it.plain[which], &other = it.plain[1 - which];
    const auto at = std::next(view.begin(), index);
    const std::uint32_t place = below(places + 1), before = index ? *std::prev(at) : ic::none;
    const ic::status linking = to_link(view, place);
    if (below(2)) {
        view.reverse();
        plain.reverse();
    } else if (at != view.end() && below(2)) {
        if (below(4) == 0 && made(view.remove(before, *at), ic::status::ok))
            plain.erase(std::next(plain.begin(), index));
        else if (view.is_linked(*at) && made(view.replace(before, *at, place), linking))
            *std::next(plain.begin(), index) = place;
    } else if (other.empty() && made(view.split_between(before, *at, rest), ic::status::ok))
        other.splice(other.begin(), plain, std::next(plain.begin(), index), plain.end());
}

/// Lists of words of 4 bytes have no fills.
void fill(lists<ic::list32_view> &, int) {}

/// Links a run of places, which the first one of them that is refused refuses.
template <class View>
void fill(lists<View> &it, int which) {
    const View view = it.view(which);
    auto &plain = it.plain[which];
    const std::uint32_t first = below(places + 1), count = below(4);
    ic::status linking = ic::status::ok;
    for (std::uint32_t place = first; place < first + count && linking == ic::status::ok; place++)
        linking = to_link(view, place);
    const auto behind = View::kind::is_bidirectional ? plain.end() : plain.begin();
    if (made(view.fill(first, count), linking))
        for (std::uint32_t place = first; place < first + count; place++)
            plain.insert(behind, place);
}

template <class View>
void step(lists<View> &it) {
    const int which = static_cast<int>(below(2));
    const std::uint32_t index = below(static_cast<std::uint32_t>(it.plain[which].size()) + 1), call = below(11);
    if (below(12) == 0)
        fill(it, which);
    else if (call < 6)
        edit(it, which, index, call);
    else if (call == 6)
        edit_own(it, which, index);
    else if constexpr (View::kind::is_bidirectional)
        edit_two_way(it, which, index, call - 7);
    it.check_both();
}

// ---- Trees ---------------------------------------------------------------------------------------------------------------------------

struct trees {
    std::vector<ic_link3> table = std::vector<ic_link3>(places);
    std::vector<std::uint64_t> keys = std::vector<std::uint64_t>(places);
    ic_tree heads[2] = {};
    std::multimap<std::uint64_t, std::uint32_t> plain[2];

    ic::tree_view view(int which) { return {table, heads[which]}; }

    /// The member at a position of a plain tree.
    std::optional<std::uint32_t> at(int which, std::multimap<std::uint64_t, std::uint32_t>::iterator member) {
        return member == plain[which].end() ? std::nullopt : std::optional(member->second);
    }

    void check_both() {
        for (int which : {0, 1}) {
            std::list<std::uint32_t> members;
            for (const auto &[key, place] : plain[which])
                members.push_back(place);
            check(view(which), members);
        }
    }
};

void search(trees &it, int which) {
    const ic::const_tree_view view = it.view(which);
    auto &plain = it.plain[which];
    const std::uint64_t key = below(8) ? below(12) : below(2) ? UINT64_MAX : any();
    const auto lower = plain.lower_bound(key), upper = plain.upper_bound(key);
    expect(view.lower_bound(it.keys, key) == it.at(which, lower), "lower_bound finds another member");
    expect(view.upper_bound(it.keys, key) == it.at(which, upper), "upper_bound finds another member");
    expect(view.find(it.keys, key) == (lower != upper ? it.at(which, lower) : std::nullopt), "find finds another member");
    expect(view.at_most(it.keys, key) == (upper != plain.begin() ? it.at(which, std::prev(upper)) : std::nullopt), "at_most is wrong");
    expect(view.partition_point([&](std::uint32_t at) { return it.keys[at] < key; }) == it.at(which, lower), "partition_point is wrong");
    const auto order = [&](std::uint32_t at) { return (key > it.keys[at]) - (key < it.keys[at]); };
    expect(view.find_by(order) == view.find(it.keys, key), "find_by finds another member");
    const auto [first, last] = view.equal_range(it.keys, key);
    expect(std::equal(first, last, lower, upper, [](std::uint32_t at, const auto &member) { return at == member.second; }),
           "equal_range has other members");
    expect(!view.find({it.keys.data(), places - 1}, key), "find takes fewer keys than places");
}

void insert(trees &it, int which) {
    const ic::tree_view view = it.view(which);
    const std::uint32_t place = below(places + 1);
    const ic::status linking = to_link(view, place);
    if (linking == ic::status::ok)
        it.keys[place] = below(12);
    const auto is_less = [&](std::uint32_t one, std::uint32_t other) { return it.keys[one] < it.keys[other]; };
    if (made(below(2) ? view.insert(it.keys, place) : view.insert_by(place, is_less), linking))
        it.plain[which].emplace(it.keys[place], place);
}

/// Inserts a place if no member has its key.
void insert_unique(trees &it, int which) {
    const ic::tree_view view = it.view(which);
    const std::uint32_t place = below(places + 1);
    const ic::status linking = to_link(view, place);
    if (linking == ic::status::ok)
        it.keys[place] = below(12);
    const auto equal = place < places ? it.plain[which].find(it.keys[place]) : it.plain[which].end();
    const bool is_there = equal != it.plain[which].end();
    expect_taken(view.insert_unique(it.keys, place),
                 linking != ic::status::ok ? std::nullopt : is_there ? it.at(which, it.plain[which].lower_bound(it.keys[place])) : std::optional(place));
    if (linking == ic::status::ok && !is_there)
        it.plain[which].emplace(it.keys[place], place);
}

/// Replaces a member by a place with its key.
void replace(trees &it, int which, std::multimap<std::uint64_t, std::uint32_t>::iterator member) {
    const ic::tree_view view = it.view(which);
    const std::uint32_t place = below(places + 1);
    const ic::status linking = to_link(view, place);
    if (member == it.plain[which].end())
        return;
    if (linking == ic::status::ok)
        it.keys[place] = member->first;
    if (made(view.replace(member->second, place), linking))
        member->second = place;
}

/// Takes some members off, and puts those of one tree into the other.
void sweep(trees &it, int which) {
    const ic::tree_view view = it.view(which), other = it.view(1 - which);
    const std::uint32_t mask = static_cast<std::uint32_t>(any());
    made(view.remove_if([&](std::uint32_t at) { return (mask >> at & 1) != 0; },
                        [&](std::uint32_t at) { made(other.insert(it.keys, at), ic::status::ok); }), ic::status::ok);
    for (auto member = it.plain[which].begin(); member != it.plain[which].end();)
        if (mask >> member->second & 1) {
            it.plain[1 - which].insert(*member);
            member = it.plain[which].erase(member);
        } else
            ++member;
}

/// Cuts a tree before a member, or moves all of the other tree after it, with or without a place between them.
void move_all(trees &it, int which, std::multimap<std::uint64_t, std::uint32_t>::iterator member) {
    const ic::tree_view view = it.view(which), other = it.view(1 - which);
    auto &plain = it.plain[which], &given = it.plain[1 - which];
    if (below(2)) {
        const bool is_end = member == plain.end();
        if (made(view.split(is_end ? ic::none : member->second, other), is_end ? ic::status::null : given.empty() ? ic::status::ok : ic::status::broken)) {
            given.insert(member, plain.end());
            plain.erase(member, plain.end());
        }
        return;
    }
    const std::uint64_t last = plain.empty() ? 0 : std::prev(plain.end())->first;
    std::multimap<std::uint64_t, std::uint32_t> raised;
    for (const auto &[key, place] : given)
        raised.emplace(it.keys[place] = std::max(key, last), place);
    given = raised;
    expect(view.append(view) == ic::status::broken, "append takes the tree itself");
    if (below(2)) {
        const std::uint32_t place = below(places + 1);
        const ic::status linking = to_link(view, place);
        if (!made(view.join(place, other), linking))
            return;
        plain.emplace(it.keys[place] = last, place);
    } else {
        made(view.append(other), ic::status::ok);
    }
    plain.insert(given.begin(), given.end());
    given.clear();
}

void step(trees &it) {
    const int which = static_cast<int>(below(2));
    const ic::tree_view view = it.view(which);
    auto &plain = it.plain[which];
    const std::uint32_t index = below(static_cast<std::uint32_t>(plain.size()) + 1);
    auto at = std::next(view.begin(), index);
    const auto member = std::next(plain.begin(), index);
    switch (below(8)) {
    case 0:
        expect_taken(view.pop_front(), it.at(which, plain.begin()));
        plain.erase(plain.begin(), plain.empty() ? plain.end() : std::next(plain.begin()));
        break;
    case 1:
        expect_taken(view.pop_back(), plain.empty() ? std::nullopt : it.at(which, std::prev(plain.end())));
        plain.erase(plain.empty() ? plain.end() : std::prev(plain.end()), plain.end());
        break;
    case 2:
        if (made(view.erase(at), member == plain.end() ? ic::status::null : ic::status::ok))
            expect((at == view.end() ? std::nullopt : std::optional(*at)) == it.at(which, plain.erase(member)), "erase has not gone on");
        break;
    case 3:
        if (below(4) == 0)
            sweep(it, which);
        else
            search(it, which);
        break;
    case 4: replace(it, which, member); break;
    case 5:
        if (below(8))
            move_all(it, which, member);
        else if (made(view.clear(), ic::status::ok))
            plain.clear();
        break;
    case 6: insert_unique(it, which); break;
    default: insert(it, which);
    }
    it.check_both();
}

/// A tree that keeps its ends.
struct ended {
    std::vector<ic_link3> table = std::vector<ic_link3>(places);
    std::vector<std::uint64_t> keys = std::vector<std::uint64_t>(places);
    ic_tree head = {};
    ic_tree_ends ends = {};
    std::multimap<std::uint64_t, std::uint32_t> plain;
};

void step(ended &it) {
    const ic::tree_ends_view view{it.table, it.head, it.ends};
    const auto member = std::next(it.plain.begin(), below(static_cast<std::uint32_t>(it.plain.size()) + 1));
    const bool is_end = member == it.plain.end();
    const std::uint32_t place = below(places + 1), at = is_end ? ic::none : member->second, mask = static_cast<std::uint32_t>(any() & any());
    const ic::status linking = to_link(view, place);
    if (linking == ic::status::ok)
        it.keys[place] = is_end ? below(12) : member->first;
    switch (below(7)) {
    case 0:
        expect_taken(view.pop_front(), is_end && it.plain.empty() ? std::nullopt : std::optional(it.plain.begin()->second));
        it.plain.erase(it.plain.begin(), it.plain.empty() ? it.plain.end() : std::next(it.plain.begin()));
        break;
    case 1:
        if (made(below(2) ? view.remove(at) : view.erase(view.iterator_to(at)), is_end ? ic::status::null : ic::status::ok))
            it.plain.erase(member);
        break;
    case 2:
        if (!is_end && made(view.replace(at, place), linking))
            member->second = place;
        break;
    case 3:
        if (below(8) == 0 && made(view.clear(), ic::status::ok))
            it.plain.clear();
        else if (made(view.remove_if([&](std::uint32_t one) { return (mask >> one & 1) != 0; }), ic::status::ok))
            for (auto one = it.plain.begin(); one != it.plain.end();)
                one = mask >> one->second & 1 ? it.plain.erase(one) : std::next(one);
        break;
    default:
        if (made(view.insert(it.keys, place), linking))
            it.plain.emplace(it.keys[place], place);
    }
    std::list<std::uint32_t> members;
    for (const auto &[key, one] : it.plain)
        members.push_back(one);
    check(view, members);
}

// ---- Rings ---------------------------------------------------------------------------------------------------------------------------

/// Two rings, whose heads are the last places of the table, beside lists of the standard library. Those of words of 4 bytes have no checks, sorts
/// and merges.
template <class View, class Reads, class Link>
struct rings {
    static constexpr bool is_wide = std::is_same_v<View, ic::ring_view>;
    std::vector<Link> table = std::vector<Link>(places + 2);
    std::list<std::uint32_t> plain[2];

    rings() {
        expect(view().init(head(0)) == ic::status::ok && view().init(head(1)) == ic::status::ok, "a ring is not opened");
    }
    static std::uint32_t head(int which) { return places + static_cast<std::uint32_t>(which); }
    View view() { return {table}; }

    void check() {
        for (int which : {0, 1}) {
            const auto reads = Reads(table).members(head(which));
            expect(std::equal(reads.begin(), reads.end(), plain[which].begin(), plain[which].end()), "a loop over a ring has other members");
            expect(std::equal(reads.rbegin(), reads.rend(), plain[which].rbegin(), plain[which].rend()), "a loop back over a ring has other members");
            expect(reads.iterator_to(head(which)) == reads.end(), "a head is a member of its ring");
            if constexpr (is_wide)
                expect(reads.check() == plain[which].size() && view().check(head(which)) == reads.check(), "a check counts other members of a ring");
            auto member = plain[which].begin();
            view().for_each(head(which), [&](std::uint32_t place) { expect(place == *member++, "a ring has another member"); });
            expect(member == plain[which].end() && view().empty(head(which)) == plain[which].empty(), "a ring has other members");
            expect(view().prev(head(which)) == (plain[which].empty() ? head(which) : plain[which].back()), "a ring ends with another member");
        }
    }
};

/// Two members of a ring change their places, or all from one on go to the front of the other ring, or to its back.
template <class Rings>
void swap_or_move(Rings &it, int which, std::list<std::uint32_t>::iterator member) {
    const auto view = it.view();
    auto &plain = it.plain[which], &other = it.plain[1 - which];
    const std::uint32_t head = Rings::head(1 - which);
    if (member == plain.end())
        return;
    switch (below(3)) {
    case 0:
        if (made(view.swap(*member, plain.front()), ic::status::ok))
            std::iter_swap(member, plain.begin());
        break;
    case 1:
        if (made(view.move_range_after(head, *member, plain.back()), ic::status::ok))
            other.splice(other.begin(), plain, member, plain.end());
        break;
    default:
        if (made(view.move_range_before(head, *member, plain.back()), ic::status::ok))
            other.splice(other.end(), plain, member, plain.end());
    }
}

/// Sorts the members of a head, and merges those of the other one into them, as the standard library does.
template <class Rings>
void sort(Rings &it, int which) {
    const auto view = it.view();
    const std::vector<std::uint64_t> keys = some_keys(places + 2);
    const std::uint32_t head = Rings::head(which), other = Rings::head(1 - which);
    const auto is_less = [&](std::uint32_t one, std::uint32_t two) { return keys[one] < keys[two]; };
    made(view.sort({keys.data(), keys.size() - 1}, head), ic::status::out_of_range);
    made(view.members(ic::none).sort(keys), ic::status::null);
    if (made(below(2) ? view.sort(keys, head) : view.members(head).sort(keys), ic::status::ok))
        it.plain[which].sort(is_less);
    if (below(4) || !made(view.sort(keys, other), ic::status::ok))
        return;
    it.plain[1 - which].sort(is_less);
    made(view.members(head).merge(keys, view.members(head)), ic::status::broken);
    if (made(below(2) ? view.merge(keys, head, other) : view.members(head).merge(keys, view.members(other)), ic::status::ok))
        it.plain[which].merge(it.plain[1 - which], is_less);
}

template <class View, class Reads, class Link>
void step(rings<View, Reads, Link> &it) {
    using Rings = rings<View, Reads, Link>;
    const int which = static_cast<int>(below(2));
    const auto view = it.view();
    auto &plain = it.plain[which], &other = it.plain[1 - which];
    const std::uint32_t place = below(places), head = Rings::head(which);
    const ic::status linking = to_link(view, place);
    const auto member = std::next(plain.begin(), below(static_cast<std::uint32_t>(plain.size()) + 1));
    switch (below(9)) {
    case 0: expect_taken(view.pop_front(head), take_front(plain)); break;
    case 1: expect_taken(view.pop_back(head), take_back(plain)); break;
    case 2:
        if (member != plain.end() && made(view.replace(*member, place), linking))
            *member = place;
        break;
    case 3:
        if (member != plain.end() && made(view.move_after(Rings::head(1 - which), *member), ic::status::ok))
            other.splice(other.begin(), plain, member);
        break;
    case 4:
        if (below(4) == 0 && made(view.splice_before(member == plain.end() ? head : *member, Rings::head(1 - which)), ic::status::ok))
            plain.splice(member, other);
        break;
    case 5:
        if (below(2)) {
            swap_or_move(it, which, member);
            break;
        }
        if (linking == ic::status::linked && made(view.remove(place), ic::status::ok)) {
            plain.remove(place);
            other.remove(place);
        }
        break;
    case 6: {
        const auto members = view.members(head);
        const auto at = member == plain.end() ? members.end() : members.iterator_to(*member);
        if (below(2)) {
            if (made(members.insert(at, place), linking))
                plain.insert(member, place);
        } else if (made(members.erase(at), at == members.end() ? ic::status::null : ic::status::ok))
            plain.erase(member);
        break;
    }
    case 7:
        if constexpr (Rings::is_wide)
            sort(it, which);
        break;
    default:
        if (made(below(2) ? view.insert_before(member == plain.end() ? head : *member, place)
                          : view.insert_after(member == plain.begin() ? head : *std::prev(member), place), linking))
            plain.insert(member, place);
    }
    it.check();
}

// ---- Hash tables -----------------------------------------------------------------------------------------------------------------------

/// A hash table beside a list of the standard library for each of its buckets.
struct chains {
    std::vector<ic_link1> table = std::vector<ic_link1>(places);
    std::vector<ic_stack> buckets = std::vector<ic_stack>(5);
    std::vector<std::uint64_t> keys = std::vector<std::uint64_t>(places);
    std::vector<std::list<std::uint32_t>> plain = std::vector<std::list<std::uint32_t>>(5);

    ic::hash_view view() { return {table, buckets}; }

    std::vector<std::uint64_t> all_hashes() const {
        std::vector<std::uint64_t> hashes;
        for (const std::uint64_t key : keys)
            hashes.push_back(key * 7);
        return hashes;
    }

    void check() {
        std::vector<std::uint32_t> all, gathered;
        view().for_each([&](std::uint32_t place) { all.push_back(place); });
        for (std::size_t i = 0; i < plain.size(); i++) {
            gathered.insert(gathered.end(), plain[i].begin(), plain[i].end());
            expect(view().chain(i).front() == (plain[i].empty() ? std::nullopt : std::optional(plain[i].front())), "a chain has another first member");
        }
        expect(all == gathered, "a hash table has other members");
        const ic::const_hash_view reads(table, buckets);
        expect(std::equal(reads.begin(), reads.end(), all.begin(), all.end()) && reads.empty() == all.empty(), "a loop over a hash table has other members");
        check_hashes(reads, all);
    }

    /// The check counts the members by their hashes, and refuses a member with another hash.
    void check_hashes(const ic::const_hash_view &reads, const std::vector<std::uint32_t> &all) {
        std::vector<std::uint64_t> hashes = all_hashes();
        expect(reads.check(hashes) == all.size(), "a check counts other members of a hash table");
        if (!all.empty()) {
            hashes[all.back()]++;
            expect(reads.check(hashes) == std::nullopt, "a check accepts a member in the wrong bucket");
        }
        hashes.pop_back();
        expect(reads.check(hashes) == std::nullopt, "a check accepts too few hashes");
    }
};

/// Moves all members to the buckets of a view. Those of one chain keep their order, before those that are there.
void move_all(std::vector<ic_stack> &from, const ic::hash_view &to, const std::vector<std::uint64_t> &hashes, std::vector<std::list<std::uint32_t>> &plain,
              std::vector<std::list<std::uint32_t>> &gathered) {
    for (std::size_t i = 0; i < from.size(); i++) {
        made(to.move_chain({hashes.data(), hashes.size() - 1}, from[i]), ic::status::out_of_range);
        made(to.move_chain(hashes, from[i]), ic::status::ok);
        expect(from[i].head == 0, "a chain that has moved is not empty");
        for (std::size_t bucket = 0; bucket < gathered.size(); bucket++) {
            std::list<std::uint32_t> moved = plain[i];
            moved.remove_if([&](std::uint32_t at) { return hashes[at] % gathered.size() != bucket; });
            gathered[bucket].splice(gathered[bucket].begin(), moved);
        }
        plain[i].clear();
    }
}

/// Moves all members to three buckets, and back.
void shrink_and_grow(chains &it) {
    const std::vector<std::uint64_t> hashes = it.all_hashes();
    std::vector<ic_stack> few(3);
    std::vector<std::list<std::uint32_t>> plain(3);
    made(it.view().move_chain(hashes, it.buckets[4]), ic::status::broken);
    move_all(it.buckets, {it.table, few}, hashes, it.plain, plain);
    expect(it.view().empty() && ic::const_hash_view(it.table, few).check(hashes) != std::nullopt, "the members have not all moved");
    move_all(few, it.view(), hashes, plain, it.plain);
}

void step(chains &it) {
    const ic::hash_view view = it.view();
    const std::uint32_t place = below(places);
    const bool is_linked = (it.table[place].next & 1) != 0;
    const std::uint64_t key = below(8), hash = key * 7;
    auto &plain = it.plain[static_cast<std::size_t>(hash % 5)];
    const auto has_key = [&](std::uint32_t at) { return it.keys[at] == key; };
    const auto found = std::find_if(plain.begin(), plain.end(), has_key);
    const auto first = found == plain.end() ? std::nullopt : std::optional(*found);
    switch (below(6)) {
    case 4: shrink_and_grow(it); break;
    case 0:
        if (!is_linked)
            it.keys[place] = key;
        if (made(view.insert(hash, place), is_linked ? ic::status::linked : ic::status::ok))
            plain.push_front(place);
        break;
    case 1: {
        const auto at = std::find(plain.begin(), plain.end(), place);
        if (made(view.remove(hash, place), !is_linked ? ic::status::not_linked : at == plain.end() ? ic::status::broken : ic::status::ok))
            plain.erase(at);
        break;
    }
    case 2: {
        const std::uint32_t mask = static_cast<std::uint32_t>(any() & any() & any());
        made(view.remove_if([&](std::uint32_t at) { return (mask >> at & 1) != 0; }), ic::status::ok);
        for (auto &members : it.plain)
            members.remove_if([&](std::uint32_t at) { return (mask >> at & 1) != 0; });
        break;
    }
    case 3:
        expect_taken(view.find(it.keys, hash, key), first);
        expect(view.find_by(hash, has_key) == first, "a search by a predicate finds another member");
        break;
    default:
        if (first) {
            const auto next = std::find_if(std::next(found), plain.end(), has_key);
            expect_taken(view.next_equal(it.keys, *first), next == plain.end() ? std::nullopt : std::optional(*next));
        }
    }
    it.check();
}

// ---- Any words -----------------------------------------------------------------------------------------------------------------------

/// Writes random words over some links or heads, most of which lead to a place of a table of this length, or just beyond.
template <class Element>
void spoil(Element *elements, std::size_t count, std::uint32_t length) {
    const auto some = [&] { return ic_word(below(length + 2)) + below(2); };
    for (std::size_t at = 0; at != count * sizeof(Element); at += sizeof(std::uint64_t)) {
        std::uint64_t word = below(8) ? some() : any();
        if constexpr (std::is_same_v<Element, ic_link2_32>)
            word |= some() << 32;
        std::memcpy(reinterpret_cast<char *>(elements) + at, &word, sizeof word);
    }
}

/// Loops forwards, by iterators that were at the end backwards, and by erase, which may be refused.
template <class View>
void check_rounds(const View &view, std::uint32_t count) {
    expect(static_cast<std::uint64_t>(std::distance(view.begin(), view.end())) <= count, "a loop over any words has too many rounds");
    if constexpr (std::is_base_of_v<std::bidirectional_iterator_tag, typename View::iterator::iterator_category>) {
        std::uint32_t rounds = 0;
        for (auto at = view.end(); at != view.begin(); --at)
            expect(++rounds <= count, "a loop from the end over any words has too many rounds");
        rounds = 0;
        for (auto at = view.rend(); at != view.rbegin(); --at)
            expect(++rounds <= count, "a loop from rend over any words has too many rounds");
        expect(static_cast<std::uint64_t>(std::distance(view.rbegin(), view.rend())) <= count, "a loop backwards over any words gives too many places");
    }
    std::uint32_t rounds = 0;
    const bool passes = below(2) != 0;
    for (auto at = view.begin(); at != view.end(); rounds++)
        if (passes)
            view.erase(at++);
        else
            at = view.erase(at);
    expect(rounds <= count, "a loop that erases any words has too many rounds");
}

void check_any_rings() {
    const std::uint32_t count = below(7);
    std::vector<ic_link2> table(count);
    spoil(table.data(), count, count);
    const ic::ring_members view = ic::ring_view(table).members(below(count + 2));
    if (const auto members = view.check())
        expect(*members == static_cast<std::uint64_t>(std::distance(view.begin(), view.end())), "a check counts other members of a ring than a loop");
    check_rounds(view, count);
}

void check_any_hashes() {
    const std::uint32_t count = below(7);
    std::vector<ic_link1> table(count);
    std::vector<ic_stack> buckets(below(4));
    spoil(table.data(), count, count);
    spoil(buckets.data(), buckets.size(), count);
    check_rounds(ic::hash_view(table, buckets), count);
}

template <class View>
void check_any() {
    const std::uint32_t count = below(7);
    std::vector<typename View::link> table(count);
    typename View::head head;
    spoil(table.data(), count, count);
    spoil(&head, 1, count);
    const View view{table, head};
    if (below(2))
        return check_rounds(view, count);
    std::uint32_t rounds = 0;
    for (const std::uint32_t place : view)
        expect(view.is_linked(place) && ++rounds <= count, "a loop over any words gives too many places, or an unlinked one");
    if constexpr (!std::is_same_v<typename View::kind, ic::xor_view::kind>)
        if (const auto members = view.check())
            expect(*members == static_cast<std::uint64_t>(std::distance(view.begin(), view.end())), "a check counts other members than a loop");
    if (const auto popped = view.pop_front())
        expect(*popped < count && !view.is_linked(*popped), "a pop from any words gives a place that is none");
    rounds = 0;
    const ic::status done = view.remove_if([&](std::uint32_t) { return ++rounds % 2 == 0; });
    expect(rounds <= count, "remove_if over any words asks for too many places");
    expect(done == ic::status::ok || !view.empty(), "remove_if from an empty list is refused");
}

} // namespace

int main(int count, char **words) {
    const std::uint64_t wanted = calls_wanted(count, words);
    lists<ic::list_view> doubly;
    lists<ic::list32_view> narrow;
    lists<ic::stack_view> singly;
    lists<ic::xor_view> both;
    trees sorted;
    ended kept;
    rings<ic::ring_view, ic::const_ring_view, ic_link2> circles;
    rings<ic::ring32_view, ic::const_ring32_view, ic_link2_32> narrow_circles;
    chains hashed;
    while (edits < wanted) {
        step(circles);
        step(narrow_circles);
        step(hashed);
        step(doubly);
        step(narrow);
        step(singly);
        step(both);
        step(sorted);
        step(kept);
        check_any<ic::list_view>();
        check_any<ic::list32_view>();
        check_any<ic::stack_view>();
        check_any<ic::xor_view>();
        check_any<ic::tree_view>();
        check_any_rings();
        check_any_hashes();
    }
    std::printf("edits %llu %llu\n", static_cast<unsigned long long>(edits - refused), static_cast<unsigned long long>(refused));
}
