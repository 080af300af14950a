//! The library for C as `include/ic.h` declares it, with its machine code, which is assembly text. The header says what each call
//! does; the crate `ic` has safe types.
//!
//! A call requires that `table` points to `places` links, `keys` to `key_count` keys, `buckets` to `bucket_count` lists, and each other
//! pointer to one value of its type, that no two of these overlap, and that nothing else uses them during the call. Others may read what is
//! `*const`. It requires nothing of what they hold, nor of the places.

#![no_std]
#![allow(non_camel_case_types)]

#[cfg(target_arch = "x86_64")]
core::arch::global_asm!(include_str!(env!("IC_TEXT")), options(att_syntax, raw));
#[cfg(not(target_arch = "x86_64"))]
core::arch::global_asm!(include_str!(env!("IC_TEXT")), options(raw));

/// Names no place.
pub const IC_NONE: u32 = u32::MAX;

/// The call has made the edit, or has found what it looked for.
pub const IC_OK: u32 = 0;
/// A place is not below `places`, or there are fewer keys, hashes or sums than places, or there is no bucket.
pub const IC_OUT_OF_RANGE: u32 = 1;
/// The place to insert is in a list or tree of this table.
pub const IC_LINKED: u32 = 2;
/// The member that is named is in no list or tree of this table.
pub const IC_NOT_LINKED: u32 = 3;
/// The call needs a member, and there is none.
pub const IC_NULL: u32 = 4;
/// The table, the list or tree, and the members do not belong together.
pub const IC_BROKEN: u32 = 5;

/// A link of a singly linked list or an XOR list.
#[repr(C)]
#[derive(Clone, Copy, Debug, Default, PartialEq, Eq, Hash)]
pub struct ic_link1 {
    pub next: u64,
}

/// A link of a doubly linked list.
#[repr(C)]
#[derive(Clone, Copy, Debug, Default, PartialEq, Eq, Hash)]
pub struct ic_link2 {
    pub next: u64,
    pub prev: u64,
}

/// A link of a ring, in words of 4 bytes.
#[repr(C)]
#[derive(Clone, Copy, Debug, Default, PartialEq, Eq, Hash)]
pub struct ic_link2_32 {
    pub next: u32,
    pub prev: u32,
}

/// A link of a tree: both children, and the parent.
#[repr(C)]
#[derive(Clone, Copy, Debug, Default, PartialEq, Eq, Hash)]
pub struct ic_link3 {
    pub left: u64,
    pub right: u64,
    pub parent: u64,
}

/// A singly linked list.
#[repr(C)]
#[derive(Clone, Copy, Debug, Default, PartialEq, Eq, Hash)]
pub struct ic_stack {
    pub head: u64,
}

/// A doubly linked list.
#[repr(C)]
#[derive(Clone, Copy, Debug, Default, PartialEq, Eq, Hash)]
pub struct ic_list {
    pub head: u64,
    pub tail: u64,
}

/// An XOR list.
#[repr(C)]
#[derive(Clone, Copy, Debug, Default, PartialEq, Eq, Hash)]
pub struct ic_xor_list {
    pub head: u64,
    pub tail: u64,
}

/// A red-black tree.
#[repr(C)]
#[derive(Clone, Copy, Debug, Default, PartialEq, Eq, Hash)]
pub struct ic_tree {
    pub root: u64,
}

/// The first and the last member of a red-black tree.
#[repr(C)]
#[derive(Clone, Copy, Debug, Default, PartialEq, Eq, Hash)]
pub struct ic_tree_ends {
    pub first: u64,
    pub last: u64,
}

/// What a tree with sums has for each place beside its link: a value that you write, and a sum that calls write.
#[repr(C)]
#[derive(Clone, Copy, Debug, Default, PartialEq, Eq, Hash)]
pub struct ic_sum {
    pub value: u64,
    pub sum: u64,
}

/// What values make together: their sum, which is at most `u64::MAX`.
pub const IC_SUM: u32 = 0;
/// What values make together: the greatest of them.
pub const IC_GREATEST: u32 = 1;

/// The number of a place in a word, or 0 for `IC_NONE`.
#[inline]
#[must_use]
pub const fn ic_word(place: u32) -> u64 {
    place.wrapping_add(1) as u64 * 8
}

/// The place that a word names, or `IC_NONE`.
///
/// The bits 3 to 35 of a word are a place's number, which is one more than the place, and 0 for none. The others count for nothing. A number
/// with the highest of these bits is that of no place in a `u32`, and gives `IC_NONE` too.
#[inline]
#[must_use]
pub const fn ic_place(word: u64) -> u32 {
    let number = word / 8 % (1 << 33);
    if number > IC_NONE as u64 {
        return IC_NONE;
    }
    (number as u32).wrapping_sub(1)
}

extern "C" {
    // Made by tools/c-calls --write: list list-fill list-keys list-transfer list32 ring ring-check ring-keys ring32 stack stack-keys hash hash-growth xor tree tree-keys tree-steps tree-ends tree-sums
    pub fn ic_list_push_front(table: *mut ic_link2, places: usize, list: *mut ic_list, place: u32) -> u32;
    pub fn ic_list_push_back(table: *mut ic_link2, places: usize, list: *mut ic_list, place: u32) -> u32;
    pub fn ic_list_pop_front(table: *mut ic_link2, places: usize, list: *mut ic_list, popped: *mut u32) -> u32;
    pub fn ic_list_pop_back(table: *mut ic_link2, places: usize, list: *mut ic_list, popped: *mut u32) -> u32;
    pub fn ic_list_insert_after(table: *mut ic_link2, places: usize, list: *mut ic_list, at: u32, place: u32) -> u32;
    pub fn ic_list_insert_before(table: *mut ic_link2, places: usize, list: *mut ic_list, at: u32, place: u32) -> u32;
    pub fn ic_list_remove(table: *mut ic_link2, places: usize, list: *mut ic_list, at: u32) -> u32;
    pub fn ic_list_replace(table: *mut ic_link2, places: usize, list: *mut ic_list, at: u32, place: u32) -> u32;
    pub fn ic_list_move_after(table: *mut ic_link2, places: usize, list: *mut ic_list, at: u32, place: u32) -> u32;
    pub fn ic_list_move_before(table: *mut ic_link2, places: usize, list: *mut ic_list, at: u32, place: u32) -> u32;
    pub fn ic_list_move_to_front(table: *mut ic_link2, places: usize, list: *mut ic_list, place: u32) -> u32;
    pub fn ic_list_move_to_back(table: *mut ic_link2, places: usize, list: *mut ic_list, place: u32) -> u32;
    pub fn ic_list_splice_after(
        table: *mut ic_link2,
        places: usize,
        list: *mut ic_list,
        at: u32,
        given: *mut ic_list,
    ) -> u32;
    pub fn ic_list_splice_before(
        table: *mut ic_link2,
        places: usize,
        list: *mut ic_list,
        at: u32,
        given: *mut ic_list,
    ) -> u32;
    pub fn ic_list_append(table: *mut ic_link2, places: usize, list: *mut ic_list, given: *mut ic_list) -> u32;
    pub fn ic_list32_push_front(table: *mut ic_link2_32, places: usize, list: *mut ic_list, place: u32) -> u32;
    pub fn ic_list32_push_back(table: *mut ic_link2_32, places: usize, list: *mut ic_list, place: u32) -> u32;
    pub fn ic_list32_pop_front(table: *mut ic_link2_32, places: usize, list: *mut ic_list, popped: *mut u32) -> u32;
    pub fn ic_list32_pop_back(table: *mut ic_link2_32, places: usize, list: *mut ic_list, popped: *mut u32) -> u32;
    pub fn ic_list32_insert_after(
        table: *mut ic_link2_32,
        places: usize,
        list: *mut ic_list,
        at: u32,
        place: u32,
    ) -> u32;
    pub fn ic_list32_insert_before(
        table: *mut ic_link2_32,
        places: usize,
        list: *mut ic_list,
        at: u32,
        place: u32,
    ) -> u32;
    pub fn ic_list32_remove(table: *mut ic_link2_32, places: usize, list: *mut ic_list, at: u32) -> u32;
    pub fn ic_list32_replace(table: *mut ic_link2_32, places: usize, list: *mut ic_list, at: u32, place: u32) -> u32;
    pub fn ic_list32_move_after(table: *mut ic_link2_32, places: usize, list: *mut ic_list, at: u32, place: u32)
        -> u32;
    pub fn ic_list32_move_before(
        table: *mut ic_link2_32,
        places: usize,
        list: *mut ic_list,
        at: u32,
        place: u32,
    ) -> u32;
    pub fn ic_list32_move_to_front(table: *mut ic_link2_32, places: usize, list: *mut ic_list, place: u32) -> u32;
    pub fn ic_list32_move_to_back(table: *mut ic_link2_32, places: usize, list: *mut ic_list, place: u32) -> u32;
    pub fn ic_list32_splice_after(
        table: *mut ic_link2_32,
        places: usize,
        list: *mut ic_list,
        at: u32,
        given: *mut ic_list,
    ) -> u32;
    pub fn ic_list32_splice_before(
        table: *mut ic_link2_32,
        places: usize,
        list: *mut ic_list,
        at: u32,
        given: *mut ic_list,
    ) -> u32;
    pub fn ic_list32_append(table: *mut ic_link2_32, places: usize, list: *mut ic_list, given: *mut ic_list) -> u32;
    pub fn ic_list_fill(table: *mut ic_link2, places: usize, list: *mut ic_list, first: u32, count: u32) -> u32;
    pub fn ic_list_clear(table: *mut ic_link2, places: usize, list: *mut ic_list) -> u32;
    pub fn ic_list_split_after(
        table: *mut ic_link2,
        places: usize,
        list: *mut ic_list,
        at: u32,
        rest: *mut ic_list,
    ) -> u32;
    pub fn ic_list_split_before(
        table: *mut ic_link2,
        places: usize,
        list: *mut ic_list,
        at: u32,
        rest: *mut ic_list,
    ) -> u32;
    pub fn ic_list_check(table: *const ic_link2, places: usize, list: *const ic_list, members: *mut u64) -> u32;
    pub fn ic_list32_clear(table: *mut ic_link2_32, places: usize, list: *mut ic_list) -> u32;
    pub fn ic_list32_split_after(
        table: *mut ic_link2_32,
        places: usize,
        list: *mut ic_list,
        at: u32,
        rest: *mut ic_list,
    ) -> u32;
    pub fn ic_list32_split_before(
        table: *mut ic_link2_32,
        places: usize,
        list: *mut ic_list,
        at: u32,
        rest: *mut ic_list,
    ) -> u32;
    pub fn ic_list32_check(table: *const ic_link2_32, places: usize, list: *const ic_list, members: *mut u64) -> u32;
    pub fn ic_list_sort(
        table: *mut ic_link2,
        places: usize,
        keys: *const u64,
        key_count: usize,
        list: *mut ic_list,
    ) -> u32;
    pub fn ic_list_merge(
        table: *mut ic_link2,
        places: usize,
        keys: *const u64,
        key_count: usize,
        list: *mut ic_list,
        given: *mut ic_list,
    ) -> u32;
    pub fn ic_list_transfer_after(
        table: *mut ic_link2,
        places: usize,
        list: *mut ic_list,
        at: u32,
        given: *mut ic_list,
        place: u32,
    ) -> u32;
    pub fn ic_list_transfer_before(
        table: *mut ic_link2,
        places: usize,
        list: *mut ic_list,
        at: u32,
        given: *mut ic_list,
        place: u32,
    ) -> u32;
    pub fn ic_list32_transfer_after(
        table: *mut ic_link2_32,
        places: usize,
        list: *mut ic_list,
        at: u32,
        given: *mut ic_list,
        place: u32,
    ) -> u32;
    pub fn ic_list32_transfer_before(
        table: *mut ic_link2_32,
        places: usize,
        list: *mut ic_list,
        at: u32,
        given: *mut ic_list,
        place: u32,
    ) -> u32;
    pub fn ic_ring_init(table: *mut ic_link2, places: usize, head: u32) -> u32;
    pub fn ic_ring_insert_after(table: *mut ic_link2, places: usize, at: u32, place: u32) -> u32;
    pub fn ic_ring_insert_before(table: *mut ic_link2, places: usize, at: u32, place: u32) -> u32;
    pub fn ic_ring_remove(table: *mut ic_link2, places: usize, place: u32) -> u32;
    pub fn ic_ring_exchange(table: *mut ic_link2, places: usize, one: u32, other: u32) -> u32;
    pub fn ic_ring_pop_front(table: *mut ic_link2, places: usize, head: u32, popped: *mut u32) -> u32;
    pub fn ic_ring_pop_back(table: *mut ic_link2, places: usize, head: u32, popped: *mut u32) -> u32;
    pub fn ic_ring_replace(table: *mut ic_link2, places: usize, at: u32, place: u32) -> u32;
    pub fn ic_ring_move_after(table: *mut ic_link2, places: usize, at: u32, place: u32) -> u32;
    pub fn ic_ring_move_before(table: *mut ic_link2, places: usize, at: u32, place: u32) -> u32;
    pub fn ic_ring_splice_after(table: *mut ic_link2, places: usize, at: u32, head: u32) -> u32;
    pub fn ic_ring_splice_before(table: *mut ic_link2, places: usize, at: u32, head: u32) -> u32;
    pub fn ic_ring32_init(table: *mut ic_link2_32, places: usize, head: u32) -> u32;
    pub fn ic_ring32_insert_after(table: *mut ic_link2_32, places: usize, at: u32, place: u32) -> u32;
    pub fn ic_ring32_insert_before(table: *mut ic_link2_32, places: usize, at: u32, place: u32) -> u32;
    pub fn ic_ring32_remove(table: *mut ic_link2_32, places: usize, place: u32) -> u32;
    pub fn ic_ring32_exchange(table: *mut ic_link2_32, places: usize, one: u32, other: u32) -> u32;
    pub fn ic_ring32_pop_front(table: *mut ic_link2_32, places: usize, head: u32, popped: *mut u32) -> u32;
    pub fn ic_ring32_pop_back(table: *mut ic_link2_32, places: usize, head: u32, popped: *mut u32) -> u32;
    pub fn ic_ring32_replace(table: *mut ic_link2_32, places: usize, at: u32, place: u32) -> u32;
    pub fn ic_ring32_move_after(table: *mut ic_link2_32, places: usize, at: u32, place: u32) -> u32;
    pub fn ic_ring32_move_before(table: *mut ic_link2_32, places: usize, at: u32, place: u32) -> u32;
    pub fn ic_ring32_splice_after(table: *mut ic_link2_32, places: usize, at: u32, head: u32) -> u32;
    pub fn ic_ring32_splice_before(table: *mut ic_link2_32, places: usize, at: u32, head: u32) -> u32;
    pub fn ic_ring_check(table: *const ic_link2, places: usize, head: u32, members: *mut u64) -> u32;
    pub fn ic_ring_sort(table: *mut ic_link2, places: usize, keys: *const u64, key_count: usize, head: u32) -> u32;
    pub fn ic_ring_merge(
        table: *mut ic_link2,
        places: usize,
        keys: *const u64,
        key_count: usize,
        head: u32,
        given: u32,
    ) -> u32;
    pub fn ic_stack_push_front(table: *mut ic_link1, places: usize, list: *mut ic_stack, place: u32) -> u32;
    pub fn ic_stack_pop_front(table: *mut ic_link1, places: usize, list: *mut ic_stack, popped: *mut u32) -> u32;
    pub fn ic_stack_insert_after(table: *mut ic_link1, places: usize, list: *mut ic_stack, at: u32, place: u32) -> u32;
    pub fn ic_stack_remove_after(
        table: *mut ic_link1,
        places: usize,
        list: *mut ic_stack,
        at: u32,
        removed: *mut u32,
    ) -> u32;
    pub fn ic_stack_replace_after(
        table: *mut ic_link1,
        places: usize,
        list: *mut ic_stack,
        at: u32,
        place: u32,
        replaced: *mut u32,
    ) -> u32;
    pub fn ic_stack_splice_after(
        table: *mut ic_link1,
        places: usize,
        list: *mut ic_stack,
        at: u32,
        given: *mut ic_stack,
    ) -> u32;
    pub fn ic_stack_split_after(
        table: *mut ic_link1,
        places: usize,
        list: *mut ic_stack,
        at: u32,
        rest: *mut ic_stack,
    ) -> u32;
    pub fn ic_stack_fill(table: *mut ic_link1, places: usize, list: *mut ic_stack, first: u32, count: u32) -> u32;
    pub fn ic_stack_clear(table: *mut ic_link1, places: usize, list: *mut ic_stack) -> u32;
    pub fn ic_stack_check(table: *const ic_link1, places: usize, list: *const ic_stack, members: *mut u64) -> u32;
    pub fn ic_stack_sort(
        table: *mut ic_link1,
        places: usize,
        keys: *const u64,
        key_count: usize,
        list: *mut ic_stack,
    ) -> u32;
    pub fn ic_stack_merge(
        table: *mut ic_link1,
        places: usize,
        keys: *const u64,
        key_count: usize,
        list: *mut ic_stack,
        given: *mut ic_stack,
    ) -> u32;
    pub fn ic_hash_insert(
        table: *mut ic_link1,
        places: usize,
        buckets: *mut ic_stack,
        bucket_count: usize,
        hash: u64,
        place: u32,
    ) -> u32;
    pub fn ic_hash_remove(
        table: *mut ic_link1,
        places: usize,
        buckets: *mut ic_stack,
        bucket_count: usize,
        hash: u64,
        place: u32,
    ) -> u32;
    pub fn ic_hash_find(
        table: *const ic_link1,
        places: usize,
        keys: *const u64,
        key_count: usize,
        buckets: *const ic_stack,
        bucket_count: usize,
        hash: u64,
        key: u64,
        found: *mut u32,
    ) -> u32;
    pub fn ic_hash_next_equal(
        table: *const ic_link1,
        places: usize,
        keys: *const u64,
        key_count: usize,
        at: u32,
        found: *mut u32,
    ) -> u32;
    pub fn ic_hash_check(
        table: *const ic_link1,
        places: usize,
        hashes: *const u64,
        hash_count: usize,
        buckets: *const ic_stack,
        bucket_count: usize,
        members: *mut u64,
    ) -> u32;
    pub fn ic_xor_push_front(table: *mut ic_link1, places: usize, list: *mut ic_xor_list, place: u32) -> u32;
    pub fn ic_xor_push_back(table: *mut ic_link1, places: usize, list: *mut ic_xor_list, place: u32) -> u32;
    pub fn ic_xor_pop_front(table: *mut ic_link1, places: usize, list: *mut ic_xor_list, popped: *mut u32) -> u32;
    pub fn ic_xor_pop_back(table: *mut ic_link1, places: usize, list: *mut ic_xor_list, popped: *mut u32) -> u32;
    pub fn ic_xor_insert_between(
        table: *mut ic_link1,
        places: usize,
        list: *mut ic_xor_list,
        before: u32,
        place: u32,
        after: u32,
    ) -> u32;
    pub fn ic_xor_remove(table: *mut ic_link1, places: usize, list: *mut ic_xor_list, before: u32, at: u32) -> u32;
    pub fn ic_xor_replace(
        table: *mut ic_link1,
        places: usize,
        list: *mut ic_xor_list,
        before: u32,
        at: u32,
        place: u32,
    ) -> u32;
    pub fn ic_xor_splice_between(
        table: *mut ic_link1,
        places: usize,
        list: *mut ic_xor_list,
        before: u32,
        given: *mut ic_xor_list,
        after: u32,
    ) -> u32;
    pub fn ic_xor_append(table: *mut ic_link1, places: usize, list: *mut ic_xor_list, given: *mut ic_xor_list) -> u32;
    pub fn ic_xor_fill(table: *mut ic_link1, places: usize, list: *mut ic_xor_list, first: u32, count: u32) -> u32;
    pub fn ic_xor_clear(table: *mut ic_link1, places: usize, list: *mut ic_xor_list) -> u32;
    pub fn ic_xor_split_between(
        table: *mut ic_link1,
        places: usize,
        list: *mut ic_xor_list,
        before: u32,
        after: u32,
        rest: *mut ic_xor_list,
    ) -> u32;
    pub fn ic_xor_reverse(list: *mut ic_xor_list) -> u32;
    pub fn ic_tree_insert_left(table: *mut ic_link3, places: usize, tree: *mut ic_tree, at: u32, place: u32) -> u32;
    pub fn ic_tree_insert_right(table: *mut ic_link3, places: usize, tree: *mut ic_tree, at: u32, place: u32) -> u32;
    pub fn ic_tree_remove(table: *mut ic_link3, places: usize, tree: *mut ic_tree, at: u32) -> u32;
    pub fn ic_tree_replace(table: *mut ic_link3, places: usize, tree: *mut ic_tree, at: u32, place: u32) -> u32;
    pub fn ic_tree_append(table: *mut ic_link3, places: usize, tree: *mut ic_tree, given: *mut ic_tree) -> u32;
    pub fn ic_tree_join(
        table: *mut ic_link3,
        places: usize,
        tree: *mut ic_tree,
        place: u32,
        given: *mut ic_tree,
    ) -> u32;
    pub fn ic_tree_clear(table: *mut ic_link3, places: usize, tree: *mut ic_tree) -> u32;
    pub fn ic_tree_split(table: *mut ic_link3, places: usize, tree: *mut ic_tree, at: u32, rest: *mut ic_tree) -> u32;
    pub fn ic_tree_check(table: *const ic_link3, places: usize, tree: *const ic_tree, members: *mut u64) -> u32;
    pub fn ic_tree_insert(
        table: *mut ic_link3,
        places: usize,
        keys: *const u64,
        key_count: usize,
        tree: *mut ic_tree,
        place: u32,
    ) -> u32;
    pub fn ic_tree_find(
        table: *const ic_link3,
        places: usize,
        keys: *const u64,
        key_count: usize,
        tree: *const ic_tree,
        key: u64,
        found: *mut u32,
    ) -> u32;
    pub fn ic_tree_lower_bound(
        table: *const ic_link3,
        places: usize,
        keys: *const u64,
        key_count: usize,
        tree: *const ic_tree,
        key: u64,
        found: *mut u32,
    ) -> u32;
    pub fn ic_tree_upper_bound(
        table: *const ic_link3,
        places: usize,
        keys: *const u64,
        key_count: usize,
        tree: *const ic_tree,
        key: u64,
        found: *mut u32,
    ) -> u32;
    pub fn ic_tree_next(table: *const ic_link3, places: usize, tree: *const ic_tree, at: u32, found: *mut u32) -> u32;
    pub fn ic_tree_prev(table: *const ic_link3, places: usize, tree: *const ic_tree, at: u32, found: *mut u32) -> u32;
    pub fn ic_tree_ends_insert(
        table: *mut ic_link3,
        places: usize,
        keys: *const u64,
        key_count: usize,
        tree: *mut ic_tree,
        ends: *mut ic_tree_ends,
        place: u32,
    ) -> u32;
    pub fn ic_tree_ends_insert_left(
        table: *mut ic_link3,
        places: usize,
        tree: *mut ic_tree,
        ends: *mut ic_tree_ends,
        at: u32,
        place: u32,
    ) -> u32;
    pub fn ic_tree_ends_insert_right(
        table: *mut ic_link3,
        places: usize,
        tree: *mut ic_tree,
        ends: *mut ic_tree_ends,
        at: u32,
        place: u32,
    ) -> u32;
    pub fn ic_tree_ends_remove(
        table: *mut ic_link3,
        places: usize,
        tree: *mut ic_tree,
        ends: *mut ic_tree_ends,
        at: u32,
    ) -> u32;
    pub fn ic_tree_ends_replace(
        table: *mut ic_link3,
        places: usize,
        tree: *mut ic_tree,
        ends: *mut ic_tree_ends,
        at: u32,
        place: u32,
    ) -> u32;
    pub fn ic_tree_ends_pop_first(
        table: *mut ic_link3,
        places: usize,
        tree: *mut ic_tree,
        ends: *mut ic_tree_ends,
        popped: *mut u32,
    ) -> u32;
    pub fn ic_hash_move_chain(
        table: *mut ic_link1,
        places: usize,
        hashes: *const u64,
        hash_count: usize,
        chain: *mut ic_stack,
        buckets: *mut ic_stack,
        bucket_count: usize,
    ) -> u32;
    pub fn ic_tree_sums_insert(
        table: *mut ic_link3,
        places: usize,
        keys: *const u64,
        key_count: usize,
        sums: *mut ic_sum,
        sum_count: usize,
        kind: u32,
        tree: *mut ic_tree,
        place: u32,
    ) -> u32;
    pub fn ic_tree_sums_insert_left(
        table: *mut ic_link3,
        places: usize,
        sums: *mut ic_sum,
        sum_count: usize,
        kind: u32,
        tree: *mut ic_tree,
        at: u32,
        place: u32,
    ) -> u32;
    pub fn ic_tree_sums_insert_right(
        table: *mut ic_link3,
        places: usize,
        sums: *mut ic_sum,
        sum_count: usize,
        kind: u32,
        tree: *mut ic_tree,
        at: u32,
        place: u32,
    ) -> u32;
    pub fn ic_tree_sums_remove(
        table: *mut ic_link3,
        places: usize,
        sums: *mut ic_sum,
        sum_count: usize,
        kind: u32,
        tree: *mut ic_tree,
        at: u32,
    ) -> u32;
    pub fn ic_tree_sums_renew(
        table: *const ic_link3,
        places: usize,
        sums: *mut ic_sum,
        sum_count: usize,
        kind: u32,
        at: u32,
    ) -> u32;
    pub fn ic_tree_sums_find(
        table: *const ic_link3,
        places: usize,
        sums: *const ic_sum,
        sum_count: usize,
        kind: u32,
        tree: *const ic_tree,
        at: u32,
        bound: u64,
        found: *mut u32,
    ) -> u32;
    pub fn ic_tree_sums_before(
        table: *const ic_link3,
        places: usize,
        sums: *const ic_sum,
        sum_count: usize,
        kind: u32,
        at: u32,
        sum: *mut u64,
    ) -> u32;
    pub fn ic_tree_sums_overlap(
        table: *const ic_link3,
        places: usize,
        keys: *const u64,
        key_count: usize,
        sums: *const ic_sum,
        sum_count: usize,
        tree: *const ic_tree,
        at: u32,
        from: u64,
        to: u64,
        found: *mut u32,
    ) -> u32;
    // to here
}
