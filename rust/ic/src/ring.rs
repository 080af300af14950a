//! Rings. A ring is a circular, doubly linked list whose head is a place of the table, like the lists of Linux (list.h).
//!
//! The head and the members of a ring form a circle. To remove a member, or to insert a place beside a member, you do not name the ring. So
//! rings are good if the code that removes an object does not know which queue contains the object. Rings and lists may be in one table. Use
//! places without an object as the heads of rings.
//!
//! ```
//! use ic::{ring, Error, Link2};
//!
//! let mut links = [Link2::UNLINKED; 6]; // four objects, and two heads
//! let (ready, late) = (4, 5);
//! ring::init(&mut links, ready)?;
//! ring::init(&mut links, late)?;
//! ring::push_back(&mut links, ready, 0)?;
//! ring::push_back(&mut links, late, 1)?;
//! ring::insert_after(&mut links, 1, 2)?;
//! ring::remove(&mut links, 1)?; // from whichever ring it is in
//! assert!(ring::iter(&links, ready).eq([0]) && ring::iter(&links, late).eq([2]));
//!
//! ring::splice_before(&mut links, ready, late)?; // all that are late come last
//! assert!(ring::iter(&links, ready).eq([0, 2]) && ring::is_empty(&links, late));
//! ring::move_after(&mut links, late, 0)?;
//! assert_eq!(ring::pop_front(&mut links, ready)?, Some(2));
//! assert_eq!(ring::pop_front(&mut links, ready)?, None);
//! # Ok::<(), Error>(())
//! ```
//!
//! If a slice of yours has a key for each place, you can sort the members of a ring by their keys. The function [`check`] counts the members
//! of a ring, and returns an error if the words of the table form no ring:
//!
//! ```
//! # use ic::{ring, Error, Link2};
//! let (keys, mut links) = ([30, 10, 20, 0], [Link2::UNLINKED; 4]); // three objects, and a head
//! ring::init(&mut links, 3)?;
//! for place in 0..3 {
//!     ring::push_back(&mut links, 3, place)?;
//! }
//! ring::sort(&mut links, &keys, 3)?;
//! assert!(ring::iter(&links, 3).eq([1, 2, 0]));
//! assert_eq!(ring::check(&links, 3), Ok(3));
//! links[1] = Link2::UNLINKED;
//! assert_eq!(ring::check(&links, 3), Err(Error::Broken));
//! # Ok::<(), Error>(())
//! ```
//!
//! No call can detect whether two places are in one ring or in two.

use crate::error::{done, handed_out, try_counted};
use crate::link::{member, read, Link};
use crate::{Error, Link2};
use ic_sys::*;

// Made by tools/c-calls --write: ring ring-check ring-keys
/// Makes `head` the head of a ring with no members, as INIT_LIST_HEAD of Linux does, in O(1).
///
/// # Errors
///
/// [`Error::OutOfRange`] if `head` is not below the table's length. [`Error::Linked`] if `head` is linked already.
#[inline]
pub fn init(table: &mut [Link2], head: u32) -> Result<(), Error> {
    let (links, places) = Link2::parts(table);
    // SAFETY: each pointer comes from a reference, with the length of its slice, and no mutable reference overlaps another one.
    done(unsafe { ic_ring_init(links, places, head) })
}

/// Inserts `place` after the place `at` of a ring, as list_add of Linux does, in O(1). If `at` is the head of a ring, `place` becomes the
/// first member of this ring.
///
/// # Errors
///
/// [`Error::Null`] if the place `at` is `u32::MAX`. [`Error::OutOfRange`] if `at` or `place` is not below the table's length.
/// [`Error::Linked`] if `place` is linked already, or is `at` itself. [`Error::NotLinked`] if the place `at` is not linked.
/// [`Error::Broken`] if `at` is in no ring.
#[inline]
pub fn insert_after(table: &mut [Link2], at: u32, place: u32) -> Result<(), Error> {
    let (links, places) = Link2::parts(table);
    // SAFETY: each pointer comes from a reference, with the length of its slice, and no mutable reference overlaps another one.
    done(unsafe { ic_ring_insert_after(links, places, at, place) })
}

/// Inserts `place` before the place `at` of a ring, as list_add_tail of Linux does, in O(1). If `at` is the head of a ring, `place` becomes
/// the last member of this ring.
///
/// # Errors
///
/// [`Error::Null`] if the place `at` is `u32::MAX`. [`Error::OutOfRange`] if `at` or `place` is not below the table's length.
/// [`Error::Linked`] if `place` is linked already, or is `at` itself. [`Error::NotLinked`] if the place `at` is not linked.
/// [`Error::Broken`] if `at` is in no ring.
#[inline]
pub fn insert_before(table: &mut [Link2], at: u32, place: u32) -> Result<(), Error> {
    let (links, places) = Link2::parts(table);
    // SAFETY: each pointer comes from a reference, with the length of its slice, and no mutable reference overlaps another one.
    done(unsafe { ic_ring_insert_before(links, places, at, place) })
}

/// Removes `place` from its ring, which you do not name, as list_del of Linux does, in O(1). If `place` is the head of a ring without
/// members, this ring ceases to exist.
///
/// # Errors
///
/// [`Error::Null`] if `place` is `u32::MAX`. [`Error::OutOfRange`] if `place` is not below the table's length. [`Error::NotLinked`] if
/// `place` is not linked. [`Error::Broken`] if `place` is in no ring.
#[inline]
pub fn remove(table: &mut [Link2], place: u32) -> Result<(), Error> {
    let (links, places) = Link2::parts(table);
    // SAFETY: each pointer comes from a reference, with the length of its slice, and no mutable reference overlaps another one.
    done(unsafe { ic_ring_remove(links, places, place) })
}

/// Makes the place after `one` follow `other`, and the place after `other` follow `one`, in O(1). `one` and `other` must be in rings. If
/// `one` and `other` are in two rings, the call joins the rings. If `one` and `other` are different places of one ring, the call splits
/// this ring into two. A second call with the same places undoes the first call. For example, let `one` be the last member of a ring, and
/// `other` the head of another ring. After the call the members of the other ring follow `one`, and `other` follows these members.
///
/// # Errors
///
/// [`Error::Null`] if `one` or `other` is `u32::MAX`. [`Error::OutOfRange`] if `one` or `other` is not below the table's length.
/// [`Error::NotLinked`] if `one` or `other` is not linked. [`Error::Broken`] if `one` or `other` is in no ring.
#[inline]
pub fn exchange(table: &mut [Link2], one: u32, other: u32) -> Result<(), Error> {
    let (links, places) = Link2::parts(table);
    // SAFETY: each pointer comes from a reference, with the length of its slice, and no mutable reference overlaps another one.
    done(unsafe { ic_ring_exchange(links, places, one, other) })
}

/// Removes the first member of the ring with the head `head`, and returns this member, in O(1). The call returns `None` if `head` is
/// `u32::MAX`, or the ring has no members.
///
/// # Errors
///
/// [`Error::OutOfRange`] if `head` is not below the table's length. [`Error::NotLinked`] if `head` is not linked. [`Error::Broken`] if
/// `head` or its first member is in no ring.
#[inline]
pub fn pop_front(table: &mut [Link2], head: u32) -> Result<Option<u32>, Error> {
    let (links, places) = Link2::parts(table);
    // SAFETY: each pointer comes from a reference, with the length of its slice, and no mutable reference overlaps another one.
    handed_out(|it| unsafe { ic_ring_pop_front(links, places, head, it) })
}

/// Removes the last member of the ring with the head `head`, and returns this member, in O(1). The call returns `None` if `head` is
/// `u32::MAX`, or the ring has no members.
///
/// # Errors
///
/// [`Error::OutOfRange`] if `head` is not below the table's length. [`Error::NotLinked`] if `head` is not linked. [`Error::Broken`] if
/// `head` or its last member is in no ring.
#[inline]
pub fn pop_back(table: &mut [Link2], head: u32) -> Result<Option<u32>, Error> {
    let (links, places) = Link2::parts(table);
    // SAFETY: each pointer comes from a reference, with the length of its slice, and no mutable reference overlaps another one.
    handed_out(|it| unsafe { ic_ring_pop_back(links, places, head, it) })
}

/// Removes the place `at` from its ring, and inserts `place` where `at` was, as list_replace of Linux does, in O(1).
///
/// # Errors
///
/// [`Error::Null`] if the place `at` is `u32::MAX`. [`Error::OutOfRange`] if `at` or `place` is not below the table's length.
/// [`Error::Linked`] if `place` is linked already, or is `at` itself. [`Error::NotLinked`] if the place `at` is not linked.
/// [`Error::Broken`] if `at` is in no ring.
#[inline]
pub fn replace(table: &mut [Link2], at: u32, place: u32) -> Result<(), Error> {
    let (links, places) = Link2::parts(table);
    // SAFETY: each pointer comes from a reference, with the length of its slice, and no mutable reference overlaps another one.
    done(unsafe { ic_ring_replace(links, places, at, place) })
}

/// Moves `place` after the place `at` of the same ring or of another ring, as list_move of Linux does, in O(1). If `at` is the head of a
/// ring, `place` becomes the first member of this ring. `place` stays linked during the call. Nothing changes if `at` and `place` are the
/// same place.
///
/// # Errors
///
/// [`Error::Null`] if `at` or `place` is `u32::MAX`. [`Error::OutOfRange`] if `at` or `place` is not below the table's length.
/// [`Error::NotLinked`] if `at` or `place` is not linked. [`Error::Broken`] if `at` or `place` is in no ring.
#[inline]
pub fn move_after(table: &mut [Link2], at: u32, place: u32) -> Result<(), Error> {
    let (links, places) = Link2::parts(table);
    // SAFETY: each pointer comes from a reference, with the length of its slice, and no mutable reference overlaps another one.
    done(unsafe { ic_ring_move_after(links, places, at, place) })
}

/// Moves `place` before the place `at` of the same ring or of another ring, as list_move_tail of Linux does, in O(1). If `at` is the head
/// of a ring, `place` becomes the last member of this ring. `place` stays linked during the call. Nothing changes if `at` and `place` are
/// the same place.
///
/// # Errors
///
/// [`Error::Null`] if `at` or `place` is `u32::MAX`. [`Error::OutOfRange`] if `at` or `place` is not below the table's length.
/// [`Error::NotLinked`] if `at` or `place` is not linked. [`Error::Broken`] if `at` or `place` is in no ring.
#[inline]
pub fn move_before(table: &mut [Link2], at: u32, place: u32) -> Result<(), Error> {
    let (links, places) = Link2::parts(table);
    // SAFETY: each pointer comes from a reference, with the length of its slice, and no mutable reference overlaps another one.
    done(unsafe { ic_ring_move_before(links, places, at, place) })
}

/// Moves all members of the ring with the head `head`, in their order, after the place `at` of another ring, as list_splice_init of Linux
/// does, in O(1). After the call `head` is the head of a ring with no members.
///
/// # Errors
///
/// [`Error::Null`] if `at` or `head` is `u32::MAX`. [`Error::OutOfRange`] if `at` or `head` is not below the table's length.
/// [`Error::NotLinked`] if `at` or `head` is not linked. [`Error::Broken`] if `at` or `head` is in no ring, or `at` is `head` or the last
/// member of the ring with the head `head`.
#[inline]
pub fn splice_after(table: &mut [Link2], at: u32, head: u32) -> Result<(), Error> {
    let (links, places) = Link2::parts(table);
    // SAFETY: each pointer comes from a reference, with the length of its slice, and no mutable reference overlaps another one.
    done(unsafe { ic_ring_splice_after(links, places, at, head) })
}

/// Moves all members of the ring with the head `head`, in their order, before the place `at` of another ring, as list_splice_tail_init of
/// Linux does, in O(1). After the call `head` is the head of a ring with no members.
///
/// # Errors
///
/// [`Error::Null`] if `at` or `head` is `u32::MAX`. [`Error::OutOfRange`] if `at` or `head` is not below the table's length.
/// [`Error::NotLinked`] if `at` or `head` is not linked. [`Error::Broken`] if `at` or `head` is in no ring, or `at` is `head` or the first
/// member of the ring with the head `head`.
#[inline]
pub fn splice_before(table: &mut [Link2], at: u32, head: u32) -> Result<(), Error> {
    let (links, places) = Link2::parts(table);
    // SAFETY: each pointer comes from a reference, with the length of its slice, and no mutable reference overlaps another one.
    done(unsafe { ic_ring_splice_before(links, places, at, head) })
}

/// Counts the members of the ring with the head `head`, and returns their number, in O(n). Make this call if the words come from a file, or
/// from memory to which other programs write. If the call returns a number, all other calls on this ring do what their comments say.
///
/// # Errors
///
/// [`Error::Null`] if `head` is `u32::MAX`. [`Error::OutOfRange`] if `head` is not below the table's length. [`Error::NotLinked`] if `head`
/// is not linked. [`Error::Broken`] if the links do not lead from `head` around a ring and back to `head`, or two neighbors do not have
/// links to each other.
#[inline]
pub fn check(table: &[Link2], head: u32) -> Result<u64, Error> {
    let (links, places) = Link2::read_parts(table);
    // SAFETY: each pointer comes from a reference, with the length of its slice, and no mutable reference overlaps another one.
    try_counted(|members| unsafe { ic_ring_check(links, places, head, members) })
}

/// Sorts the members of the ring with the head `head` by their keys, as list_sort of Linux does, in O(n log n). Members with equal keys
/// keep their order.
///
/// # Errors
///
/// [`Error::Null`] if `head` is `u32::MAX`. [`Error::OutOfRange`] if there are fewer keys than places, or `head` is not below the table's
/// length. [`Error::NotLinked`] if `head` is not linked. [`Error::Broken`] if the links do not lead from `head` around a ring and back to
/// `head`, or two neighbors do not have links to each other.
#[inline]
pub fn sort(table: &mut [Link2], keys: &[u64], head: u32) -> Result<(), Error> {
    let (links, places) = Link2::parts(table);
    // SAFETY: each pointer comes from a reference, with the length of its slice, and no mutable reference overlaps another one.
    done(unsafe { ic_ring_sort(links, places, keys.as_ptr(), keys.len(), head) })
}

/// Moves all members of the ring with the head `given` into the ring with the head `head`, in O(n). If both rings were sorted by keys, the
/// ring with the head `head` is sorted by keys after the call. Of members with equal keys, those that were in the ring with the head `head`
/// come first. After the call `given` is the head of a ring with no members.
///
/// # Errors
///
/// [`Error::Null`] if `head` or `given` is `u32::MAX`. [`Error::OutOfRange`] if there are fewer keys than places, or `head` or `given` is
/// not below the table's length. [`Error::NotLinked`] if `head` or `given` is not linked. [`Error::Broken`] if the links do not lead from
/// `head` or from `given` around a ring and back to this place, or two neighbors do not have links to each other, or `head` and `given` are
/// in one ring.
#[inline]
pub fn merge(table: &mut [Link2], keys: &[u64], head: u32, given: u32) -> Result<(), Error> {
    let (links, places) = Link2::parts(table);
    // SAFETY: each pointer comes from a reference, with the length of its slice, and no mutable reference overlaps another one.
    done(unsafe { ic_ring_merge(links, places, keys.as_ptr(), keys.len(), head, given) })
}
// to here

/// Inserts `place` as the first member of the ring with the head `head`, in O(1).
///
/// # Errors
///
/// The call returns the same errors as [`insert_after`].
#[inline]
pub fn push_front(table: &mut [Link2], head: u32, place: u32) -> Result<(), Error> {
    insert_after(table, head, place)
}

/// Inserts `place` as the last member of the ring with the head `head`, in O(1).
///
/// # Errors
///
/// The call returns the same errors as [`insert_before`].
#[inline]
pub fn push_back(table: &mut [Link2], head: u32, place: u32) -> Result<(), Error> {
    insert_before(table, head, place)
}

/// Returns whether `head` is the head of a ring with no members, in O(1).
#[inline]
#[must_use]
pub fn is_empty(table: &[Link2], head: u32) -> bool {
    next(table, head) == Some(head)
}

/// Returns the place after the place `at` of a ring, in O(1). After a head comes the first member, and after the last member comes the head.
/// The call returns `None` if `at` is not linked or is not in the table, or if the link of `at` leads out of the table.
#[inline]
#[must_use]
pub fn next(table: &[Link2], at: u32) -> Option<u32> {
    read(table, at, Link2::next)
}

/// Returns the place before the place `at` of a ring, in O(1). The call returns `None` if `at` is not linked or is not in the table, or if the
/// link of `at` leads out of the table.
#[inline]
#[must_use]
pub fn prev(table: &[Link2], at: u32) -> Option<u32> {
    read(table, at, Link2::prev)
}

/// Iterates over the members of the ring with the head `head`. Whatever the words are, the iterator ends after at most as many members as the
/// table has places, and returns only linked places of the table.
pub fn iter(table: &[Link2], head: u32) -> impl Iterator<Item = u32> + '_ {
    let after = move |at| member(table, next(table, at)).filter(|&at| at != head);
    core::iter::successors(after(head), move |&at| after(at)).take(table.len())
}
