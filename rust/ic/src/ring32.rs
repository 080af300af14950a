//! Rings whose links have words of 4 bytes, and so take half the memory of the links of a [`ring`](crate::ring).
//!
//! Each function does the same as the function of [`ring`](crate::ring) with the same name. A word of 4 bytes can name only places below
//! 536,870,911, and calls treat all other places as out of range.
//!
//! ```
//! use ic::{ring32, Error, Link2x32};
//!
//! let mut links = [Link2x32::UNLINKED; 5]; // four objects, and a head
//! let ready = 4;
//! ring32::init(&mut links, ready)?;
//! ring32::push_back(&mut links, ready, 0)?;
//! ring32::push_back(&mut links, ready, 1)?;
//! ring32::insert_after(&mut links, 0, 2)?;
//! assert!(ring32::iter(&links, ready).eq([0, 2, 1]));
//! ring32::remove(&mut links, 0)?;
//! assert_eq!(ring32::pop_front(&mut links, ready)?, Some(2));
//! assert_eq!(ring32::remove(&mut links, 3), Err(Error::NotLinked));
//! # Ok::<(), Error>(())
//! ```

use crate::error::{done, handed_out};
use crate::link::{member, read, Link};
use crate::{Error, Link2x32};
use ic_sys::*;

// Made by tools/c-calls --write: ring32
/// Makes `head` the head of a ring with no members, as INIT_LIST_HEAD of Linux does, in O(1).
///
/// # Errors
///
/// [`Error::OutOfRange`] if `head` is not below the table's length, or is 536,870,911 or more. [`Error::Linked`] if `head` is linked
/// already.
#[inline]
pub fn init(table: &mut [Link2x32], head: u32) -> Result<(), Error> {
    let (links, places) = Link2x32::parts(table);
    // SAFETY: each pointer comes from a reference, with the length of its slice, and no mutable reference overlaps another one.
    done(unsafe { ic_ring32_init(links, places, head) })
}

/// Inserts `place` after the place `at` of a ring, as list_add of Linux does, in O(1). If `at` is the head of a ring, `place` becomes the
/// first member of this ring.
///
/// # Errors
///
/// [`Error::Null`] if the place `at` is `u32::MAX`. [`Error::OutOfRange`] if `at` or `place` is not below the table's length, or is
/// 536,870,911 or more. [`Error::Linked`] if `place` is linked already, or is `at` itself. [`Error::NotLinked`] if the place `at` is not
/// linked. [`Error::Broken`] if `at` is in no ring.
#[inline]
pub fn insert_after(table: &mut [Link2x32], at: u32, place: u32) -> Result<(), Error> {
    let (links, places) = Link2x32::parts(table);
    // SAFETY: each pointer comes from a reference, with the length of its slice, and no mutable reference overlaps another one.
    done(unsafe { ic_ring32_insert_after(links, places, at, place) })
}

/// Inserts `place` before the place `at` of a ring, as list_add_tail of Linux does, in O(1). If `at` is the head of a ring, `place` becomes
/// the last member of this ring.
///
/// # Errors
///
/// [`Error::Null`] if the place `at` is `u32::MAX`. [`Error::OutOfRange`] if `at` or `place` is not below the table's length, or is
/// 536,870,911 or more. [`Error::Linked`] if `place` is linked already, or is `at` itself. [`Error::NotLinked`] if the place `at` is not
/// linked. [`Error::Broken`] if `at` is in no ring.
#[inline]
pub fn insert_before(table: &mut [Link2x32], at: u32, place: u32) -> Result<(), Error> {
    let (links, places) = Link2x32::parts(table);
    // SAFETY: each pointer comes from a reference, with the length of its slice, and no mutable reference overlaps another one.
    done(unsafe { ic_ring32_insert_before(links, places, at, place) })
}

/// Removes `place` from its ring, which you do not name, as list_del of Linux does, in O(1). If `place` is the head of a ring without
/// members, this ring ceases to exist.
///
/// # Errors
///
/// [`Error::Null`] if `place` is `u32::MAX`. [`Error::OutOfRange`] if `place` is not below the table's length, or is 536,870,911 or more.
/// [`Error::NotLinked`] if `place` is not linked. [`Error::Broken`] if `place` is in no ring.
#[inline]
pub fn remove(table: &mut [Link2x32], place: u32) -> Result<(), Error> {
    let (links, places) = Link2x32::parts(table);
    // SAFETY: each pointer comes from a reference, with the length of its slice, and no mutable reference overlaps another one.
    done(unsafe { ic_ring32_remove(links, places, place) })
}

/// Makes the place after `one` follow `other`, and the place after `other` follow `one`, in O(1). `one` and `other` must be in rings. If
/// `one` and `other` are in two rings, the call joins the rings. If `one` and `other` are different places of one ring, the call splits
/// this ring into two. A second call with the same places undoes the first call. For example, let `one` be the last member of a ring, and
/// `other` the head of another ring. After the call the members of the other ring follow `one`, and `other` follows these members.
///
/// # Errors
///
/// [`Error::Null`] if `one` or `other` is `u32::MAX`. [`Error::OutOfRange`] if `one` or `other` is not below the table's length, or is
/// 536,870,911 or more. [`Error::NotLinked`] if `one` or `other` is not linked. [`Error::Broken`] if `one` or `other` is in no ring.
#[inline]
pub fn exchange(table: &mut [Link2x32], one: u32, other: u32) -> Result<(), Error> {
    let (links, places) = Link2x32::parts(table);
    // SAFETY: each pointer comes from a reference, with the length of its slice, and no mutable reference overlaps another one.
    done(unsafe { ic_ring32_exchange(links, places, one, other) })
}

/// Removes the first member of the ring with the head `head`, and returns this member, in O(1). The call returns `None` if `head` is
/// `u32::MAX`, or the ring has no members.
///
/// # Errors
///
/// [`Error::OutOfRange`] if `head` is not below the table's length, or is 536,870,911 or more. [`Error::NotLinked`] if `head` is not
/// linked. [`Error::Broken`] if `head` or its first member is in no ring.
#[inline]
pub fn pop_front(table: &mut [Link2x32], head: u32) -> Result<Option<u32>, Error> {
    let (links, places) = Link2x32::parts(table);
    // SAFETY: each pointer comes from a reference, with the length of its slice, and no mutable reference overlaps another one.
    handed_out(|it| unsafe { ic_ring32_pop_front(links, places, head, it) })
}

/// Removes the last member of the ring with the head `head`, and returns this member, in O(1). The call returns `None` if `head` is
/// `u32::MAX`, or the ring has no members.
///
/// # Errors
///
/// [`Error::OutOfRange`] if `head` is not below the table's length, or is 536,870,911 or more. [`Error::NotLinked`] if `head` is not
/// linked. [`Error::Broken`] if `head` or its last member is in no ring.
#[inline]
pub fn pop_back(table: &mut [Link2x32], head: u32) -> Result<Option<u32>, Error> {
    let (links, places) = Link2x32::parts(table);
    // SAFETY: each pointer comes from a reference, with the length of its slice, and no mutable reference overlaps another one.
    handed_out(|it| unsafe { ic_ring32_pop_back(links, places, head, it) })
}

/// Removes the place `at` from its ring, and inserts `place` where `at` was, as list_replace of Linux does, in O(1).
///
/// # Errors
///
/// [`Error::Null`] if the place `at` is `u32::MAX`. [`Error::OutOfRange`] if `at` or `place` is not below the table's length, or is
/// 536,870,911 or more. [`Error::Linked`] if `place` is linked already, or is `at` itself. [`Error::NotLinked`] if the place `at` is not
/// linked. [`Error::Broken`] if `at` is in no ring.
#[inline]
pub fn replace(table: &mut [Link2x32], at: u32, place: u32) -> Result<(), Error> {
    let (links, places) = Link2x32::parts(table);
    // SAFETY: each pointer comes from a reference, with the length of its slice, and no mutable reference overlaps another one.
    done(unsafe { ic_ring32_replace(links, places, at, place) })
}

/// Moves `place` after the place `at` of the same ring or of another ring, as list_move of Linux does, in O(1). If `at` is the head of a
/// ring, `place` becomes the first member of this ring. `place` stays linked during the call. Nothing changes if `at` and `place` are the
/// same place.
///
/// # Errors
///
/// [`Error::Null`] if `at` or `place` is `u32::MAX`. [`Error::OutOfRange`] if `at` or `place` is not below the table's length, or is
/// 536,870,911 or more. [`Error::NotLinked`] if `at` or `place` is not linked. [`Error::Broken`] if `at` or `place` is in no ring.
#[inline]
pub fn move_after(table: &mut [Link2x32], at: u32, place: u32) -> Result<(), Error> {
    let (links, places) = Link2x32::parts(table);
    // SAFETY: each pointer comes from a reference, with the length of its slice, and no mutable reference overlaps another one.
    done(unsafe { ic_ring32_move_after(links, places, at, place) })
}

/// Moves `place` before the place `at` of the same ring or of another ring, as list_move_tail of Linux does, in O(1). If `at` is the head
/// of a ring, `place` becomes the last member of this ring. `place` stays linked during the call. Nothing changes if `at` and `place` are
/// the same place.
///
/// # Errors
///
/// [`Error::Null`] if `at` or `place` is `u32::MAX`. [`Error::OutOfRange`] if `at` or `place` is not below the table's length, or is
/// 536,870,911 or more. [`Error::NotLinked`] if `at` or `place` is not linked. [`Error::Broken`] if `at` or `place` is in no ring.
#[inline]
pub fn move_before(table: &mut [Link2x32], at: u32, place: u32) -> Result<(), Error> {
    let (links, places) = Link2x32::parts(table);
    // SAFETY: each pointer comes from a reference, with the length of its slice, and no mutable reference overlaps another one.
    done(unsafe { ic_ring32_move_before(links, places, at, place) })
}

/// Moves all members of the ring with the head `head`, in their order, after the place `at` of another ring, as list_splice_init of Linux
/// does, in O(1). After the call `head` is the head of a ring with no members.
///
/// # Errors
///
/// [`Error::Null`] if `at` or `head` is `u32::MAX`. [`Error::OutOfRange`] if `at` or `head` is not below the table's length, or is
/// 536,870,911 or more. [`Error::NotLinked`] if `at` or `head` is not linked. [`Error::Broken`] if `at` or `head` is in no ring, or `at` is
/// `head` or the last member of the ring with the head `head`.
#[inline]
pub fn splice_after(table: &mut [Link2x32], at: u32, head: u32) -> Result<(), Error> {
    let (links, places) = Link2x32::parts(table);
    // SAFETY: each pointer comes from a reference, with the length of its slice, and no mutable reference overlaps another one.
    done(unsafe { ic_ring32_splice_after(links, places, at, head) })
}

/// Moves all members of the ring with the head `head`, in their order, before the place `at` of another ring, as list_splice_tail_init of
/// Linux does, in O(1). After the call `head` is the head of a ring with no members.
///
/// # Errors
///
/// [`Error::Null`] if `at` or `head` is `u32::MAX`. [`Error::OutOfRange`] if `at` or `head` is not below the table's length, or is
/// 536,870,911 or more. [`Error::NotLinked`] if `at` or `head` is not linked. [`Error::Broken`] if `at` or `head` is in no ring, or `at` is
/// `head` or the first member of the ring with the head `head`.
#[inline]
pub fn splice_before(table: &mut [Link2x32], at: u32, head: u32) -> Result<(), Error> {
    let (links, places) = Link2x32::parts(table);
    // SAFETY: each pointer comes from a reference, with the length of its slice, and no mutable reference overlaps another one.
    done(unsafe { ic_ring32_splice_before(links, places, at, head) })
}
// to here

// Made by tools/c-calls --write of ring: ring32
/// Inserts `place` as the first member of the ring with the head `head`, in O(1).
///
/// # Errors
///
/// The call returns the same errors as [`insert_after`].
#[inline]
pub fn push_front(table: &mut [Link2x32], head: u32, place: u32) -> Result<(), Error> {
    insert_after(table, head, place)
}

/// Inserts `place` as the last member of the ring with the head `head`, in O(1).
///
/// # Errors
///
/// The call returns the same errors as [`insert_before`].
#[inline]
pub fn push_back(table: &mut [Link2x32], head: u32, place: u32) -> Result<(), Error> {
    insert_before(table, head, place)
}

/// Returns whether `head` is the head of a ring with no members, in O(1).
#[inline]
#[must_use]
pub fn is_empty(table: &[Link2x32], head: u32) -> bool {
    next(table, head) == Some(head)
}

/// Returns the place after the place `at` of a ring, in O(1). After a head comes the first member, and after the last member comes the head.
/// The call returns `None` if `at` is not linked or is not in the table, or if the link of `at` leads out of the table.
#[inline]
#[must_use]
pub fn next(table: &[Link2x32], at: u32) -> Option<u32> {
    read(table, at, Link2x32::next)
}

/// Returns the place before the place `at` of a ring, in O(1). The call returns `None` if `at` is not linked or is not in the table, or if the
/// link of `at` leads out of the table.
#[inline]
#[must_use]
pub fn prev(table: &[Link2x32], at: u32) -> Option<u32> {
    read(table, at, Link2x32::prev)
}

/// Iterates over the members of the ring with the head `head`. Whatever the words are, the iterator ends after at most as many members as the
/// table has places, and returns only linked places of the table.
pub fn iter(table: &[Link2x32], head: u32) -> impl Iterator<Item = u32> + '_ {
    let after = move |at| member(table, next(table, at)).filter(|&at| at != head);
    core::iter::successors(after(head), move |&at| after(at)).take(table.len())
}
// to here
