//! Doubly linked lists whose links have words of 4 bytes, and so take half the memory of the links of a [`List`](crate::List).

use crate::collection::{
    bidirectional, collection, from_place, Bidirectional, BidirectionalSplice, Collection, Position, Splice,
};
use crate::error::{counted, done, handed_out};
use crate::link::{is_none, linked, number, place, read, within, Link};
use crate::{Cursor, CursorMut, Error, Iter, Link2x32, View};
use core::fmt;
use ic_sys::*;

/// A doubly linked list over a table of [`Link2x32`], which take half the memory of the links of a [`List`](crate::List).
///
/// Each call does the same as the call of [`List`](crate::List) with the same name. A `List32` has no fill, sort or merge. A word of 4 bytes
/// can name only places below 536,870,911, and calls treat all other places as out of range.
///
/// ```
/// use ic::{Error, Link2x32, List32};
///
/// let mut links = [Link2x32::UNLINKED; 4];
/// let mut recent = List32::new();
/// for place in [0, 1, 2] {
///     recent.push_back(&mut links, place)?;
/// }
/// recent.move_to_front(&mut links, 2)?;
/// assert!(recent.iter(&links).eq([2, 0, 1]));
/// assert_eq!(recent.push_back(&mut links, 2), Err(Error::Linked));
///
/// let mut old = recent.split_after(&mut links, Some(2))?;
/// recent.transfer_before(&mut links, None, &mut old, 1)?;
/// assert_eq!(format!("{:?} {:?}", recent.view(&links), old.view(&links)), "[2, 1] [0]");
/// assert_eq!((recent.check(&links), old.pop_front(&mut links)?), (Some(2), Some(0)));
/// # Ok::<(), Error>(())
/// ```
///
/// If you drop the list, its members stay linked. Use a clone of the list only with a clone of its table.
#[repr(transparent)]
#[derive(Clone, Default, PartialEq, Eq)]
pub struct List32(pub(crate) ic_list);

impl List32 {
    // Made by tools/c-calls --write: list32
    /// Inserts `place` at the front, in O(1).
    ///
    /// # Errors
    ///
    /// [`Error::OutOfRange`] if `place` is not below the table's length, or is 536,870,911 or more. [`Error::Linked`] if `place` is linked
    /// already. [`Error::Broken`] if the first member is not linked in this table, or has a link to a member before it.
    #[inline]
    pub fn push_front(&mut self, table: &mut [Link2x32], place: u32) -> Result<(), Error> {
        let (links, places) = Link2x32::parts(table);
        // SAFETY: each pointer comes from a reference, with the length of its slice, and no mutable reference overlaps another one.
        done(unsafe { ic_list32_push_front(links, places, &mut self.0, place) })
    }

    /// Inserts `place` at the back, in O(1).
    ///
    /// # Errors
    ///
    /// [`Error::OutOfRange`] if `place` is not below the table's length, or is 536,870,911 or more. [`Error::Linked`] if `place` is linked
    /// already. [`Error::Broken`] if the last member is not linked in this table, or has a link to a member after it.
    #[inline]
    pub fn push_back(&mut self, table: &mut [Link2x32], place: u32) -> Result<(), Error> {
        let (links, places) = Link2x32::parts(table);
        // SAFETY: each pointer comes from a reference, with the length of its slice, and no mutable reference overlaps another one.
        done(unsafe { ic_list32_push_back(links, places, &mut self.0, place) })
    }

    /// Removes the first member, and returns this member, in O(1). The call returns `None` if the list is empty.
    ///
    /// # Errors
    ///
    /// [`Error::Broken`] if the first member is not linked in this table, or has a link to a member before it, or the second member has no
    /// link back to the first.
    #[inline]
    pub fn pop_front(&mut self, table: &mut [Link2x32]) -> Result<Option<u32>, Error> {
        let (links, places) = Link2x32::parts(table);
        // SAFETY: each pointer comes from a reference, with the length of its slice, and no mutable reference overlaps another one.
        handed_out(|it| unsafe { ic_list32_pop_front(links, places, &mut self.0, it) })
    }

    /// Removes the last member, and returns this member, in O(1). The call returns `None` if the list is empty.
    ///
    /// # Errors
    ///
    /// [`Error::Broken`] if the last member is not linked in this table, or has a link to a member after it, or the second-to-last member
    /// has no link to the last.
    #[inline]
    pub fn pop_back(&mut self, table: &mut [Link2x32]) -> Result<Option<u32>, Error> {
        let (links, places) = Link2x32::parts(table);
        // SAFETY: each pointer comes from a reference, with the length of its slice, and no mutable reference overlaps another one.
        handed_out(|it| unsafe { ic_list32_pop_back(links, places, &mut self.0, it) })
    }

    /// Inserts `place` after the member `at`, or at the front if `at` is `None`, in O(1).
    ///
    /// # Errors
    ///
    /// [`Error::OutOfRange`] if `at` or `place` is not below the table's length, or is 536,870,911 or more. [`Error::Linked`] if `place` is
    /// linked already. [`Error::NotLinked`] if the place `at` is not linked. [`Error::Broken`] if `at` is no member of the list according
    /// to its links.
    #[inline]
    pub fn insert_after(&mut self, table: &mut [Link2x32], at: Option<u32>, place: u32) -> Result<(), Error> {
        let (links, places) = Link2x32::parts(table);
        // SAFETY: each pointer comes from a reference, with the length of its slice, and no mutable reference overlaps another one.
        done(unsafe { ic_list32_insert_after(links, places, &mut self.0, number(at), place) })
    }

    /// Inserts `place` before the member `at`, or at the back if `at` is `None`, in O(1).
    ///
    /// # Errors
    ///
    /// [`Error::OutOfRange`] if `at` or `place` is not below the table's length, or is 536,870,911 or more. [`Error::Linked`] if `place` is
    /// linked already. [`Error::NotLinked`] if the place `at` is not linked. [`Error::Broken`] if `at` is no member of the list according
    /// to its links.
    #[inline]
    pub fn insert_before(&mut self, table: &mut [Link2x32], at: Option<u32>, place: u32) -> Result<(), Error> {
        let (links, places) = Link2x32::parts(table);
        // SAFETY: each pointer comes from a reference, with the length of its slice, and no mutable reference overlaps another one.
        done(unsafe { ic_list32_insert_before(links, places, &mut self.0, number(at), place) })
    }

    /// Removes the member `at`, in O(1).
    ///
    /// # Errors
    ///
    /// [`Error::Null`] if the place `at` is `u32::MAX`. [`Error::OutOfRange`] if the place `at` is not below the table's length, or is
    /// 536,870,911 or more. [`Error::NotLinked`] if the place `at` is not linked. [`Error::Broken`] if `at` is no member of the list
    /// according to its links.
    #[inline]
    pub fn remove(&mut self, table: &mut [Link2x32], at: u32) -> Result<(), Error> {
        let (links, places) = Link2x32::parts(table);
        // SAFETY: each pointer comes from a reference, with the length of its slice, and no mutable reference overlaps another one.
        done(unsafe { ic_list32_remove(links, places, &mut self.0, at) })
    }

    /// Removes the member `at`, and inserts `place` where `at` was, in O(1).
    ///
    /// # Errors
    ///
    /// [`Error::Null`] if the place `at` is `u32::MAX`. [`Error::OutOfRange`] if `at` or `place` is not below the table's length, or is
    /// 536,870,911 or more. [`Error::Linked`] if `place` is linked already, or is `at` itself. [`Error::NotLinked`] if the place `at` is
    /// not linked. [`Error::Broken`] if `at` is no member of the list according to its links.
    #[inline]
    pub fn replace(&mut self, table: &mut [Link2x32], at: u32, place: u32) -> Result<(), Error> {
        let (links, places) = Link2x32::parts(table);
        // SAFETY: each pointer comes from a reference, with the length of its slice, and no mutable reference overlaps another one.
        done(unsafe { ic_list32_replace(links, places, &mut self.0, at, place) })
    }

    /// Moves the member `place` after the member `at`, or to the front if `at` is `None`, in O(1). `place` stays linked during the call.
    /// Nothing changes if `place` is at this position already, or if `at` and `place` are the same place.
    ///
    /// # Errors
    ///
    /// [`Error::Null`] if `place` is `u32::MAX`. [`Error::OutOfRange`] if `at` or `place` is not below the table's length, or is
    /// 536,870,911 or more. [`Error::NotLinked`] if `at` or `place` is not linked. [`Error::Broken`] if `at` or `place` is no member of the
    /// list according to their links.
    #[inline]
    pub fn move_after(&mut self, table: &mut [Link2x32], at: Option<u32>, place: u32) -> Result<(), Error> {
        let (links, places) = Link2x32::parts(table);
        // SAFETY: each pointer comes from a reference, with the length of its slice, and no mutable reference overlaps another one.
        done(unsafe { ic_list32_move_after(links, places, &mut self.0, number(at), place) })
    }

    /// Moves the member `place` before the member `at`, or to the back if `at` is `None`, in O(1). `place` stays linked during the call.
    /// Nothing changes if `place` is at this position already, or if `at` and `place` are the same place.
    ///
    /// # Errors
    ///
    /// [`Error::Null`] if `place` is `u32::MAX`. [`Error::OutOfRange`] if `at` or `place` is not below the table's length, or is
    /// 536,870,911 or more. [`Error::NotLinked`] if `at` or `place` is not linked. [`Error::Broken`] if `at` or `place` is no member of the
    /// list according to their links.
    #[inline]
    pub fn move_before(&mut self, table: &mut [Link2x32], at: Option<u32>, place: u32) -> Result<(), Error> {
        let (links, places) = Link2x32::parts(table);
        // SAFETY: each pointer comes from a reference, with the length of its slice, and no mutable reference overlaps another one.
        done(unsafe { ic_list32_move_before(links, places, &mut self.0, number(at), place) })
    }

    /// Moves the member `place` to the front, as a cache does with an object that it has just used, in O(1). `place` stays linked during
    /// the call.
    ///
    /// # Errors
    ///
    /// [`Error::Null`] if `place` is `u32::MAX`. [`Error::OutOfRange`] if `place` is not below the table's length, or is 536,870,911 or
    /// more. [`Error::NotLinked`] if `place` is not linked. [`Error::Broken`] if `place` is no member of the list according to its links,
    /// or the first member is not linked in this table, or has a link to a member before it.
    #[inline]
    pub fn move_to_front(&mut self, table: &mut [Link2x32], place: u32) -> Result<(), Error> {
        let (links, places) = Link2x32::parts(table);
        // SAFETY: each pointer comes from a reference, with the length of its slice, and no mutable reference overlaps another one.
        done(unsafe { ic_list32_move_to_front(links, places, &mut self.0, place) })
    }

    /// Moves the member `place` to the back, in O(1). `place` stays linked during the call.
    ///
    /// # Errors
    ///
    /// [`Error::Null`] if `place` is `u32::MAX`. [`Error::OutOfRange`] if `place` is not below the table's length, or is 536,870,911 or
    /// more. [`Error::NotLinked`] if `place` is not linked. [`Error::Broken`] if `place` is no member of the list according to its links,
    /// or the last member is not linked in this table, or has a link to a member after it.
    #[inline]
    pub fn move_to_back(&mut self, table: &mut [Link2x32], place: u32) -> Result<(), Error> {
        let (links, places) = Link2x32::parts(table);
        // SAFETY: each pointer comes from a reference, with the length of its slice, and no mutable reference overlaps another one.
        done(unsafe { ic_list32_move_to_back(links, places, &mut self.0, place) })
    }

    /// Moves all members of `given`, in their order, after the member `at`, or to the front if `at` is `None`, and leaves `given` empty, in
    /// O(1).
    ///
    /// # Errors
    ///
    /// [`Error::OutOfRange`] if the place `at` is not below the table's length, or is 536,870,911 or more. [`Error::NotLinked`] if the
    /// place `at` is not linked. [`Error::Broken`] if `at` is no member of the list according to its links, or `given` is no list of this
    /// table, or both lists begin with the same member, as a list and its copy do.
    #[inline]
    pub fn splice_after(&mut self, table: &mut [Link2x32], at: Option<u32>, given: &mut List32) -> Result<(), Error> {
        let (links, places) = Link2x32::parts(table);
        // SAFETY: each pointer comes from a reference, with the length of its slice, and no mutable reference overlaps another one.
        done(unsafe { ic_list32_splice_after(links, places, &mut self.0, number(at), &mut given.0) })
    }

    /// Moves all members of `given`, in their order, before the member `at`, or to the back if `at` is `None`, and leaves `given` empty, in
    /// O(1).
    ///
    /// # Errors
    ///
    /// [`Error::OutOfRange`] if the place `at` is not below the table's length, or is 536,870,911 or more. [`Error::NotLinked`] if the
    /// place `at` is not linked. [`Error::Broken`] if `at` is no member of the list according to its links, or `given` is no list of this
    /// table, or both lists begin with the same member, as a list and its copy do.
    #[inline]
    pub fn splice_before(&mut self, table: &mut [Link2x32], at: Option<u32>, given: &mut List32) -> Result<(), Error> {
        let (links, places) = Link2x32::parts(table);
        // SAFETY: each pointer comes from a reference, with the length of its slice, and no mutable reference overlaps another one.
        done(unsafe { ic_list32_splice_before(links, places, &mut self.0, number(at), &mut given.0) })
    }

    /// Moves all members of `given`, in their order, to the back, and leaves `given` empty, in O(1).
    ///
    /// # Errors
    ///
    /// [`Error::Broken`] if the last member is not linked in this table, or has a link to a member after it, or `given` is no list of this
    /// table, or both lists begin with the same member, as a list and its copy do.
    #[inline]
    pub fn append(&mut self, table: &mut [Link2x32], given: &mut List32) -> Result<(), Error> {
        let (links, places) = Link2x32::parts(table);
        // SAFETY: each pointer comes from a reference, with the length of its slice, and no mutable reference overlaps another one.
        done(unsafe { ic_list32_append(links, places, &mut self.0, &mut given.0) })
    }

    /// Removes all members, in O(n).
    ///
    /// # Errors
    ///
    /// [`Error::Broken`] if the links do not lead from the first member to the last, or two neighbors do not have links to each other.
    #[inline]
    pub fn clear(&mut self, table: &mut [Link2x32]) -> Result<(), Error> {
        let (links, places) = Link2x32::parts(table);
        // SAFETY: each pointer comes from a reference, with the length of its slice, and no mutable reference overlaps another one.
        done(unsafe { ic_list32_clear(links, places, &mut self.0) })
    }

    /// Moves the members after the member `at`, or all members if `at` is `None`, to a new list, which the call returns, in O(1).
    ///
    /// # Errors
    ///
    /// [`Error::OutOfRange`] if the place `at` is not below the table's length, or is 536,870,911 or more. [`Error::NotLinked`] if the
    /// place `at` is not linked. [`Error::Broken`] if `at` is no member of the list according to its links.
    #[inline]
    pub fn split_after(&mut self, table: &mut [Link2x32], at: Option<u32>) -> Result<List32, Error> {
        let ((links, places), mut rest) = (Link2x32::parts(table), List32::new());
        // SAFETY: each pointer comes from a reference, with the length of its slice, and no mutable reference overlaps another one.
        done(unsafe { ic_list32_split_after(links, places, &mut self.0, number(at), &mut rest.0) })?;
        Ok(rest)
    }

    /// Moves the members before the member `at`, or all members if `at` is `None`, to a new list, which the call returns, in O(1).
    ///
    /// # Errors
    ///
    /// [`Error::OutOfRange`] if the place `at` is not below the table's length, or is 536,870,911 or more. [`Error::NotLinked`] if the
    /// place `at` is not linked. [`Error::Broken`] if `at` is no member of the list according to its links.
    #[inline]
    pub fn split_before(&mut self, table: &mut [Link2x32], at: Option<u32>) -> Result<List32, Error> {
        let ((links, places), mut rest) = (Link2x32::parts(table), List32::new());
        // SAFETY: each pointer comes from a reference, with the length of its slice, and no mutable reference overlaps another one.
        done(unsafe { ic_list32_split_before(links, places, &mut self.0, number(at), &mut rest.0) })?;
        Ok(rest)
    }

    /// Counts the members, and returns their number, in O(n). Make this call if the words come from a file, or from memory to which other
    /// programs write. If the call returns a number, all other calls on this list do what their comments say. The call returns `None` if
    /// the links do not lead from the first member to the last, or two neighbors do not have links to each other.
    #[inline]
    #[must_use]
    pub fn check(&self, table: &[Link2x32]) -> Option<u64> {
        let (links, places) = Link2x32::read_parts(table);
        // SAFETY: each pointer comes from a reference, with the length of its slice, and no mutable reference overlaps another one.
        counted(|members| unsafe { ic_list32_check(links, places, &self.0, members) })
    }

    /// Moves the member `place` of `given` after the member `at`, or to the front if `at` is `None`, in O(1). `place` stays linked during
    /// the call.
    ///
    /// # Errors
    ///
    /// [`Error::Null`] if `place` is `u32::MAX`. [`Error::OutOfRange`] if `at` or `place` is not below the table's length, or is
    /// 536,870,911 or more. [`Error::NotLinked`] if `at` or `place` is not linked. [`Error::Broken`] if according to their links `at` is no
    /// member of the list or `place` is no member of `given`, or both lists begin with the same member, as a list and its copy do.
    #[inline]
    pub fn transfer_after(
        &mut self,
        table: &mut [Link2x32],
        at: Option<u32>,
        given: &mut List32,
        place: u32,
    ) -> Result<(), Error> {
        let (links, places) = Link2x32::parts(table);
        // SAFETY: each pointer comes from a reference, with the length of its slice, and no mutable reference overlaps another one.
        done(unsafe { ic_list32_transfer_after(links, places, &mut self.0, number(at), &mut given.0, place) })
    }

    /// Moves the member `place` of `given` before the member `at`, or to the back if `at` is `None`, in O(1). `place` stays linked during
    /// the call.
    ///
    /// # Errors
    ///
    /// [`Error::Null`] if `place` is `u32::MAX`. [`Error::OutOfRange`] if `at` or `place` is not below the table's length, or is
    /// 536,870,911 or more. [`Error::NotLinked`] if `at` or `place` is not linked. [`Error::Broken`] if according to their links `at` is no
    /// member of the list or `place` is no member of `given`, or both lists begin with the same member, as a list and its copy do.
    #[inline]
    pub fn transfer_before(
        &mut self,
        table: &mut [Link2x32],
        at: Option<u32>,
        given: &mut List32,
        place: u32,
    ) -> Result<(), Error> {
        let (links, places) = Link2x32::parts(table);
        // SAFETY: each pointer comes from a reference, with the length of its slice, and no mutable reference overlaps another one.
        done(unsafe { ic_list32_transfer_before(links, places, &mut self.0, number(at), &mut given.0, place) })
    }
    // to here
}

// Made by tools/c-calls --write of list: list32
impl List32 {
    /// Returns a list with no members, in O(1).
    #[inline]
    #[must_use]
    pub const fn new() -> List32 {
        List32(ic_list { head: 0, tail: 0 })
    }

    /// Returns the list with these words, which may have any values, for example from a file. The call [`check`](Self::check) says whether the
    /// words of the list and of its table form a list.
    #[inline]
    #[must_use]
    pub const fn from_words([head, tail]: [u64; 2]) -> List32 {
        List32(ic_list { head, tail })
    }

    /// Returns the words of the list, for example to write them to a file. The words contain no addresses.
    #[inline]
    #[must_use]
    pub const fn words(&self) -> [u64; 2] {
        [self.0.head, self.0.tail]
    }

    /// Returns whether there are no members, in O(1).
    #[inline]
    #[must_use]
    pub fn is_empty(&self) -> bool {
        is_none(self.0.head)
    }

    /// Returns the first member, in O(1), or `None` if there are no members.
    #[inline]
    #[must_use]
    pub fn first(&self) -> Option<u32> {
        place(self.0.head)
    }

    /// Returns the last member, in O(1), or `None` if there are no members.
    #[inline]
    #[must_use]
    pub fn last(&self) -> Option<u32> {
        place(self.0.tail)
    }

    /// Returns the member after the member `at`, in O(1). The call returns `None` if `at` is the last member, is not linked or is not in the
    /// table, or if the link of `at` leads out of the table.
    #[inline]
    #[must_use]
    pub fn next(&self, table: &[Link2x32], at: u32) -> Option<u32> {
        read(table, at, Link2x32::next)
    }

    /// Returns the member before the member `at`, in O(1). The call returns `None` if `at` is the first member, is not linked or is not in the
    /// table, or if the link of `at` leads out of the table.
    #[inline]
    #[must_use]
    pub fn prev(&self, table: &[Link2x32], at: u32) -> Option<u32> {
        read(table, at, Link2x32::prev)
    }
}

collection!(List32, Link2x32);
bidirectional!(List32, Link2x32);
from_place!(List32, Link2x32);

impl fmt::Debug for List32 {
    fn fmt(&self, f: &mut fmt::Formatter<'_>) -> fmt::Result {
        f.debug_struct("List32").field("first", &self.first()).field("last", &self.last()).finish()
    }
}

impl Collection for List32 {
    type Link = Link2x32;
    type Position = Option<u32>;

    #[inline]
    fn next(&self, table: &[Link2x32], at: Option<u32>) -> Option<u32> {
        at.map_or_else(|| within(table, self.first()), |at| List32::next(self, table, at))
    }

    #[inline]
    fn end(&self, table: &[Link2x32]) -> Option<u32> {
        Bidirectional::prev(self, table, None)
    }

    #[inline]
    fn insert_after(&mut self, table: &mut [Link2x32], at: Option<u32>, place: u32) -> Result<(), Error> {
        List32::insert_after(self, table, at, place)
    }

    #[inline]
    fn remove_next(&mut self, table: &mut [Link2x32], at: Option<u32>) -> Result<Option<u32>, Error> {
        let next = Collection::next(self, table, at);
        next.map_or(Ok(()), |next| List32::remove(self, table, next))?;
        Ok(next)
    }
}

impl Bidirectional for List32 {
    #[inline]
    fn prev(&self, table: &[Link2x32], at: Option<u32>) -> Option<u32> {
        at.map_or_else(|| within(table, self.last()), |at| List32::prev(self, table, at))
    }

    #[inline]
    fn insert_before(&mut self, table: &mut [Link2x32], at: Option<u32>, place: u32) -> Result<Option<u32>, Error> {
        List32::insert_before(self, table, at, place)?;
        Ok(at)
    }

    #[inline]
    fn remove(&mut self, table: &mut [Link2x32], at: Option<u32>) -> Result<Option<u32>, Error> {
        let next = Collection::next(self, table, at);
        List32::remove(self, table, number(at))?;
        Ok(next)
    }

    #[inline]
    fn replace(&mut self, table: &mut [Link2x32], at: Option<u32>, place: u32) -> Result<Option<u32>, Error> {
        List32::replace(self, table, number(at), place)?;
        Ok(Some(place))
    }
}

impl Splice for List32 {
    #[inline]
    fn splice_after(&mut self, table: &mut [Link2x32], at: Option<u32>, given: &mut List32) -> Result<(), Error> {
        List32::splice_after(self, table, at, given)
    }

    #[inline]
    fn split_after(&mut self, table: &mut [Link2x32], at: Option<u32>) -> Result<List32, Error> {
        List32::split_after(self, table, at)
    }
}

impl BidirectionalSplice for List32 {
    #[inline]
    fn splice_before(
        &mut self,
        table: &mut [Link2x32],
        at: Option<u32>,
        given: &mut List32,
    ) -> Result<Option<u32>, Error> {
        List32::splice_before(self, table, at, given)?;
        Ok(at)
    }

    #[inline]
    fn split_before(&mut self, table: &mut [Link2x32], at: Option<u32>) -> Result<(List32, Option<u32>), Error> {
        Ok((List32::split_before(self, table, at)?, at))
    }
}
// to here
