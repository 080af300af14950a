//! Doubly linked lists.

use crate::collection::{
    bidirectional, collection, from_place, Bidirectional, BidirectionalSplice, Collection, Position, Splice,
};
use crate::error::{counted, done, handed_out};
use crate::link::{is_none, linked, number, place, read, within, Link};
use crate::{Cursor, CursorMut, Error, Iter, Link2, View};
use core::fmt;
use ic_sys::*;

/// A doubly linked list over a table of [`Link2`].
///
/// A doubly linked list is good for queues, and for caches, where you also remove objects from the middle. In this sample the place that was
/// used last comes first in the list:
///
/// ```
/// use ic::{Error, Link2, List};
///
/// let mut links = [Link2::UNLINKED; 4];
/// let mut recent = List::new();
/// for used in [3, 1, 2, 3, 1] {
///     if links[used as usize].is_linked() {
///         recent.move_to_front(&mut links, used)?;
///     } else {
///         recent.push_front(&mut links, used)?;
///     }
/// }
/// assert!(recent.iter(&links).eq([1, 3, 2]));
/// assert_eq!(recent.pop_back(&mut links)?, Some(2));
///
/// recent.insert_before(&mut links, Some(3), 0)?;
/// let mut old = recent.split_after(&mut links, Some(0))?;
/// assert_eq!(format!("{:?} {:?}", recent.view(&links), old.view(&links)), "[1, 0] [3]");
/// recent.splice_before(&mut links, Some(1), &mut old)?;
/// recent.retain(&mut links, |place| place != 1)?;
/// assert!(recent.iter(&links).rev().eq([0, 3]) && old.is_empty());
/// # Ok::<(), Error>(())
/// ```
///
/// A transfer moves one member from one list to another list, as a scheduler does with a task that has stopped waiting:
///
/// ```
/// # use ic::{Error, Link2, List};
/// let (mut links, mut ready, mut waiting) = ([Link2::UNLINKED; 4], List::new(), List::new());
/// ready.fill(&mut links, 0, 2)?;
/// waiting.fill(&mut links, 2, 2)?;
/// ready.transfer_before(&mut links, None, &mut waiting, 3)?; // to the back
/// ready.transfer_after(&mut links, Some(0), &mut waiting, 2)?;
/// assert!(ready.iter(&links).eq([0, 2, 1, 3]) && waiting.is_empty());
/// # Ok::<(), Error>(())
/// ```
///
/// If a slice of yours has a key for each place, you can sort the members by their keys:
///
/// ```
/// # use ic::{Error, Link2, List};
/// let (keys, mut links, mut list) = ([30, 10, 20, 10], [Link2::UNLINKED; 4], List::new());
/// list.fill(&mut links, 0, 4)?;
/// list.sort(&mut links, &keys)?;
/// assert!(list.iter(&links).eq([1, 3, 2, 0]));
/// # Ok::<(), Error>(())
/// ```
///
/// Words that come from a file may have any values. The call [`check`](Self::check) returns `None` if the words form no list:
///
/// ```
/// # use ic::{Error, Link2, List};
/// let mut links = [Link2::UNLINKED; 4];
/// let mut list = List::new();
/// list.fill(&mut links, 0, 3)?;
/// let (table, ends) = (links.map(|link| link.words()), list.words());
///
/// let mut again = table.map(Link2::from_words);
/// assert_eq!(List::from_words(ends).check(&again), Some(3));
/// again[1] = Link2::UNLINKED;
/// assert_eq!(List::from_words(ends).check(&again), None);
/// # Ok::<(), Error>(())
/// ```
///
/// If you drop the list, its members stay linked. Use a clone of the list only with a clone of its table.
#[repr(transparent)]
#[derive(Clone, Default, PartialEq, Eq)]
pub struct List(pub(crate) ic_list);

impl List {
    // Made by tools/c-calls --write: list list-fill list-keys list-transfer
    /// Inserts `place` at the front, in O(1).
    ///
    /// # Errors
    ///
    /// [`Error::OutOfRange`] if `place` is not below the table's length. [`Error::Linked`] if `place` is linked already. [`Error::Broken`]
    /// if the first member is not linked in this table, or has a link to a member before it.
    #[inline]
    pub fn push_front(&mut self, table: &mut [Link2], place: u32) -> Result<(), Error> {
        let (links, places) = Link2::parts(table);
        // SAFETY: each pointer comes from a reference, with the length of its slice, and no mutable reference overlaps another one.
        done(unsafe { ic_list_push_front(links, places, &mut self.0, place) })
    }

    /// Inserts `place` at the back, in O(1).
    ///
    /// # Errors
    ///
    /// [`Error::OutOfRange`] if `place` is not below the table's length. [`Error::Linked`] if `place` is linked already. [`Error::Broken`]
    /// if the last member is not linked in this table, or has a link to a member after it.
    #[inline]
    pub fn push_back(&mut self, table: &mut [Link2], place: u32) -> Result<(), Error> {
        let (links, places) = Link2::parts(table);
        // SAFETY: each pointer comes from a reference, with the length of its slice, and no mutable reference overlaps another one.
        done(unsafe { ic_list_push_back(links, places, &mut self.0, place) })
    }

    /// Removes the first member, and returns this member, in O(1). The call returns `None` if the list is empty.
    ///
    /// # Errors
    ///
    /// [`Error::Broken`] if the first member is not linked in this table, or has a link to a member before it, or the second member has no
    /// link back to the first.
    #[inline]
    pub fn pop_front(&mut self, table: &mut [Link2]) -> Result<Option<u32>, Error> {
        let (links, places) = Link2::parts(table);
        // SAFETY: each pointer comes from a reference, with the length of its slice, and no mutable reference overlaps another one.
        handed_out(|it| unsafe { ic_list_pop_front(links, places, &mut self.0, it) })
    }

    /// Removes the last member, and returns this member, in O(1). The call returns `None` if the list is empty.
    ///
    /// # Errors
    ///
    /// [`Error::Broken`] if the last member is not linked in this table, or has a link to a member after it, or the second-to-last member
    /// has no link to the last.
    #[inline]
    pub fn pop_back(&mut self, table: &mut [Link2]) -> Result<Option<u32>, Error> {
        let (links, places) = Link2::parts(table);
        // SAFETY: each pointer comes from a reference, with the length of its slice, and no mutable reference overlaps another one.
        handed_out(|it| unsafe { ic_list_pop_back(links, places, &mut self.0, it) })
    }

    /// Inserts `place` after the member `at`, or at the front if `at` is `None`, in O(1).
    ///
    /// # Errors
    ///
    /// [`Error::OutOfRange`] if `at` or `place` is not below the table's length. [`Error::Linked`] if `place` is linked already.
    /// [`Error::NotLinked`] if the place `at` is not linked. [`Error::Broken`] if `at` is no member of the list according to its links.
    #[inline]
    pub fn insert_after(&mut self, table: &mut [Link2], at: Option<u32>, place: u32) -> Result<(), Error> {
        let (links, places) = Link2::parts(table);
        // SAFETY: each pointer comes from a reference, with the length of its slice, and no mutable reference overlaps another one.
        done(unsafe { ic_list_insert_after(links, places, &mut self.0, number(at), place) })
    }

    /// Inserts `place` before the member `at`, or at the back if `at` is `None`, in O(1).
    ///
    /// # Errors
    ///
    /// [`Error::OutOfRange`] if `at` or `place` is not below the table's length. [`Error::Linked`] if `place` is linked already.
    /// [`Error::NotLinked`] if the place `at` is not linked. [`Error::Broken`] if `at` is no member of the list according to its links.
    #[inline]
    pub fn insert_before(&mut self, table: &mut [Link2], at: Option<u32>, place: u32) -> Result<(), Error> {
        let (links, places) = Link2::parts(table);
        // SAFETY: each pointer comes from a reference, with the length of its slice, and no mutable reference overlaps another one.
        done(unsafe { ic_list_insert_before(links, places, &mut self.0, number(at), place) })
    }

    /// Removes the member `at`, in O(1).
    ///
    /// # Errors
    ///
    /// [`Error::Null`] if the place `at` is `u32::MAX`. [`Error::OutOfRange`] if the place `at` is not below the table's length.
    /// [`Error::NotLinked`] if the place `at` is not linked. [`Error::Broken`] if `at` is no member of the list according to its links.
    #[inline]
    pub fn remove(&mut self, table: &mut [Link2], at: u32) -> Result<(), Error> {
        let (links, places) = Link2::parts(table);
        // SAFETY: each pointer comes from a reference, with the length of its slice, and no mutable reference overlaps another one.
        done(unsafe { ic_list_remove(links, places, &mut self.0, at) })
    }

    /// Removes the member `at`, and inserts `place` where `at` was, in O(1).
    ///
    /// # Errors
    ///
    /// [`Error::Null`] if the place `at` is `u32::MAX`. [`Error::OutOfRange`] if `at` or `place` is not below the table's length.
    /// [`Error::Linked`] if `place` is linked already, or is `at` itself. [`Error::NotLinked`] if the place `at` is not linked.
    /// [`Error::Broken`] if `at` is no member of the list according to its links.
    #[inline]
    pub fn replace(&mut self, table: &mut [Link2], at: u32, place: u32) -> Result<(), Error> {
        let (links, places) = Link2::parts(table);
        // SAFETY: each pointer comes from a reference, with the length of its slice, and no mutable reference overlaps another one.
        done(unsafe { ic_list_replace(links, places, &mut self.0, at, place) })
    }

    /// Moves the member `place` after the member `at`, or to the front if `at` is `None`, in O(1). `place` stays linked during the call.
    /// Nothing changes if `place` is at this position already, or if `at` and `place` are the same place.
    ///
    /// # Errors
    ///
    /// [`Error::Null`] if `place` is `u32::MAX`. [`Error::OutOfRange`] if `at` or `place` is not below the table's length.
    /// [`Error::NotLinked`] if `at` or `place` is not linked. [`Error::Broken`] if `at` or `place` is no member of the list according to
    /// their links.
    #[inline]
    pub fn move_after(&mut self, table: &mut [Link2], at: Option<u32>, place: u32) -> Result<(), Error> {
        let (links, places) = Link2::parts(table);
        // SAFETY: each pointer comes from a reference, with the length of its slice, and no mutable reference overlaps another one.
        done(unsafe { ic_list_move_after(links, places, &mut self.0, number(at), place) })
    }

    /// Moves the member `place` before the member `at`, or to the back if `at` is `None`, in O(1). `place` stays linked during the call.
    /// Nothing changes if `place` is at this position already, or if `at` and `place` are the same place.
    ///
    /// # Errors
    ///
    /// [`Error::Null`] if `place` is `u32::MAX`. [`Error::OutOfRange`] if `at` or `place` is not below the table's length.
    /// [`Error::NotLinked`] if `at` or `place` is not linked. [`Error::Broken`] if `at` or `place` is no member of the list according to
    /// their links.
    #[inline]
    pub fn move_before(&mut self, table: &mut [Link2], at: Option<u32>, place: u32) -> Result<(), Error> {
        let (links, places) = Link2::parts(table);
        // SAFETY: each pointer comes from a reference, with the length of its slice, and no mutable reference overlaps another one.
        done(unsafe { ic_list_move_before(links, places, &mut self.0, number(at), place) })
    }

    /// Moves the member `place` to the front, as a cache does with an object that it has just used, in O(1). `place` stays linked during
    /// the call.
    ///
    /// # Errors
    ///
    /// [`Error::Null`] if `place` is `u32::MAX`. [`Error::OutOfRange`] if `place` is not below the table's length. [`Error::NotLinked`] if
    /// `place` is not linked. [`Error::Broken`] if `place` is no member of the list according to its links, or the first member is not
    /// linked in this table, or has a link to a member before it.
    #[inline]
    pub fn move_to_front(&mut self, table: &mut [Link2], place: u32) -> Result<(), Error> {
        let (links, places) = Link2::parts(table);
        // SAFETY: each pointer comes from a reference, with the length of its slice, and no mutable reference overlaps another one.
        done(unsafe { ic_list_move_to_front(links, places, &mut self.0, place) })
    }

    /// Moves the member `place` to the back, in O(1). `place` stays linked during the call.
    ///
    /// # Errors
    ///
    /// [`Error::Null`] if `place` is `u32::MAX`. [`Error::OutOfRange`] if `place` is not below the table's length. [`Error::NotLinked`] if
    /// `place` is not linked. [`Error::Broken`] if `place` is no member of the list according to its links, or the last member is not
    /// linked in this table, or has a link to a member after it.
    #[inline]
    pub fn move_to_back(&mut self, table: &mut [Link2], place: u32) -> Result<(), Error> {
        let (links, places) = Link2::parts(table);
        // SAFETY: each pointer comes from a reference, with the length of its slice, and no mutable reference overlaps another one.
        done(unsafe { ic_list_move_to_back(links, places, &mut self.0, place) })
    }

    /// Moves all members of `given`, in their order, after the member `at`, or to the front if `at` is `None`, and leaves `given` empty, in
    /// O(1).
    ///
    /// # Errors
    ///
    /// [`Error::OutOfRange`] if the place `at` is not below the table's length. [`Error::NotLinked`] if the place `at` is not linked.
    /// [`Error::Broken`] if `at` is no member of the list according to its links, or `given` is no list of this table, or both lists begin
    /// with the same member, as a list and its copy do.
    #[inline]
    pub fn splice_after(&mut self, table: &mut [Link2], at: Option<u32>, given: &mut List) -> Result<(), Error> {
        let (links, places) = Link2::parts(table);
        // SAFETY: each pointer comes from a reference, with the length of its slice, and no mutable reference overlaps another one.
        done(unsafe { ic_list_splice_after(links, places, &mut self.0, number(at), &mut given.0) })
    }

    /// Moves all members of `given`, in their order, before the member `at`, or to the back if `at` is `None`, and leaves `given` empty, in
    /// O(1).
    ///
    /// # Errors
    ///
    /// [`Error::OutOfRange`] if the place `at` is not below the table's length. [`Error::NotLinked`] if the place `at` is not linked.
    /// [`Error::Broken`] if `at` is no member of the list according to its links, or `given` is no list of this table, or both lists begin
    /// with the same member, as a list and its copy do.
    #[inline]
    pub fn splice_before(&mut self, table: &mut [Link2], at: Option<u32>, given: &mut List) -> Result<(), Error> {
        let (links, places) = Link2::parts(table);
        // SAFETY: each pointer comes from a reference, with the length of its slice, and no mutable reference overlaps another one.
        done(unsafe { ic_list_splice_before(links, places, &mut self.0, number(at), &mut given.0) })
    }

    /// Moves all members of `given`, in their order, to the back, and leaves `given` empty, in O(1).
    ///
    /// # Errors
    ///
    /// [`Error::Broken`] if the last member is not linked in this table, or has a link to a member after it, or `given` is no list of this
    /// table, or both lists begin with the same member, as a list and its copy do.
    #[inline]
    pub fn append(&mut self, table: &mut [Link2], given: &mut List) -> Result<(), Error> {
        let (links, places) = Link2::parts(table);
        // SAFETY: each pointer comes from a reference, with the length of its slice, and no mutable reference overlaps another one.
        done(unsafe { ic_list_append(links, places, &mut self.0, &mut given.0) })
    }

    /// Inserts the `count` places `first`, `first` + 1 and so on at the back, in rising order, in O(count). If `count` is 0, the call
    /// changes nothing.
    ///
    /// # Errors
    ///
    /// [`Error::OutOfRange`] if none of these places is linked, but one is not below the table's length. [`Error::Linked`] if one of these
    /// places is linked already. [`Error::Broken`] if the last member is not linked in this table, or has a link to a member after it.
    #[inline]
    pub fn fill(&mut self, table: &mut [Link2], first: u32, count: u32) -> Result<(), Error> {
        let (links, places) = Link2::parts(table);
        // SAFETY: each pointer comes from a reference, with the length of its slice, and no mutable reference overlaps another one.
        done(unsafe { ic_list_fill(links, places, &mut self.0, first, count) })
    }

    /// Removes all members, in O(n).
    ///
    /// # Errors
    ///
    /// [`Error::Broken`] if the links do not lead from the first member to the last, or two neighbors do not have links to each other.
    #[inline]
    pub fn clear(&mut self, table: &mut [Link2]) -> Result<(), Error> {
        let (links, places) = Link2::parts(table);
        // SAFETY: each pointer comes from a reference, with the length of its slice, and no mutable reference overlaps another one.
        done(unsafe { ic_list_clear(links, places, &mut self.0) })
    }

    /// Moves the members after the member `at`, or all members if `at` is `None`, to a new list, which the call returns, in O(1).
    ///
    /// # Errors
    ///
    /// [`Error::OutOfRange`] if the place `at` is not below the table's length. [`Error::NotLinked`] if the place `at` is not linked.
    /// [`Error::Broken`] if `at` is no member of the list according to its links.
    #[inline]
    pub fn split_after(&mut self, table: &mut [Link2], at: Option<u32>) -> Result<List, Error> {
        let ((links, places), mut rest) = (Link2::parts(table), List::new());
        // SAFETY: each pointer comes from a reference, with the length of its slice, and no mutable reference overlaps another one.
        done(unsafe { ic_list_split_after(links, places, &mut self.0, number(at), &mut rest.0) })?;
        Ok(rest)
    }

    /// Moves the members before the member `at`, or all members if `at` is `None`, to a new list, which the call returns, in O(1).
    ///
    /// # Errors
    ///
    /// [`Error::OutOfRange`] if the place `at` is not below the table's length. [`Error::NotLinked`] if the place `at` is not linked.
    /// [`Error::Broken`] if `at` is no member of the list according to its links.
    #[inline]
    pub fn split_before(&mut self, table: &mut [Link2], at: Option<u32>) -> Result<List, Error> {
        let ((links, places), mut rest) = (Link2::parts(table), List::new());
        // SAFETY: each pointer comes from a reference, with the length of its slice, and no mutable reference overlaps another one.
        done(unsafe { ic_list_split_before(links, places, &mut self.0, number(at), &mut rest.0) })?;
        Ok(rest)
    }

    /// Counts the members, and returns their number, in O(n). Make this call if the words come from a file, or from memory to which other
    /// programs write. If the call returns a number, all other calls on this list do what their comments say. The call returns `None` if
    /// the links do not lead from the first member to the last, or two neighbors do not have links to each other.
    #[inline]
    #[must_use]
    pub fn check(&self, table: &[Link2]) -> Option<u64> {
        let (links, places) = Link2::read_parts(table);
        // SAFETY: each pointer comes from a reference, with the length of its slice, and no mutable reference overlaps another one.
        counted(|members| unsafe { ic_list_check(links, places, &self.0, members) })
    }

    /// Sorts the members by their keys, in O(n log n). Members with equal keys keep their order.
    ///
    /// # Errors
    ///
    /// [`Error::OutOfRange`] if there are fewer keys than places. [`Error::Broken`] if the links do not lead from the first member to the
    /// last, or two neighbors do not have links to each other.
    #[inline]
    pub fn sort(&mut self, table: &mut [Link2], keys: &[u64]) -> Result<(), Error> {
        let (links, places) = Link2::parts(table);
        // SAFETY: each pointer comes from a reference, with the length of its slice, and no mutable reference overlaps another one.
        done(unsafe { ic_list_sort(links, places, keys.as_ptr(), keys.len(), &mut self.0) })
    }

    /// Moves all members of `given` into this list, in O(n). If both lists were sorted by keys, this list is sorted by keys after the call.
    /// Of members with equal keys, those that were in this list come first. After the call `given` is empty.
    ///
    /// # Errors
    ///
    /// [`Error::OutOfRange`] if there are fewer keys than places. [`Error::Broken`] if the links of one of the lists do not lead from its
    /// first member to its last, or two neighbors do not have links to each other, or both lists begin with the same member, as a list and
    /// its copy do.
    #[inline]
    pub fn merge(&mut self, table: &mut [Link2], keys: &[u64], given: &mut List) -> Result<(), Error> {
        let (links, places) = Link2::parts(table);
        // SAFETY: each pointer comes from a reference, with the length of its slice, and no mutable reference overlaps another one.
        done(unsafe { ic_list_merge(links, places, keys.as_ptr(), keys.len(), &mut self.0, &mut given.0) })
    }

    /// Moves the member `place` of `given` after the member `at`, or to the front if `at` is `None`, in O(1). `place` stays linked during
    /// the call.
    ///
    /// # Errors
    ///
    /// [`Error::Null`] if `place` is `u32::MAX`. [`Error::OutOfRange`] if `at` or `place` is not below the table's length.
    /// [`Error::NotLinked`] if `at` or `place` is not linked. [`Error::Broken`] if according to their links `at` is no member of the list
    /// or `place` is no member of `given`, or both lists begin with the same member, as a list and its copy do.
    #[inline]
    pub fn transfer_after(
        &mut self,
        table: &mut [Link2],
        at: Option<u32>,
        given: &mut List,
        place: u32,
    ) -> Result<(), Error> {
        let (links, places) = Link2::parts(table);
        // SAFETY: each pointer comes from a reference, with the length of its slice, and no mutable reference overlaps another one.
        done(unsafe { ic_list_transfer_after(links, places, &mut self.0, number(at), &mut given.0, place) })
    }

    /// Moves the member `place` of `given` before the member `at`, or to the back if `at` is `None`, in O(1). `place` stays linked during
    /// the call.
    ///
    /// # Errors
    ///
    /// [`Error::Null`] if `place` is `u32::MAX`. [`Error::OutOfRange`] if `at` or `place` is not below the table's length.
    /// [`Error::NotLinked`] if `at` or `place` is not linked. [`Error::Broken`] if according to their links `at` is no member of the list
    /// or `place` is no member of `given`, or both lists begin with the same member, as a list and its copy do.
    #[inline]
    pub fn transfer_before(
        &mut self,
        table: &mut [Link2],
        at: Option<u32>,
        given: &mut List,
        place: u32,
    ) -> Result<(), Error> {
        let (links, places) = Link2::parts(table);
        // SAFETY: each pointer comes from a reference, with the length of its slice, and no mutable reference overlaps another one.
        done(unsafe { ic_list_transfer_before(links, places, &mut self.0, number(at), &mut given.0, place) })
    }
    // to here
}

impl List {
    /// Returns a list with no members, in O(1).
    #[inline]
    #[must_use]
    pub const fn new() -> List {
        List(ic_list { head: 0, tail: 0 })
    }

    /// Returns the list with these words, which may have any values, for example from a file. The call [`check`](Self::check) says whether the
    /// words of the list and of its table form a list.
    #[inline]
    #[must_use]
    pub const fn from_words([head, tail]: [u64; 2]) -> List {
        List(ic_list { head, tail })
    }

    /// Returns the words of the list, for example to write them to a file. The words contain no addresses.
    #[inline]
    #[must_use]
    pub const fn words(&self) -> [u64; 2] {
        [self.0.head, self.0.tail]
    }

    /// Returns whether there are no members, in O(1).
    #[inline]
    #[must_use]
    pub fn is_empty(&self) -> bool {
        is_none(self.0.head)
    }

    /// Returns the first member, in O(1), or `None` if there are no members.
    #[inline]
    #[must_use]
    pub fn first(&self) -> Option<u32> {
        place(self.0.head)
    }

    /// Returns the last member, in O(1), or `None` if there are no members.
    #[inline]
    #[must_use]
    pub fn last(&self) -> Option<u32> {
        place(self.0.tail)
    }

    /// Returns the member after the member `at`, in O(1). The call returns `None` if `at` is the last member, is not linked or is not in the
    /// table, or if the link of `at` leads out of the table.
    #[inline]
    #[must_use]
    pub fn next(&self, table: &[Link2], at: u32) -> Option<u32> {
        read(table, at, Link2::next)
    }

    /// Returns the member before the member `at`, in O(1). The call returns `None` if `at` is the first member, is not linked or is not in the
    /// table, or if the link of `at` leads out of the table.
    #[inline]
    #[must_use]
    pub fn prev(&self, table: &[Link2], at: u32) -> Option<u32> {
        read(table, at, Link2::prev)
    }
}

collection!(List, Link2);
bidirectional!(List, Link2);
from_place!(List, Link2);

impl fmt::Debug for List {
    fn fmt(&self, f: &mut fmt::Formatter<'_>) -> fmt::Result {
        f.debug_struct("List").field("first", &self.first()).field("last", &self.last()).finish()
    }
}

impl Collection for List {
    type Link = Link2;
    type Position = Option<u32>;

    #[inline]
    fn next(&self, table: &[Link2], at: Option<u32>) -> Option<u32> {
        at.map_or_else(|| within(table, self.first()), |at| List::next(self, table, at))
    }

    #[inline]
    fn end(&self, table: &[Link2]) -> Option<u32> {
        Bidirectional::prev(self, table, None)
    }

    #[inline]
    fn insert_after(&mut self, table: &mut [Link2], at: Option<u32>, place: u32) -> Result<(), Error> {
        List::insert_after(self, table, at, place)
    }

    #[inline]
    fn remove_next(&mut self, table: &mut [Link2], at: Option<u32>) -> Result<Option<u32>, Error> {
        let next = Collection::next(self, table, at);
        next.map_or(Ok(()), |next| List::remove(self, table, next))?;
        Ok(next)
    }
}

impl Bidirectional for List {
    #[inline]
    fn prev(&self, table: &[Link2], at: Option<u32>) -> Option<u32> {
        at.map_or_else(|| within(table, self.last()), |at| List::prev(self, table, at))
    }

    #[inline]
    fn insert_before(&mut self, table: &mut [Link2], at: Option<u32>, place: u32) -> Result<Option<u32>, Error> {
        List::insert_before(self, table, at, place)?;
        Ok(at)
    }

    #[inline]
    fn remove(&mut self, table: &mut [Link2], at: Option<u32>) -> Result<Option<u32>, Error> {
        let next = Collection::next(self, table, at);
        List::remove(self, table, number(at))?;
        Ok(next)
    }

    #[inline]
    fn replace(&mut self, table: &mut [Link2], at: Option<u32>, place: u32) -> Result<Option<u32>, Error> {
        List::replace(self, table, number(at), place)?;
        Ok(Some(place))
    }
}

impl Splice for List {
    #[inline]
    fn splice_after(&mut self, table: &mut [Link2], at: Option<u32>, given: &mut List) -> Result<(), Error> {
        List::splice_after(self, table, at, given)
    }

    #[inline]
    fn split_after(&mut self, table: &mut [Link2], at: Option<u32>) -> Result<List, Error> {
        List::split_after(self, table, at)
    }
}

impl BidirectionalSplice for List {
    #[inline]
    fn splice_before(&mut self, table: &mut [Link2], at: Option<u32>, given: &mut List) -> Result<Option<u32>, Error> {
        List::splice_before(self, table, at, given)?;
        Ok(at)
    }

    #[inline]
    fn split_before(&mut self, table: &mut [Link2], at: Option<u32>) -> Result<(List, Option<u32>), Error> {
        Ok((List::split_before(self, table, at)?, at))
    }
}
