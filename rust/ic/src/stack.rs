//! Singly linked lists.

use crate::collection::{collection, from_place, Collection, Position, Splice};
use crate::error::{counted, done, handed_out};
use crate::link::{is_none, linked, number, place, read, within, Link};
use crate::{Cursor, CursorMut, Error, Iter, Link1, View};
use core::fmt;
use ic_sys::*;

/// A singly linked list over a table of [`Link1`].
///
/// A singly linked list is good for stacks and free lists. Calls edit the list after a member, or at the front:
///
/// ```
/// use ic::{Error, Link1, Stack};
///
/// let mut links = [Link1::UNLINKED; 5];
/// let mut free = Stack::new();
/// for place in (0..4).rev() {
///     free.push_front(&mut links, place)?;
/// }
/// assert_eq!(free.pop_front(&mut links)?, Some(0));
/// free.insert_after(&mut links, Some(1), 4)?;
/// assert_eq!(free.remove_after(&mut links, Some(2))?, Some(3));
/// assert_eq!(format!("{:?}", free.view(&links)), "[1, 4, 2]");
///
/// let mut large = free.split_after(&mut links, Some(1))?;
/// large.splice_after(&mut links, Some(4), &mut free)?;
/// large.retain(&mut links, |place| place > 1)?;
/// assert!(large.iter(&links).eq([4, 2]) && free.is_empty());
/// # Ok::<(), Error>(())
/// ```
///
/// If a slice of yours has a key for each place, you can sort the members of a list by their keys, and merge another list into it:
///
/// ```
/// # use ic::{Error, Link1, Stack};
/// let (keys, mut links) = ([30, 10, 20, 10], [Link1::UNLINKED; 4]);
/// let (mut list, mut late) = (Stack::new(), Stack::new());
/// list.fill(&mut links, 0, 3)?;
/// late.push_front(&mut links, 3)?;
/// list.sort(&mut links, &keys)?;
/// list.merge(&mut links, &keys, &mut late)?;
/// assert!(list.iter(&links).eq([1, 3, 2, 0]) && late.is_empty());
/// # Ok::<(), Error>(())
/// ```
///
/// If you drop the list, its members stay linked. Use a clone of the list only with a clone of its table.
#[repr(transparent)]
#[derive(Clone, Default, PartialEq, Eq)]
pub struct Stack(pub(crate) ic_stack);

impl Stack {
    /// Returns a list with no members, in O(1).
    #[inline]
    #[must_use]
    pub const fn new() -> Stack {
        Stack(ic_stack { head: 0 })
    }

    /// Returns the list with these words, which may have any values, for example from a file. The call [`check`](Self::check) says whether the
    /// words of the list and of its table form a list.
    #[inline]
    #[must_use]
    pub const fn from_words([head]: [u64; 1]) -> Stack {
        Stack(ic_stack { head })
    }

    /// Returns the words of the list, for example to write them to a file. The words contain no addresses.
    #[inline]
    #[must_use]
    pub const fn words(&self) -> [u64; 1] {
        [self.0.head]
    }

    /// Returns whether there are no members, in O(1).
    #[inline]
    #[must_use]
    pub fn is_empty(&self) -> bool {
        is_none(self.0.head)
    }

    /// Returns the first member, in O(1), or `None` if there are no members.
    #[inline]
    #[must_use]
    pub fn first(&self) -> Option<u32> {
        place(self.0.head)
    }

    /// Returns the member after the member `at`, in O(1). The call returns `None` if `at` is the last member, is not linked or is not in the
    /// table, or if the link of `at` leads out of the table.
    #[inline]
    #[must_use]
    pub fn next(&self, table: &[Link1], at: u32) -> Option<u32> {
        read(table, at, Link1::next)
    }

    // Made by tools/c-calls --write: stack stack-keys
    /// Inserts `place` at the front, in O(1).
    ///
    /// # Errors
    ///
    /// [`Error::OutOfRange`] if `place` is not below the table's length. [`Error::Linked`] if `place` is linked already. [`Error::Broken`]
    /// if the first member is not linked in this table.
    #[inline]
    pub fn push_front(&mut self, table: &mut [Link1], place: u32) -> Result<(), Error> {
        let (links, places) = Link1::parts(table);
        // SAFETY: each pointer comes from a reference, with the length of its slice, and no mutable reference overlaps another one.
        done(unsafe { ic_stack_push_front(links, places, &mut self.0, place) })
    }

    /// Removes the first member, and returns this member, in O(1). The call returns `None` if the list is empty.
    ///
    /// # Errors
    ///
    /// [`Error::Broken`] if the first member is not linked in this table.
    #[inline]
    pub fn pop_front(&mut self, table: &mut [Link1]) -> Result<Option<u32>, Error> {
        let (links, places) = Link1::parts(table);
        // SAFETY: each pointer comes from a reference, with the length of its slice, and no mutable reference overlaps another one.
        handed_out(|it| unsafe { ic_stack_pop_front(links, places, &mut self.0, it) })
    }

    /// Inserts `place` after the member `at`, or at the front if `at` is `None`, in O(1).
    ///
    /// # Errors
    ///
    /// [`Error::OutOfRange`] if `at` or `place` is not below the table's length. [`Error::Linked`] if `place` is linked already.
    /// [`Error::NotLinked`] if the place `at` is not linked. [`Error::Broken`] if the member that is to follow `place` is not linked in
    /// this table.
    #[inline]
    pub fn insert_after(&mut self, table: &mut [Link1], at: Option<u32>, place: u32) -> Result<(), Error> {
        let (links, places) = Link1::parts(table);
        // SAFETY: each pointer comes from a reference, with the length of its slice, and no mutable reference overlaps another one.
        done(unsafe { ic_stack_insert_after(links, places, &mut self.0, number(at), place) })
    }

    /// Removes the member after the member `at`, or the first member if `at` is `None`, and returns this member, in O(1). The call returns
    /// `None` if `at` is the last member, or the list is empty.
    ///
    /// # Errors
    ///
    /// [`Error::OutOfRange`] if the place `at` is not below the table's length. [`Error::NotLinked`] if the place `at` is not linked.
    /// [`Error::Broken`] if the member to remove is not linked in this table.
    #[inline]
    pub fn remove_after(&mut self, table: &mut [Link1], at: Option<u32>) -> Result<Option<u32>, Error> {
        let (links, places) = Link1::parts(table);
        // SAFETY: each pointer comes from a reference, with the length of its slice, and no mutable reference overlaps another one.
        handed_out(|it| unsafe { ic_stack_remove_after(links, places, &mut self.0, number(at), it) })
    }

    /// Removes the member after the member `at`, or the first member if `at` is `None`, inserts `place` in its position, and returns the
    /// removed member, in O(1).
    ///
    /// # Errors
    ///
    /// [`Error::Null`] if `at` is the last member, or the list is empty. [`Error::OutOfRange`] if `at` or `place` is not below the table's
    /// length. [`Error::Linked`] if `place` is linked already. [`Error::NotLinked`] if the place `at` is not linked. [`Error::Broken`] if
    /// the member to remove is not linked in this table.
    #[inline]
    pub fn replace_after(&mut self, table: &mut [Link1], at: Option<u32>, place: u32) -> Result<u32, Error> {
        let (links, places) = Link1::parts(table);
        // SAFETY: each pointer comes from a reference, with the length of its slice, and no mutable reference overlaps another one.
        let removed =
            handed_out(|it| unsafe { ic_stack_replace_after(links, places, &mut self.0, number(at), place, it) })?;
        removed.ok_or(Error::Null)
    }

    /// Moves all members of `given`, in their order, after the member `at`, or to the front if `at` is `None`, and leaves `given` empty, in
    /// O(members of `given`).
    ///
    /// # Errors
    ///
    /// [`Error::OutOfRange`] if the place `at` is not below the table's length. [`Error::NotLinked`] if the place `at` is not linked.
    /// [`Error::Broken`] if the links of `given` run in a circle, or lead to a place that is not linked in this table, or both lists begin
    /// with the same member, as a list and its copy do.
    #[inline]
    pub fn splice_after(&mut self, table: &mut [Link1], at: Option<u32>, given: &mut Stack) -> Result<(), Error> {
        let (links, places) = Link1::parts(table);
        // SAFETY: each pointer comes from a reference, with the length of its slice, and no mutable reference overlaps another one.
        done(unsafe { ic_stack_splice_after(links, places, &mut self.0, number(at), &mut given.0) })
    }

    /// Moves the members after the member `at`, or all members if `at` is `None`, to a new list, which the call returns, in O(1).
    ///
    /// # Errors
    ///
    /// [`Error::OutOfRange`] if the place `at` is not below the table's length. [`Error::NotLinked`] if the place `at` is not linked.
    /// [`Error::Broken`] if the first member to move is not linked in this table.
    #[inline]
    pub fn split_after(&mut self, table: &mut [Link1], at: Option<u32>) -> Result<Stack, Error> {
        let ((links, places), mut rest) = (Link1::parts(table), Stack::new());
        // SAFETY: each pointer comes from a reference, with the length of its slice, and no mutable reference overlaps another one.
        done(unsafe { ic_stack_split_after(links, places, &mut self.0, number(at), &mut rest.0) })?;
        Ok(rest)
    }

    /// Inserts the `count` places `first`, `first` + 1 and so on at the front, in rising order, so that `first` becomes the first member,
    /// in O(count). If `count` is 0, the call changes nothing.
    ///
    /// # Errors
    ///
    /// [`Error::OutOfRange`] if none of these places is linked, but one is not below the table's length. [`Error::Linked`] if one of these
    /// places is linked already. [`Error::Broken`] if the first member is not linked in this table.
    #[inline]
    pub fn fill(&mut self, table: &mut [Link1], first: u32, count: u32) -> Result<(), Error> {
        let (links, places) = Link1::parts(table);
        // SAFETY: each pointer comes from a reference, with the length of its slice, and no mutable reference overlaps another one.
        done(unsafe { ic_stack_fill(links, places, &mut self.0, first, count) })
    }

    /// Removes all members, in O(n).
    ///
    /// # Errors
    ///
    /// [`Error::Broken`] if the links from the first member on run in a circle, or lead to a place that is not linked in this table.
    #[inline]
    pub fn clear(&mut self, table: &mut [Link1]) -> Result<(), Error> {
        let (links, places) = Link1::parts(table);
        // SAFETY: each pointer comes from a reference, with the length of its slice, and no mutable reference overlaps another one.
        done(unsafe { ic_stack_clear(links, places, &mut self.0) })
    }

    /// Counts the members, and returns their number, in O(n). Make this call if the words come from a file, or from memory to which other
    /// programs write. If the call returns a number, all other calls on this list do what their comments say. The call returns `None` if
    /// the links from the first member on run in a circle, or lead to a place that is not linked in this table.
    #[inline]
    #[must_use]
    pub fn check(&self, table: &[Link1]) -> Option<u64> {
        let (links, places) = Link1::read_parts(table);
        // SAFETY: each pointer comes from a reference, with the length of its slice, and no mutable reference overlaps another one.
        counted(|members| unsafe { ic_stack_check(links, places, &self.0, members) })
    }

    /// Sorts the members by their keys, in O(n log n). Members with equal keys keep their order.
    ///
    /// # Errors
    ///
    /// [`Error::OutOfRange`] if there are fewer keys than places. [`Error::Broken`] if the links from the first member on run in a circle,
    /// or lead to a place that is not linked in this table.
    #[inline]
    pub fn sort(&mut self, table: &mut [Link1], keys: &[u64]) -> Result<(), Error> {
        let (links, places) = Link1::parts(table);
        // SAFETY: each pointer comes from a reference, with the length of its slice, and no mutable reference overlaps another one.
        done(unsafe { ic_stack_sort(links, places, keys.as_ptr(), keys.len(), &mut self.0) })
    }

    /// Moves all members of `given` into this list, in O(n). If both lists were sorted by keys, this list is sorted by keys after the call.
    /// Of members with equal keys, those that were in this list come first. After the call `given` is empty.
    ///
    /// # Errors
    ///
    /// [`Error::OutOfRange`] if there are fewer keys than places. [`Error::Broken`] if the links of one of the lists run in a circle, or
    /// lead to a place that is not linked in this table, or both lists have the same last member, as lists with a common member do.
    #[inline]
    pub fn merge(&mut self, table: &mut [Link1], keys: &[u64], given: &mut Stack) -> Result<(), Error> {
        let (links, places) = Link1::parts(table);
        // SAFETY: each pointer comes from a reference, with the length of its slice, and no mutable reference overlaps another one.
        done(unsafe { ic_stack_merge(links, places, keys.as_ptr(), keys.len(), &mut self.0, &mut given.0) })
    }
    // to here

    /// Removes `place` from any position in the list, in O(n). The function calls [`hash::remove`](crate::hash::remove) with the list as the
    /// only bucket.
    ///
    /// # Errors
    ///
    /// [`Error::Null`] if `place` is `u32::MAX`. [`Error::OutOfRange`] if `place` is not below the table's length. [`Error::NotLinked`] if
    /// `place` is not linked. [`Error::Broken`] if `place` is linked, for example in another list, but the links of this list do not lead to
    /// `place`.
    #[inline]
    pub fn remove(&mut self, table: &mut [Link1], place: u32) -> Result<(), Error> {
        crate::hash::remove(table, core::slice::from_mut(self), 0, place)
    }
}

collection!(Stack, Link1);
from_place!(Stack, Link1);

impl fmt::Debug for Stack {
    fn fmt(&self, f: &mut fmt::Formatter<'_>) -> fmt::Result {
        f.debug_struct("Stack").field("first", &self.first()).finish()
    }
}

impl Collection for Stack {
    type Link = Link1;
    type Position = Option<u32>;

    #[inline]
    fn next(&self, table: &[Link1], at: Option<u32>) -> Option<u32> {
        at.map_or_else(|| within(table, self.first()), |at| Stack::next(self, table, at))
    }

    #[inline]
    fn end(&self, _: &[Link1]) -> Option<u32> {
        None
    }

    #[inline]
    fn insert_after(&mut self, table: &mut [Link1], at: Option<u32>, place: u32) -> Result<(), Error> {
        Stack::insert_after(self, table, at, place)
    }

    #[inline]
    fn remove_next(&mut self, table: &mut [Link1], at: Option<u32>) -> Result<Option<u32>, Error> {
        self.remove_after(table, at)
    }
}

impl Splice for Stack {
    #[inline]
    fn splice_after(&mut self, table: &mut [Link1], at: Option<u32>, given: &mut Stack) -> Result<(), Error> {
        Stack::splice_after(self, table, at, given)
    }

    #[inline]
    fn split_after(&mut self, table: &mut [Link1], at: Option<u32>) -> Result<Stack, Error> {
        Stack::split_after(self, table, at)
    }
}
