//! XOR lists.

use crate::collection::{bidirectional, collection, Bidirectional, BidirectionalSplice, Collection, Position, Splice};
use crate::error::{done, handed_out};
use crate::link::{is_none, linked, number, place, read, within, Link};
use crate::{Cursor, CursorMut, Error, Iter, Link1, View};
use core::{fmt, mem};
use ic_sys::*;

/// An XOR list over a table of [`Link1`].
///
/// An XOR list is good if you use a list at both ends and walk in both directions, and memory is scarce. Calls insert into a gap, which is the
/// position between two neighbors or at an end of the list. The link of a member does not name its two neighbors separately, so you name a gap
/// by the members on both sides. `before` is the member before the gap, or `None` at the front. `after` is the member after the gap, or `None`
/// at the back. A [cursor](CursorMut) knows the members on both sides of its position:
///
/// ```
/// use ic::{Error, Link1, XorList};
///
/// let mut links = [Link1::UNLINKED; 5];
/// let mut list = XorList::new();
/// list.push_back(&mut links, 0)?;
/// list.push_back(&mut links, 2)?;
/// list.insert_between(&mut links, Some(0), 1, Some(2))?;
/// list.reverse();
/// assert_eq!(format!("{:?}", list.view(&links)), "[2, 1, 0]");
///
/// let mut cursor = list.back_mut(&mut links);
/// cursor.insert_after(3)?;
/// cursor.insert_before(4)?;
/// cursor.move_prev();
/// cursor.move_prev();
/// assert_eq!(cursor.remove()?, Some(1));
/// let front = cursor.split_before()?;
/// assert!(list.iter(&links).eq([4, 0, 3]) && front.iter(&links).eq([2]));
/// list.retain(&mut links, |place| place > 0)?;
/// assert!(list.iter(&links).rev().eq([3, 4]));
/// # Ok::<(), Error>(())
/// ```
///
/// If you drop the list, its members stay linked. Use a clone of the list only with a clone of its table.
#[repr(transparent)]
#[derive(Clone, Default, PartialEq, Eq)]
pub struct XorList(pub(crate) ic_xor_list);

impl XorList {
    /// Returns a list with no members, in O(1).
    #[inline]
    #[must_use]
    pub const fn new() -> XorList {
        XorList(ic_xor_list { head: 0, tail: 0 })
    }

    /// Returns the list with these words, which may have any values. No call checks whether the words of the list and of its table form an XOR
    /// list.
    #[inline]
    #[must_use]
    pub const fn from_words([head, tail]: [u64; 2]) -> XorList {
        XorList(ic_xor_list { head, tail })
    }

    /// Returns the words of the list, for example to write them to a file. The words contain no addresses.
    #[inline]
    #[must_use]
    pub const fn words(&self) -> [u64; 2] {
        [self.0.head, self.0.tail]
    }

    /// Returns whether there are no members, in O(1).
    #[inline]
    #[must_use]
    pub fn is_empty(&self) -> bool {
        is_none(self.0.head)
    }

    /// Returns the first member, in O(1), or `None` if there are no members.
    #[inline]
    #[must_use]
    pub fn first(&self) -> Option<u32> {
        place(self.0.head)
    }

    /// Returns the last member, in O(1), or `None` if there are no members.
    #[inline]
    #[must_use]
    pub fn last(&self) -> Option<u32> {
        place(self.0.tail)
    }

    /// Returns the other neighbor of the member `at`, in O(1): the one that is not its neighbor `from`. If `at` is the first or the last
    /// member, pass `None` as `from` to get its only neighbor. The call returns `None` if there is no other neighbor, if `at` is not linked or
    /// is not in the table, or if the link of `at` leads out of the table.
    #[inline]
    #[must_use]
    pub fn step(&self, table: &[Link1], from: Option<u32>, at: u32) -> Option<u32> {
        read(table, at, |link: &Link1| link.step(from))
    }

    // Made by tools/c-calls --write: xor
    /// Inserts `place` at the front, in O(1).
    ///
    /// # Errors
    ///
    /// [`Error::OutOfRange`] if `place` is not below the table's length. [`Error::Linked`] if `place` is linked already. [`Error::Broken`]
    /// if the first member or the member after it is not linked in this table.
    #[inline]
    pub fn push_front(&mut self, table: &mut [Link1], place: u32) -> Result<(), Error> {
        let (links, places) = Link1::parts(table);
        // SAFETY: each pointer comes from a reference, with the length of its slice, and no mutable reference overlaps another one.
        done(unsafe { ic_xor_push_front(links, places, &mut self.0, place) })
    }

    /// Inserts `place` at the back, in O(1).
    ///
    /// # Errors
    ///
    /// [`Error::OutOfRange`] if `place` is not below the table's length. [`Error::Linked`] if `place` is linked already. [`Error::Broken`]
    /// if the last member or the member before it is not linked in this table.
    #[inline]
    pub fn push_back(&mut self, table: &mut [Link1], place: u32) -> Result<(), Error> {
        let (links, places) = Link1::parts(table);
        // SAFETY: each pointer comes from a reference, with the length of its slice, and no mutable reference overlaps another one.
        done(unsafe { ic_xor_push_back(links, places, &mut self.0, place) })
    }

    /// Removes the first member, and returns this member, in O(1). The call returns `None` if the list is empty.
    ///
    /// # Errors
    ///
    /// [`Error::Broken`] if the first member or one of the two members after it is not linked in this table.
    #[inline]
    pub fn pop_front(&mut self, table: &mut [Link1]) -> Result<Option<u32>, Error> {
        let (links, places) = Link1::parts(table);
        // SAFETY: each pointer comes from a reference, with the length of its slice, and no mutable reference overlaps another one.
        handed_out(|it| unsafe { ic_xor_pop_front(links, places, &mut self.0, it) })
    }

    /// Removes the last member, and returns this member, in O(1). The call returns `None` if the list is empty.
    ///
    /// # Errors
    ///
    /// [`Error::Broken`] if the last member or one of the two members before it is not linked in this table.
    #[inline]
    pub fn pop_back(&mut self, table: &mut [Link1]) -> Result<Option<u32>, Error> {
        let (links, places) = Link1::parts(table);
        // SAFETY: each pointer comes from a reference, with the length of its slice, and no mutable reference overlaps another one.
        handed_out(|it| unsafe { ic_xor_pop_back(links, places, &mut self.0, it) })
    }

    /// Inserts `place` between the neighbors `before` and `after`, in O(1). Pass `None` as `before` to insert before the first member, and
    /// `None` as `after` to insert after the last member.
    ///
    /// # Errors
    ///
    /// [`Error::OutOfRange`] if `before`, `place` or `after` is not below the table's length. [`Error::Linked`] if `place` is linked
    /// already. [`Error::NotLinked`] if `before` or `after` is not linked. [`Error::Broken`] if `before` and `after` are not neighbors
    /// according to their links.
    #[inline]
    pub fn insert_between(
        &mut self,
        table: &mut [Link1],
        before: Option<u32>,
        place: u32,
        after: Option<u32>,
    ) -> Result<(), Error> {
        let (links, places) = Link1::parts(table);
        // SAFETY: each pointer comes from a reference, with the length of its slice, and no mutable reference overlaps another one.
        done(unsafe { ic_xor_insert_between(links, places, &mut self.0, number(before), place, number(after)) })
    }

    /// Removes the member `at`, in O(1). Pass as `before` the member before `at`, or `None` if `at` is the first member.
    ///
    /// # Errors
    ///
    /// [`Error::Null`] if the place `at` is `u32::MAX`. [`Error::OutOfRange`] if `before` or `at` is not below the table's length.
    /// [`Error::NotLinked`] if `before` or `at` is not linked. [`Error::Broken`] if according to their links `at` is no member of the list
    /// or `before` is not the member before `at`.
    #[inline]
    pub fn remove(&mut self, table: &mut [Link1], before: Option<u32>, at: u32) -> Result<(), Error> {
        let (links, places) = Link1::parts(table);
        // SAFETY: each pointer comes from a reference, with the length of its slice, and no mutable reference overlaps another one.
        done(unsafe { ic_xor_remove(links, places, &mut self.0, number(before), at) })
    }

    /// Removes the member `at`, and inserts `place` where `at` was, in O(1). Pass as `before` the member before `at`, or `None` if `at` is
    /// the first member.
    ///
    /// # Errors
    ///
    /// [`Error::Null`] if the place `at` is `u32::MAX`. [`Error::OutOfRange`] if `before`, `at` or `place` is not below the table's length.
    /// [`Error::Linked`] if `place` is linked already, or is `at` itself. [`Error::NotLinked`] if `before` or `at` is not linked.
    /// [`Error::Broken`] if according to their links `at` is no member of the list or `before` is not the member before `at`.
    #[inline]
    pub fn replace(&mut self, table: &mut [Link1], before: Option<u32>, at: u32, place: u32) -> Result<(), Error> {
        let (links, places) = Link1::parts(table);
        // SAFETY: each pointer comes from a reference, with the length of its slice, and no mutable reference overlaps another one.
        done(unsafe { ic_xor_replace(links, places, &mut self.0, number(before), at, place) })
    }

    /// Moves all members of `given`, in their order, between the neighbors `before` and `after`, and leaves `given` empty, in O(1). Pass
    /// `None` as `before` to move the members to the front, and `None` as `after` to move the members to the back.
    ///
    /// # Errors
    ///
    /// [`Error::OutOfRange`] if `before` or `after` is not below the table's length. [`Error::NotLinked`] if `before` or `after` is not
    /// linked. [`Error::Broken`] if `before` and `after` are not neighbors according to their links, or `given` is no list of this table,
    /// or both lists begin with the same member, as a list and its copy do.
    #[inline]
    pub fn splice_between(
        &mut self,
        table: &mut [Link1],
        before: Option<u32>,
        given: &mut XorList,
        after: Option<u32>,
    ) -> Result<(), Error> {
        let (links, places) = Link1::parts(table);
        // SAFETY: each pointer comes from a reference, with the length of its slice, and no mutable reference overlaps another one.
        done(unsafe { ic_xor_splice_between(links, places, &mut self.0, number(before), &mut given.0, number(after)) })
    }

    /// Moves all members of `given`, in their order, to the back, and leaves `given` empty, in O(1).
    ///
    /// # Errors
    ///
    /// [`Error::Broken`] if the last member of this list, the first or the last member of `given`, or the neighbor of one of these members
    /// is not linked in this table, or both lists begin with the same member, as a list and its copy do.
    #[inline]
    pub fn append(&mut self, table: &mut [Link1], given: &mut XorList) -> Result<(), Error> {
        let (links, places) = Link1::parts(table);
        // SAFETY: each pointer comes from a reference, with the length of its slice, and no mutable reference overlaps another one.
        done(unsafe { ic_xor_append(links, places, &mut self.0, &mut given.0) })
    }

    /// Inserts the `count` places `first`, `first` + 1 and so on at the back, in rising order, in O(count). If `count` is 0, the call
    /// changes nothing.
    ///
    /// # Errors
    ///
    /// [`Error::OutOfRange`] if none of these places is linked, but one is not below the table's length. [`Error::Linked`] if one of these
    /// places is linked already. [`Error::Broken`] if the last member or the member before it is not linked in this table.
    #[inline]
    pub fn fill(&mut self, table: &mut [Link1], first: u32, count: u32) -> Result<(), Error> {
        let (links, places) = Link1::parts(table);
        // SAFETY: each pointer comes from a reference, with the length of its slice, and no mutable reference overlaps another one.
        done(unsafe { ic_xor_fill(links, places, &mut self.0, first, count) })
    }

    /// Removes all members, in O(n).
    ///
    /// # Errors
    ///
    /// [`Error::Broken`] if the links do not lead from the first member to the last through linked places of this table.
    #[inline]
    pub fn clear(&mut self, table: &mut [Link1]) -> Result<(), Error> {
        let (links, places) = Link1::parts(table);
        // SAFETY: each pointer comes from a reference, with the length of its slice, and no mutable reference overlaps another one.
        done(unsafe { ic_xor_clear(links, places, &mut self.0) })
    }

    /// Moves the member `after` and all members after it to a new list, which the call returns, in O(1). `before` must be the member before
    /// `after`, and becomes the last member of this list. If `before` is `None`, all members move. If `after` is `None`, no member moves.
    ///
    /// # Errors
    ///
    /// [`Error::OutOfRange`] if `before` or `after` is not below the table's length. [`Error::NotLinked`] if `before` or `after` is not
    /// linked. [`Error::Broken`] if `before` and `after` are not neighbors according to their links.
    #[inline]
    pub fn split_between(
        &mut self,
        table: &mut [Link1],
        before: Option<u32>,
        after: Option<u32>,
    ) -> Result<XorList, Error> {
        let ((links, places), mut rest) = (Link1::parts(table), XorList::new());
        // SAFETY: each pointer comes from a reference, with the length of its slice, and no mutable reference overlaps another one.
        done(unsafe { ic_xor_split_between(links, places, &mut self.0, number(before), number(after), &mut rest.0) })?;
        Ok(rest)
    }

    /// Reverses the list, in O(1). The call takes no table, and always succeeds.
    #[inline]
    pub fn reverse(&mut self) {
        // SAFETY: each pointer comes from a reference, with the length of its slice, and no mutable reference overlaps another one.
        unsafe { ic_xor_reverse(&mut self.0) };
    }
    // to here
}

collection!(XorList, Link1);
bidirectional!(XorList, Link1);

/// Calls that return a cursor on a member. You name the member together with one of its neighbors.
impl XorList {
    /// Returns a cursor on the member `place`, whose previous member is `prev`, in O(1). The call cannot detect whether `place` is a member of
    /// another list.
    ///
    /// # Errors
    ///
    /// [`Error::OutOfRange`] if `place` or `prev` is not below the table's length. [`Error::NotLinked`] if `place` or `prev` is not linked.
    #[inline]
    pub fn cursor_from_place_and_prev<'a>(
        &'a self,
        table: &'a [Link1],
        place: u32,
        prev: Option<u32>,
    ) -> Result<Cursor<'a, XorList>, Error> {
        let position = Beside::with_prev(table, place, prev)?;
        Ok(Cursor::new(self, table, position))
    }

    /// Returns a cursor on the member `place`, whose next member is `next`, in O(1). The call cannot detect whether `place` is a member of
    /// another list.
    ///
    /// # Errors
    ///
    /// [`Error::OutOfRange`] if `place` or `next` is not below the table's length. [`Error::NotLinked`] if `place` or `next` is not linked.
    #[inline]
    pub fn cursor_from_place_and_next<'a>(
        &'a self,
        table: &'a [Link1],
        place: u32,
        next: Option<u32>,
    ) -> Result<Cursor<'a, XorList>, Error> {
        let position = Beside::with_next(table, place, next)?;
        Ok(Cursor::new(self, table, position))
    }

    /// Returns a [`CursorMut`] on the member `place`, whose previous member is `prev`, in O(1). The call cannot detect whether `place` is a
    /// member of another list.
    ///
    /// # Errors
    ///
    /// [`Error::OutOfRange`] if `place` or `prev` is not below the table's length. [`Error::NotLinked`] if `place` or `prev` is not linked.
    #[inline]
    pub fn cursor_mut_from_place_and_prev<'a>(
        &'a mut self,
        table: &'a mut [Link1],
        place: u32,
        prev: Option<u32>,
    ) -> Result<CursorMut<'a, XorList>, Error> {
        let position = Beside::with_prev(table, place, prev)?;
        Ok(CursorMut::new(self, table, position))
    }

    /// Returns a [`CursorMut`] on the member `place`, whose next member is `next`, in O(1). The call cannot detect whether `place` is a member
    /// of another list.
    ///
    /// # Errors
    ///
    /// [`Error::OutOfRange`] if `place` or `next` is not below the table's length. [`Error::NotLinked`] if `place` or `next` is not linked.
    #[inline]
    pub fn cursor_mut_from_place_and_next<'a>(
        &'a mut self,
        table: &'a mut [Link1],
        place: u32,
        next: Option<u32>,
    ) -> Result<CursorMut<'a, XorList>, Error> {
        let position = Beside::with_next(table, place, next)?;
        Ok(CursorMut::new(self, table, position))
    }
}

impl fmt::Debug for XorList {
    fn fmt(&self, f: &mut fmt::Formatter<'_>) -> fmt::Result {
        f.debug_struct("XorList").field("first", &self.first()).field("last", &self.last()).finish()
    }
}

/// A position in an XOR list: a member `at`, and the member before it. In the position on no member, both are `None`.
#[derive(Clone, Copy)]
pub struct Beside {
    before: Option<u32>,
    at: Option<u32>,
}

impl Position for Beside {
    const NULL: Beside = Beside { before: None, at: None };

    #[inline]
    fn place(self) -> Option<u32> {
        self.at
    }
}

impl Beside {
    #[inline]
    fn new(before: Option<u32>, at: Option<u32>) -> Beside {
        at.map_or(Beside::NULL, |_| Beside { before, at })
    }

    // Returns the position of the member `at` whose previous member is `prev`. Both members must be linked.
    #[inline]
    fn with_prev(table: &[Link1], at: u32, prev: Option<u32>) -> Result<Beside, Error> {
        linked(table, at)?;
        prev.map_or(Ok(()), |prev| linked(table, prev))?;
        Ok(Beside { before: prev, at: Some(at) })
    }

    // Returns the position of the member `at` whose next member is `next`. Both members must be linked.
    #[inline]
    fn with_next(table: &[Link1], at: u32, next: Option<u32>) -> Result<Beside, Error> {
        let facing = Beside::with_prev(table, at, next)?;
        Ok(Beside { before: beyond(table, next, at), ..facing })
    }
}

// Returns the other neighbor of the member `at`, which is not its neighbor `from`.
#[inline]
fn beyond(table: &[Link1], from: Option<u32>, at: u32) -> Option<u32> {
    read(table, at, |link: &Link1| link.step(from))
}

impl Collection for XorList {
    type Link = Link1;
    type Position = Beside;

    #[inline]
    fn next(&self, table: &[Link1], Beside { before, at }: Beside) -> Beside {
        let after = at.map_or(within(table, self.first()), |at| beyond(table, before, at));
        Beside::new(at, after)
    }

    #[inline]
    fn end(&self, table: &[Link1]) -> Beside {
        self.prev(table, Beside::NULL)
    }

    #[inline]
    fn insert_after(&mut self, table: &mut [Link1], position: Beside, place: u32) -> Result<(), Error> {
        let after = self.next(table, position).at;
        self.insert_between(table, position.at, place, after)
    }

    #[inline]
    fn remove_next(&mut self, table: &mut [Link1], position: Beside) -> Result<Option<u32>, Error> {
        let next = self.next(table, position);
        next.at.map_or(Ok(()), |at| XorList::remove(self, table, next.before, at))?;
        Ok(next.at)
    }
}

impl Bidirectional for XorList {
    #[inline]
    fn prev(&self, table: &[Link1], Beside { before, at }: Beside) -> Beside {
        let front = if at.is_some() { before } else { within(table, self.last()) };
        Beside::new(front.and_then(|front| beyond(table, at, front)), front)
    }

    #[inline]
    fn insert_before(&mut self, table: &mut [Link1], position: Beside, place: u32) -> Result<Beside, Error> {
        let before = self.prev(table, position).at;
        self.insert_between(table, before, place, position.at)?;
        Ok(Beside::new(Some(place), position.at))
    }

    #[inline]
    fn remove(&mut self, table: &mut [Link1], position: Beside) -> Result<Beside, Error> {
        let after = self.next(table, position).at;
        XorList::remove(self, table, position.before, number(position.at))?;
        Ok(Beside::new(position.before, after))
    }

    #[inline]
    fn replace(&mut self, table: &mut [Link1], position: Beside, place: u32) -> Result<Beside, Error> {
        XorList::replace(self, table, position.before, number(position.at), place)?;
        Ok(Beside { at: Some(place), ..position })
    }
}

impl Splice for XorList {
    #[inline]
    fn splice_after(&mut self, table: &mut [Link1], position: Beside, given: &mut XorList) -> Result<(), Error> {
        let after = self.next(table, position).at;
        self.splice_between(table, position.at, given, after)
    }

    #[inline]
    fn split_after(&mut self, table: &mut [Link1], position: Beside) -> Result<XorList, Error> {
        let after = self.next(table, position).at;
        self.split_between(table, position.at, after)
    }
}

impl BidirectionalSplice for XorList {
    #[inline]
    fn splice_before(&mut self, table: &mut [Link1], position: Beside, given: &mut XorList) -> Result<Beside, Error> {
        let (before, last) = (self.prev(table, position).at, given.last());
        self.splice_between(table, before, given, position.at)?;
        Ok(Beside::new(last.or(before), position.at))
    }

    #[inline]
    fn split_before(&mut self, table: &mut [Link1], position: Beside) -> Result<(XorList, Beside), Error> {
        if position.at.is_none() {
            return Ok((self.split_after(table, position)?, position));
        }
        let back = self.split_between(table, position.before, position.at)?;
        Ok((mem::replace(self, back), Beside::new(None, position.at)))
    }
}
