//! This module has views and iterators. A view is a list or tree together with its table, and an iterator goes over its members.

use crate::collection::{Bidirectional, Collection, Position};
use crate::link::member;
use core::fmt;
use core::iter::FusedIterator;

/// A list or tree together with its table of links, both borrowed for reading.
///
/// A list or tree does not contain its table, so you can print a list or tree, or iterate over it, only together with the table. `C` is the
/// type of the list or tree, and its call `view` makes a view.
///
/// ```
/// use ic::{Link1, Stack};
///
/// let mut links = [Link1::UNLINKED; 5];
/// let mut stack = Stack::new();
/// for place in [4, 0, 2] {
///     stack.push_front(&mut links, place)?;
/// }
/// assert_eq!(format!("{:?}", stack.view(&links)), "[2, 0, 4]");
/// let mut sum = 0;
/// for place in stack.view(&links) {
///     sum += place;
/// }
/// assert_eq!(sum, 6);
/// # Ok::<(), ic::Error>(())
/// ```
pub struct View<'a, C: Collection> {
    collection: &'a C,
    table: &'a [C::Link],
}

impl<'a, C: Collection> View<'a, C> {
    #[inline]
    pub(crate) fn new(collection: &'a C, table: &'a [C::Link]) -> Self {
        View { collection, table }
    }

    #[inline]
    pub(crate) fn next(self, at: C::Position) -> C::Position {
        self.collection.next(self.table, at)
    }

    /// Iterates over the members, in order. The iteration takes O(n) for all members, and in a list O(1) for each member.
    ///
    /// Whatever the words are, the iterator ends after as many members as the table has places.
    #[inline]
    pub fn iter(&self) -> Iter<'a, C> {
        let (front, back) = (self.next(C::Position::NULL), self.collection.end(self.table));
        Iter { view: *self, front, back, left: self.table.len() }
    }
}

impl<'a, C: Bidirectional> View<'a, C> {
    /// Returns the iterator from the member at `front` to the member at `back`. It visits both of these members.
    #[inline]
    pub(crate) fn between(self, front: C::Position, back: C::Position) -> Iter<'a, C> {
        Iter { view: self, front, back, left: self.table.len() }
    }

    #[inline]
    pub(crate) fn prev(self, at: C::Position) -> C::Position {
        self.collection.prev(self.table, at)
    }
}

impl<C: Collection> Clone for View<'_, C> {
    #[inline]
    fn clone(&self) -> Self {
        *self
    }
}

impl<C: Collection> Copy for View<'_, C> {}

impl<C: Collection> fmt::Debug for View<'_, C> {
    fn fmt(&self, f: &mut fmt::Formatter<'_>) -> fmt::Result {
        f.debug_list().entries(self).finish()
    }
}

impl<'a, C: Collection> IntoIterator for View<'a, C> {
    type Item = u32;
    type IntoIter = Iter<'a, C>;

    #[inline]
    fn into_iter(self) -> Iter<'a, C> {
        self.iter()
    }
}

impl<'a, C: Collection> IntoIterator for &View<'a, C> {
    type Item = u32;
    type IntoIter = Iter<'a, C>;

    #[inline]
    fn into_iter(self) -> Iter<'a, C> {
        self.iter()
    }
}

/// An iterator over the members of a list or tree, in order. You can iterate from both ends, except in a [`Stack`](crate::Stack).
///
/// The iterator does not know the number of members. Whatever the words are, the iterator ends after as many members as the table has places.
///
/// ```
/// use ic::{Link2, List};
///
/// let mut links = [Link2::UNLINKED; 5];
/// let mut list = List::new();
/// for place in [4, 0, 2] {
///     list.push_back(&mut links, place)?;
/// }
/// let mut iter = list.iter(&links);
/// assert_eq!((iter.next(), iter.next_back()), (Some(4), Some(2)));
/// assert_eq!(format!("{iter:?}"), "[0]");
/// assert!(list.iter(&links).rev().eq([2, 0, 4]));
/// # Ok::<(), ic::Error>(())
/// ```
#[must_use = "iterators do nothing unless they are used"]
pub struct Iter<'a, C: Collection> {
    view: View<'a, C>,
    // The next members from the front and from the back, and how many members the iterator may still return.
    front: C::Position,
    back: C::Position,
    left: usize,
}

impl<C: Collection> Iter<'_, C> {
    // Returns the member at an end. After the last member, and at a position without a linked member, the iterator ends in both directions.
    #[inline]
    fn hand_out(&mut self, end: C::Position) -> Option<u32> {
        let member = member(self.view.table, end.place().filter(|_| self.left > 0));
        let is_last = member.is_none() || self.front.place() == self.back.place();
        self.left = if is_last { 0 } else { self.left - 1 };
        member
    }
}

impl<C: Collection> Clone for Iter<'_, C> {
    #[inline]
    fn clone(&self) -> Self {
        Iter { ..*self }
    }
}

impl<C: Collection> fmt::Debug for Iter<'_, C> {
    fn fmt(&self, f: &mut fmt::Formatter<'_>) -> fmt::Result {
        f.debug_list().entries(self.clone()).finish()
    }
}

impl<C: Collection> Iterator for Iter<'_, C> {
    type Item = u32;

    #[inline]
    fn next(&mut self) -> Option<u32> {
        let member = self.hand_out(self.front)?;
        if self.left > 0 {
            self.front = self.view.next(self.front);
        }
        Some(member)
    }

    #[inline]
    fn size_hint(&self) -> (usize, Option<usize>) {
        (0, Some(self.left))
    }
}

impl<C: Bidirectional> DoubleEndedIterator for Iter<'_, C> {
    #[inline]
    fn next_back(&mut self) -> Option<u32> {
        let member = self.hand_out(self.back)?;
        if self.left > 0 {
            self.back = self.view.prev(self.back);
        }
        Some(member)
    }
}

impl<C: Collection> FusedIterator for Iter<'_, C> {}
