//! This module has the traits of lists and trees, and the code that all of them share.
//!
//! The trait [`Collection`] has the calls by which a cursor moves and edits. Views, iterators, cursors and [`retain`] use these calls, so
//! their code serves every type with this trait.

use crate::link::Link;
use crate::Error;

/// The position of a cursor, which is on a member, or on no member. A position on no member is between the last member and the first.
pub trait Position: Copy {
    /// The position on no member.
    const NULL: Self;

    /// Returns the member of the position, or `None` on no member.
    fn place(self) -> Option<u32>;
}

impl Position for Option<u32> {
    const NULL: Self = None;

    #[inline]
    fn place(self) -> Option<u32> {
        self
    }
}

/// The trait of the lists and trees.
///
/// No call reads a link outside the table. If a word names a place outside the table, a call treats the word as `None`.
pub trait Collection: Sized {
    /// The type of the table's links.
    type Link: Link;
    /// The position of a cursor.
    type Position: Position;

    /// Returns the position after `at`.
    fn next(&self, table: &[Self::Link], at: Self::Position) -> Self::Position;

    /// Returns the position of the last member. In a [`Stack`](crate::Stack), which does not store its last member, the call returns the
    /// position on no member.
    fn end(&self, table: &[Self::Link]) -> Self::Position;

    /// Inserts a place after a position.
    fn insert_after(&mut self, table: &mut [Self::Link], at: Self::Position, place: u32) -> Result<(), Error>;

    /// Removes the member after a position, if there is one.
    fn remove_next(&mut self, table: &mut [Self::Link], at: Self::Position) -> Result<Option<u32>, Error>;
}

/// The trait of the lists and trees whose cursors move in both directions. Each edit takes the position of a cursor, and returns the position
/// that the cursor has after the edit.
pub trait Bidirectional: Collection {
    /// Returns the position before `at`.
    fn prev(&self, table: &[Self::Link], at: Self::Position) -> Self::Position;

    /// Inserts a place before a position. The cursor stays on its member.
    fn insert_before(
        &mut self,
        table: &mut [Self::Link],
        at: Self::Position,
        place: u32,
    ) -> Result<Self::Position, Error>;

    /// Removes the member at a position. The cursor moves to the next member.
    fn remove(&mut self, table: &mut [Self::Link], at: Self::Position) -> Result<Self::Position, Error>;

    /// Removes the member at a position, and inserts a place instead. The cursor moves to this place.
    fn replace(&mut self, table: &mut [Self::Link], at: Self::Position, place: u32) -> Result<Self::Position, Error>;
}

/// The trait of the lists. Its calls move all members of a list, or the members after a position.
pub trait Splice: Collection {
    /// Moves all members of a list after a position.
    fn splice_after(&mut self, table: &mut [Self::Link], at: Self::Position, given: &mut Self) -> Result<(), Error>;

    /// Moves the members after a position to a new list, and returns the new list.
    fn split_after(&mut self, table: &mut [Self::Link], at: Self::Position) -> Result<Self, Error>;
}

/// The trait of the lists whose cursors move in both directions. Each edit leaves the cursor on its member, and returns the position that the
/// cursor has after the edit.
pub trait BidirectionalSplice: Bidirectional + Splice {
    /// Moves all members of a list before a position.
    fn splice_before(
        &mut self,
        table: &mut [Self::Link],
        at: Self::Position,
        given: &mut Self,
    ) -> Result<Self::Position, Error>;

    /// Moves the members before a position to a new list, and returns the new list and the position of the cursor.
    fn split_before(&mut self, table: &mut [Self::Link], at: Self::Position) -> Result<(Self, Self::Position), Error>;
}

/// Removes each member for which `keep` returns `false`. If the walk over the members visits more members than the table has places, the call
/// returns [`Error::Broken`].
pub(crate) fn retain<C: Collection>(
    collection: &mut C,
    table: &mut [C::Link],
    mut keep: impl FnMut(u32) -> bool,
) -> Result<(), Error> {
    let mut at = C::Position::NULL;
    for _ in 0..table.len() {
        let next = collection.next(table, at);
        let Some(place) = next.place() else { return Ok(()) };
        if keep(place) {
            at = next;
        } else {
            collection.remove_next(table, at)?;
        }
    }
    collection.next(table, at).place().map_or(Ok(()), |_| Err(Error::Broken))
}

/// Defines the calls that are the same for all lists and trees.
macro_rules! collection {
    ($Collection:ident, $Link:ident) => {
        impl $Collection {
            /// Borrows the list or tree together with its table, in O(1). You can print the members of the view, or iterate over them.
            #[inline]
            #[must_use]
            pub fn view<'a>(&'a self, table: &'a [$Link]) -> View<'a, $Collection> {
                View::new(self, table)
            }

            /// Iterates over the members, in order. The iteration takes O(n) for all members, and in a list O(1) for each member.
            ///
            /// Whatever the words are, the iterator ends after as many members as the table has places.
            #[inline]
            pub fn iter<'a>(&'a self, table: &'a [$Link]) -> Iter<'a, $Collection> {
                self.view(table).iter()
            }

            /// Moves all members to a new list or tree, and returns the new list or tree, in O(1).
            #[inline]
            #[must_use = "the members stay linked"]
            pub fn take(&mut self) -> $Collection {
                core::mem::take(self)
            }

            /// Removes each member for which `keep` returns `false`. The call passes each member to `keep` once, in order.
            ///
            /// The call takes O(n), and in a tree O(log n) more for each removed member.
            ///
            /// # Errors
            ///
            /// [`Error::Broken`] if the words lead to more members than the table has places. If the removal of a member is refused, the call
            /// returns the error of this removal. Whenever the call returns an error, the words of the table and of the list or tree
            /// contradict each other. The call may have removed members before it returned the error.
            #[inline]
            pub fn retain(&mut self, table: &mut [$Link], keep: impl FnMut(u32) -> bool) -> Result<(), Error> {
                crate::collection::retain(self, table, keep)
            }

            /// Returns a cursor on no member, in O(1).
            #[inline]
            #[must_use]
            pub fn cursor<'a>(&'a self, table: &'a [$Link]) -> Cursor<'a, $Collection> {
                Cursor::new(self, table, Position::NULL)
            }

            /// Returns a [`CursorMut`](crate::CursorMut) on no member, in O(1).
            #[inline]
            #[must_use]
            pub fn cursor_mut<'a>(&'a mut self, table: &'a mut [$Link]) -> CursorMut<'a, $Collection> {
                CursorMut::new(self, table, Position::NULL)
            }

            /// Returns a cursor on the first member, or on no member if there is none, in O(1) in a list and O(log n) in a tree.
            #[inline]
            #[must_use]
            pub fn front<'a>(&'a self, table: &'a [$Link]) -> Cursor<'a, $Collection> {
                let mut cursor = self.cursor(table);
                cursor.move_next();
                cursor
            }

            /// Returns a [`CursorMut`](crate::CursorMut) on the first member, or on no member if there is none, in O(1) in a list and O(log n)
            /// in a tree.
            #[inline]
            #[must_use]
            pub fn front_mut<'a>(&'a mut self, table: &'a mut [$Link]) -> CursorMut<'a, $Collection> {
                let mut cursor = self.cursor_mut(table);
                cursor.move_next();
                cursor
            }
        }
    };
}

/// Defines the calls that are the same for the lists and trees whose cursors move in both directions.
macro_rules! bidirectional {
    ($Collection:ident, $Link:ident) => {
        impl $Collection {
            /// Returns a cursor on the last member, or on no member if there is none, in O(1) in a list and O(log n) in a tree.
            #[inline]
            #[must_use]
            pub fn back<'a>(&'a self, table: &'a [$Link]) -> Cursor<'a, $Collection> {
                let mut cursor = self.cursor(table);
                cursor.move_prev();
                cursor
            }

            /// Returns a [`CursorMut`](crate::CursorMut) on the last member, or on no member if there is none, in O(1) in a list and O(log n)
            /// in a tree.
            #[inline]
            #[must_use]
            pub fn back_mut<'a>(&'a mut self, table: &'a mut [$Link]) -> CursorMut<'a, $Collection> {
                let mut cursor = self.cursor_mut(table);
                cursor.move_prev();
                cursor
            }
        }
    };
}

/// Defines the calls that are the same for the lists and trees in which a cursor needs only its member, and no neighbor of its member.
macro_rules! from_place {
    ($Collection:ident, $Link:ident) => {
        impl $Collection {
            /// Returns a cursor on the member `place`, in O(1). The call cannot detect whether `place` is a member of another list or tree.
            ///
            /// # Errors
            ///
            /// [`Error::OutOfRange`] if `place` is not below the table's length. [`Error::NotLinked`] if `place` is not linked.
            #[inline]
            pub fn cursor_from_place<'a>(
                &'a self,
                table: &'a [$Link],
                place: u32,
            ) -> Result<Cursor<'a, $Collection>, Error> {
                linked(table, place)?;
                Ok(Cursor::new(self, table, Some(place)))
            }

            /// Returns a [`CursorMut`](crate::CursorMut) on the member `place`, in O(1). The call cannot detect whether `place` is a member of
            /// another list or tree.
            ///
            /// # Errors
            ///
            /// [`Error::OutOfRange`] if `place` is not below the table's length. [`Error::NotLinked`] if `place` is not linked.
            #[inline]
            pub fn cursor_mut_from_place<'a>(
                &'a mut self,
                table: &'a mut [$Link],
                place: u32,
            ) -> Result<CursorMut<'a, $Collection>, Error> {
                linked(table, place)?;
                Ok(CursorMut::new(self, table, Some(place)))
            }
        }
    };
}

pub(crate) use {bidirectional, collection, from_place};
