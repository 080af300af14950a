//! This module has cursors that read or edit. Their calls have the same names as the calls of cursors in the crate `intrusive-collections`.

use crate::collection::{Bidirectional, BidirectionalSplice, Collection, Position, Splice};
use crate::view::View;
use crate::{Error, Stack};
use core::fmt;

/// A cursor that reads. It is on a member of a list or tree, or on no member.
///
/// `C` is the type of the list or tree. A cursor on no member is between the last member and the first, and [`move_next`](Self::move_next)
/// moves this cursor to the first member.
///
/// ```
/// use ic::{Link2, List};
///
/// let mut links = [Link2::UNLINKED; 5];
/// let mut list = List::new();
/// for place in [4, 0, 2] {
///     list.push_back(&mut links, place)?;
/// }
/// let mut cursor = list.cursor_from_place(&links, 0)?;
/// assert_eq!((cursor.peek_prev().get(), cursor.peek_next().get()), (Some(4), Some(2)));
/// cursor.move_next();
/// cursor.move_next();
/// assert!(cursor.is_null());
/// cursor.move_next();
/// assert_eq!(cursor.get(), Some(4));
/// # Ok::<(), ic::Error>(())
/// ```
pub struct Cursor<'a, C: Collection> {
    view: View<'a, C>,
    position: C::Position,
}

impl<'a, C: Collection> Cursor<'a, C> {
    #[inline]
    pub(crate) fn new(collection: &'a C, table: &'a [C::Link], position: C::Position) -> Self {
        Cursor { view: View::new(collection, table), position }
    }

    /// Returns whether the cursor is on no member, in O(1).
    #[inline]
    #[must_use]
    pub fn is_null(&self) -> bool {
        self.get().is_none()
    }

    /// Returns the member that the cursor is on, in O(1).
    #[inline]
    #[must_use]
    #[doc(alias = "current")]
    pub fn get(&self) -> Option<u32> {
        self.position.place()
    }

    /// Borrows the list or tree together with its table, in O(1). You can print the members of the view, or iterate over them.
    #[inline]
    #[must_use]
    pub fn view(&self) -> View<'a, C> {
        self.view
    }

    /// Moves the cursor to the next member, in O(1) in a list and O(log n) in a tree. From no member the cursor moves to the first member, and
    /// from the last member to no member.
    #[inline]
    pub fn move_next(&mut self) {
        self.position = self.view.next(self.position);
    }

    /// Returns a cursor at the position to which [`move_next`](Self::move_next) would go, in O(1) in a list and O(log n) in a tree.
    #[inline]
    #[must_use]
    pub fn peek_next(&self) -> Self {
        let mut cursor = *self;
        cursor.move_next();
        cursor
    }
}

/// The cursors of all lists and trees except a [`Stack`] have these calls.
impl<C: Bidirectional> Cursor<'_, C> {
    /// Moves the cursor to the previous member, in O(1) in a list and O(log n) in a tree. From no member the cursor moves to the last member,
    /// and from the first member to no member.
    #[inline]
    pub fn move_prev(&mut self) {
        self.position = self.view.prev(self.position);
    }

    /// Returns a cursor at the position to which [`move_prev`](Self::move_prev) would go, in O(1) in a list and O(log n) in a tree.
    #[inline]
    #[must_use]
    pub fn peek_prev(&self) -> Self {
        let mut cursor = *self;
        cursor.move_prev();
        cursor
    }
}

impl<C: Collection> Clone for Cursor<'_, C> {
    #[inline]
    fn clone(&self) -> Self {
        *self
    }
}

impl<C: Collection> Copy for Cursor<'_, C> {}

impl<C: Collection> fmt::Debug for Cursor<'_, C> {
    fn fmt(&self, f: &mut fmt::Formatter<'_>) -> fmt::Result {
        f.debug_tuple("Cursor").field(&self.get()).finish()
    }
}

/// A cursor that edits. It is on a member of a list or tree, or on no member.
///
/// The cursor borrows the list or tree, whose type is `C`, together with its table. So you pass neither the list or tree nor the table to the
/// cursor's calls, and only the cursor can edit them. An edit that returns an [`Error`] has changed nothing, and has not moved the cursor.
///
/// ```
/// use ic::{Link2, List};
///
/// let mut links = [Link2::UNLINKED; 6];
/// let mut list = List::new();
/// for place in [4, 0, 2] {
///     list.push_back(&mut links, place)?;
/// }
/// let mut cursor = list.cursor_mut_from_place(&mut links, 0)?;
/// cursor.insert_before(1)?;
/// cursor.insert_after(3)?;
/// assert_eq!(cursor.replace_with(5)?, 0);
/// assert_eq!((cursor.remove()?, cursor.get()), (Some(5), Some(3)));
/// assert_eq!(format!("{:?}", cursor.view()), "[4, 1, 3, 2]");
/// let back = cursor.split_after()?;
/// assert!(list.iter(&links).eq([4, 1, 3]) && back.iter(&links).eq([2]));
/// # Ok::<(), ic::Error>(())
/// ```
pub struct CursorMut<'a, C: Collection> {
    collection: &'a mut C,
    table: &'a mut [C::Link],
    position: C::Position,
}

impl<'a, C: Collection> CursorMut<'a, C> {
    #[inline]
    pub(crate) fn new(collection: &'a mut C, table: &'a mut [C::Link], position: C::Position) -> Self {
        CursorMut { collection, table, position }
    }

    /// Returns whether the cursor is on no member, in O(1).
    #[inline]
    #[must_use]
    pub fn is_null(&self) -> bool {
        self.get().is_none()
    }

    /// Returns the member that the cursor is on, in O(1).
    #[inline]
    #[must_use]
    #[doc(alias = "current")]
    pub fn get(&self) -> Option<u32> {
        self.position.place()
    }

    /// Borrows the list or tree together with its table, in O(1). You can print the members of the view, or iterate over them.
    #[inline]
    #[must_use]
    pub fn view(&self) -> View<'_, C> {
        View::new(self.collection, self.table)
    }

    /// Returns a cursor that reads, at the position of this cursor, in O(1).
    #[inline]
    #[must_use]
    pub fn as_cursor(&self) -> Cursor<'_, C> {
        Cursor { view: self.view(), position: self.position }
    }

    /// Moves the cursor to the next member, in O(1) in a list and O(log n) in a tree. From no member the cursor moves to the first member, and
    /// from the last member to no member.
    #[inline]
    pub fn move_next(&mut self) {
        self.position = self.peek_next().position;
    }

    /// Returns a cursor that reads, at the position to which [`move_next`](Self::move_next) would go, in O(1) in a list and O(log n) in a tree.
    #[inline]
    #[must_use]
    pub fn peek_next(&self) -> Cursor<'_, C> {
        self.as_cursor().peek_next()
    }

    /// Inserts `place` after the cursor's member, or at the front if the cursor is on no member, in O(1) in a list and O(log n) in a tree.
    ///
    /// The cursor does not move. In a tree the call compares no keys, so pass a place that belongs at this position in the order of the
    /// members.
    ///
    /// # Errors
    ///
    /// [`Error::OutOfRange`] if `place` is not below the table's length. [`Error::Linked`] if `place` is linked already. [`Error::Broken`] or
    /// [`Error::NotLinked`] if the words of the table and of the list or tree contradict each other.
    #[inline]
    pub fn insert_after(&mut self, place: u32) -> Result<(), Error> {
        self.collection.insert_after(self.table, self.position, place)
    }
}

/// The cursors of all lists and trees except a [`Stack`] have these calls.
impl<C: Bidirectional> CursorMut<'_, C> {
    /// Moves the cursor to the previous member, in O(1) in a list and O(log n) in a tree. From no member the cursor moves to the last member,
    /// and from the first member to no member.
    #[inline]
    pub fn move_prev(&mut self) {
        self.position = self.peek_prev().position;
    }

    /// Returns a cursor that reads, at the position to which [`move_prev`](Self::move_prev) would go, in O(1) in a list and O(log n) in a tree.
    #[inline]
    #[must_use]
    pub fn peek_prev(&self) -> Cursor<'_, C> {
        self.as_cursor().peek_prev()
    }

    /// Inserts `place` before the cursor's member, or at the back if the cursor is on no member, in O(1) in a list and O(log n) in a tree.
    ///
    /// The cursor does not move. In a tree the call compares no keys, so pass a place that belongs at this position in the order of the
    /// members.
    ///
    /// # Errors
    ///
    /// [`Error::OutOfRange`] if `place` is not below the table's length. [`Error::Linked`] if `place` is linked already. [`Error::Broken`] or
    /// [`Error::NotLinked`] if the words of the table and of the list or tree contradict each other.
    #[inline]
    pub fn insert_before(&mut self, place: u32) -> Result<(), Error> {
        self.position = self.collection.insert_before(self.table, self.position, place)?;
        Ok(())
    }

    /// Removes and returns the cursor's member, in O(1) in a list and O(log n) in a tree. If the cursor is on no member, the call returns
    /// `None`.
    ///
    /// The cursor moves to the next member.
    ///
    /// # Errors
    ///
    /// [`Error::Broken`] or [`Error::NotLinked`] if the words of the table and of the list or tree contradict each other.
    #[inline]
    #[doc(alias = "remove_current")]
    pub fn remove(&mut self) -> Result<Option<u32>, Error> {
        let member = self.get();
        if member.is_some() {
            self.position = self.collection.remove(self.table, self.position)?;
        }
        Ok(member)
    }

    /// Removes the cursor's member, inserts `place` in its position, and returns the removed member, in O(1).
    ///
    /// The cursor moves to `place`. In a tree the call compares no keys, so pass a place that belongs at this position in the order of the
    /// members.
    ///
    /// # Errors
    ///
    /// [`Error::Null`] if the cursor is on no member. [`Error::OutOfRange`] if `place` is not below the table's length. [`Error::Linked`] if
    /// `place` is linked already. [`Error::Broken`] or [`Error::NotLinked`] if the words of the table and of the list or tree contradict each
    /// other.
    #[inline]
    #[doc(alias = "replace_current")]
    pub fn replace_with(&mut self, place: u32) -> Result<u32, Error> {
        let member = self.get().ok_or(Error::Null)?;
        self.position = self.collection.replace(self.table, self.position, place)?;
        Ok(member)
    }
}

/// The cursors of lists have these calls.
impl<C: Splice> CursorMut<'_, C> {
    /// Moves all members of `given`, a list of the same table, after the cursor's member, or to the front if the cursor is on no member.
    ///
    /// The call takes O(1), but in a [`Stack`] O(members of `given`). After the call `given` is empty. The cursor does not move.
    ///
    /// # Errors
    ///
    /// [`Error::Broken`] if `given` is no list of this table. [`Error::Broken`] or [`Error::NotLinked`] if the words of the table and of the
    /// cursor's list contradict each other.
    #[inline]
    pub fn splice_after(&mut self, given: &mut C) -> Result<(), Error> {
        self.collection.splice_after(self.table, self.position, given)
    }

    /// Moves the members after the cursor's member to a new list, which the call returns, in O(1). If the cursor is on no member, all members
    /// move. The cursor does not move.
    ///
    /// # Errors
    ///
    /// [`Error::Broken`] or [`Error::NotLinked`] if the words of the table and of the list contradict each other.
    #[inline]
    pub fn split_after(&mut self) -> Result<C, Error> {
        self.collection.split_after(self.table, self.position)
    }
}

/// The cursors of a [`List`](crate::List) and an [`XorList`](crate::XorList) have these calls.
impl<C: BidirectionalSplice> CursorMut<'_, C> {
    /// Moves all members of `given`, a list of the same table, before the cursor's member, or to the back if the cursor is on no member, in
    /// O(1).
    ///
    /// After the call `given` is empty. The cursor does not move.
    ///
    /// # Errors
    ///
    /// [`Error::Broken`] if `given` is no list of this table. [`Error::Broken`] or [`Error::NotLinked`] if the words of the table and of the
    /// cursor's list contradict each other.
    #[inline]
    pub fn splice_before(&mut self, given: &mut C) -> Result<(), Error> {
        self.position = self.collection.splice_before(self.table, self.position, given)?;
        Ok(())
    }

    /// Moves the members before the cursor's member to a new list, which the call returns, in O(1). If the cursor is on no member, all members
    /// move. The cursor does not move.
    ///
    /// # Errors
    ///
    /// [`Error::Broken`] or [`Error::NotLinked`] if the words of the table and of the list contradict each other.
    #[inline]
    pub fn split_before(&mut self) -> Result<C, Error> {
        let (front, position) = self.collection.split_before(self.table, self.position)?;
        self.position = position;
        Ok(front)
    }
}

/// The cursors of a [`Stack`] have these calls.
///
/// ```
/// use ic::{Link1, Stack};
///
/// let mut links = [Link1::UNLINKED; 5];
/// let mut stack = Stack::new();
/// for place in [4, 0, 2] {
///     stack.push_front(&mut links, place)?;
/// }
/// let mut cursor = stack.front_mut(&mut links);
/// assert_eq!(cursor.replace_next_with(1)?, 0);
/// cursor.move_next();
/// assert_eq!(cursor.remove_next()?, Some(4));
/// assert_eq!(cursor.remove_next()?, None);
/// assert!(stack.iter(&links).eq([2, 1]));
/// # Ok::<(), ic::Error>(())
/// ```
impl CursorMut<'_, Stack> {
    /// Removes and returns the member after the cursor, or returns `None` if there is none, in O(1). The cursor does not move.
    ///
    /// # Errors
    ///
    /// [`Error::Broken`] or [`Error::NotLinked`] if the words of the table and of the list contradict each other.
    #[inline]
    pub fn remove_next(&mut self) -> Result<Option<u32>, Error> {
        self.collection.remove_after(self.table, self.position)
    }

    /// Removes the member after the cursor, inserts `place` in its position, and returns the removed member, in O(1). The cursor does not
    /// move.
    ///
    /// # Errors
    ///
    /// [`Error::Null`] if there is no member after the cursor. [`Error::OutOfRange`] if `place` is not below the table's length.
    /// [`Error::Linked`] if `place` is linked already. [`Error::Broken`] or [`Error::NotLinked`] if the words of the table and of the list
    /// contradict each other.
    #[inline]
    pub fn replace_next_with(&mut self, place: u32) -> Result<u32, Error> {
        self.collection.replace_after(self.table, self.position, place)
    }
}

impl<C: Collection> fmt::Debug for CursorMut<'_, C> {
    fn fmt(&self, f: &mut fmt::Formatter<'_>) -> fmt::Result {
        f.debug_tuple("CursorMut").field(&self.get()).finish()
    }
}
