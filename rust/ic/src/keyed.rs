//! This module has calls of trees that insert and search by a comparison of yours, and calls that find ranges of keys and entries.

use crate::cursor::CursorMut;
use crate::link::member;
use crate::view::Iter;
use crate::{Error, Link3, Tree};
use core::cmp::Ordering;
use core::fmt;
use core::ops::{Bound, RangeBounds};

/// What [`Tree::entry`] finds for a key: the first member with this key, or the gap into which a place with this key can be inserted.
///
/// ```
/// use ic::{Entry, Error, Link3, Tree};
///
/// let keys = [30, 10, 20, 10];
/// let mut links = [Link3::UNLINKED; 4];
/// let mut tree = Tree::new();
/// for place in 0..4 {
///     match tree.entry(&mut links, &keys, keys[place as usize])? {
///         Entry::Vacant(gap) => assert_eq!(gap.insert(place)?.get(), Some(place)),
///         Entry::Occupied(member) => assert_eq!((place, member.get()), (3, Some(1))), // they have the same key
///     }
/// }
/// assert!(tree.iter(&links).eq([1, 2, 0]));
/// assert_eq!(tree.entry(&mut links, &keys, 10)?.or_insert(3)?.get(), Some(1));
/// # Ok::<(), Error>(())
/// ```
#[derive(Debug)]
pub enum Entry<'a> {
    /// A cursor on the first member with the key.
    Occupied(CursorMut<'a, Tree>),
    /// The gap into which a place with the key can be inserted, because no member has this key.
    Vacant(VacantEntry<'a>),
}

impl<'a> Entry<'a> {
    /// Returns a cursor on the first member with the entry's key, in O(log n). If there is no such member, the call first inserts `place`,
    /// which must have this key.
    ///
    /// # Errors
    ///
    /// The call returns the same errors as [`VacantEntry::insert`].
    #[inline]
    pub fn or_insert(self, place: u32) -> Result<CursorMut<'a, Tree>, Error> {
        self.or_insert_with(|| place)
    }

    /// Returns a cursor on the first member with the entry's key, in O(log n). If there is no such member, the call first inserts the place
    /// that `make` returns. This place must have the entry's key.
    ///
    /// # Errors
    ///
    /// The call returns the same errors as [`VacantEntry::insert`].
    #[inline]
    pub fn or_insert_with(self, make: impl FnOnce() -> u32) -> Result<CursorMut<'a, Tree>, Error> {
        match self {
            Entry::Occupied(cursor) => Ok(cursor),
            Entry::Vacant(gap) => gap.insert(make()),
        }
    }
}

/// The gap of a tree into which a place with a key can be inserted. The entry borrows the tree together with its table.
pub struct VacantEntry<'a> {
    tree: &'a mut Tree,
    table: &'a mut [Link3],
    gap: Gap,
}

impl<'a> VacantEntry<'a> {
    /// Inserts `place` into the gap, and returns a cursor on `place`, in O(log n). The call compares no keys, so pass a place with the entry's
    /// key.
    ///
    /// # Errors
    ///
    /// [`Error::OutOfRange`] if `place` is not below the table's length. [`Error::Linked`] if `place` is linked already. [`Error::Broken`] if
    /// the words of the table and of the tree contradict each other.
    pub fn insert(self, place: u32) -> Result<CursorMut<'a, Tree>, Error> {
        self.gap.insert(self.tree, self.table, place)?;
        Ok(CursorMut::new(self.tree, self.table, Some(place)))
    }
}

impl fmt::Debug for VacantEntry<'_> {
    fn fmt(&self, f: &mut fmt::Formatter<'_>) -> fmt::Result {
        f.debug_tuple("VacantEntry").field(&self.gap.under).finish()
    }
}

/// The position in which a descent from the root ends. In this position the member `under` lacks a left or a right child, or the tree lacks a
/// root because it is empty.
#[derive(Clone, Copy)]
struct Gap {
    under: Option<u32>,
    is_left: bool,
}

impl Gap {
    /// Descends from the root. At each member the descent goes to the left child if `goes_left` returns true for this member, and otherwise to
    /// the right child.
    fn find(tree: &Tree, table: &[Link3], mut goes_left: impl FnMut(u32) -> bool) -> Gap {
        let mut gap = Gap { under: None, is_left: true };
        let mut at = member(table, tree.root());
        for _ in 0..table.len() {
            let Some(place) = at else { break };
            gap = Gap { under: at, is_left: goes_left(place) };
            let child = if gap.is_left { tree.left(table, place) } else { tree.right(table, place) };
            at = member(table, child);
        }
        gap
    }

    fn insert(self, tree: &mut Tree, table: &mut [Link3], place: u32) -> Result<(), Error> {
        if self.is_left {
            tree.insert_left(table, self.under, place)
        } else {
            tree.insert_right(table, self.under, place)
        }
    }
}

/// Calls that insert and find members by a comparison, and calls that find ranges of keys and entries.
impl Tree {
    /// Inserts `place` by a comparison of yours, after all members that are not greater than `place`, in O(log n). `compare` takes `place` as
    /// its first argument, and a member as its second argument.
    ///
    /// ```
    /// # use ic::{Error, Link3, Tree};
    /// let names = ["oak", "ash", "elm"];
    /// let (mut links, mut tree) = ([Link3::UNLINKED; 3], Tree::new());
    /// for place in 0..3 {
    ///     tree.insert_by(&mut links, place, |one, other| names[one as usize].cmp(names[other as usize]))?;
    /// }
    /// assert!(tree.iter(&links).map(|place| names[place as usize]).eq(["ash", "elm", "oak"]));
    /// # Ok::<(), Error>(())
    /// ```
    ///
    /// # Errors
    ///
    /// [`Error::OutOfRange`] if `place` is not below the table's length. The call then makes no comparison. [`Error::Linked`] if `place` is
    /// linked already. [`Error::Broken`] if the root is not linked in this table, or the links below the root form no tree.
    pub fn insert_by(
        &mut self,
        table: &mut [Link3],
        place: u32,
        mut compare: impl FnMut(u32, u32) -> Ordering,
    ) -> Result<(), Error> {
        if place as usize >= table.len() {
            return Err(Error::OutOfRange);
        }
        let gap = Gap::find(self, table, |member| compare(place, member) == Ordering::Less);
        gap.insert(self, table, place)
    }

    /// Finds the first member for which `compare` returns [`Ordering::Equal`], in O(log n). `compare` must return [`Ordering::Less`] if the
    /// member comes before what you look for, and [`Ordering::Greater`] if the member comes after what you look for, as for
    /// [`slice::binary_search_by`].
    ///
    /// ```
    /// # use ic::{Error, Link3, Tree};
    /// let names = ["oak", "ash", "elm"];
    /// let (mut links, mut tree) = ([Link3::UNLINKED; 3], Tree::new());
    /// for place in 0..3 {
    ///     tree.insert_by(&mut links, place, |one, other| names[one as usize].cmp(names[other as usize]))?;
    /// }
    /// assert_eq!(tree.find_by(&links, |member| names[member as usize].cmp("elm")), Some(2));
    /// assert_eq!(tree.find_by(&links, |member| names[member as usize].cmp("fir")), None);
    /// # Ok::<(), Error>(())
    /// ```
    pub fn find_by(&self, table: &[Link3], mut compare: impl FnMut(u32) -> Ordering) -> Option<u32> {
        let mut found = None;
        Gap::find(self, table, |member| {
            let order = compare(member);
            if order == Ordering::Equal {
                found = Some(member);
            }
            order != Ordering::Less
        });
        found
    }

    /// Iterates over the members whose keys are in a range, in order. The call takes O(log n), and an iteration over all members of the tree
    /// takes O(n). If the range ends before it starts, the iterator returns no members.
    ///
    /// ```
    /// # use ic::{Error, Link3, Tree};
    /// let deadlines = [30, 10, 20, 40];
    /// let (mut links, mut tree) = ([Link3::UNLINKED; 4], Tree::new());
    /// for place in 0..4 {
    ///     tree.insert(&mut links, &deadlines, place)?;
    /// }
    /// assert!(tree.range(&links, &deadlines, 15..40)?.eq([2, 0]));
    /// assert!(tree.range(&links, &deadlines, 20..)?.rev().eq([3, 0, 2]));
    /// # Ok::<(), Error>(())
    /// ```
    ///
    /// # Errors
    ///
    /// [`Error::OutOfRange`] if there are fewer keys than places. [`Error::Broken`] if the root is not linked in this table.
    pub fn range<'a>(
        &'a self,
        table: &'a [Link3],
        keys: &[u64],
        range: impl RangeBounds<u64>,
    ) -> Result<Iter<'a, Tree>, Error> {
        let first = match range.start_bound() {
            Bound::Unbounded => Some(0),
            Bound::Included(&key) => Some(key),
            Bound::Excluded(&key) => key.checked_add(1),
        };
        let last = match range.end_bound() {
            Bound::Unbounded => Some(u64::MAX),
            Bound::Included(&key) => Some(key),
            Bound::Excluded(&key) => key.checked_sub(1),
        };
        let (Some(first), Some(last)) = (first, last) else { return Ok(self.view(table).between(None, None)) };
        let (front, back) = (self.lower_bound(table, keys, first)?, self.upper_bound(table, keys, last)?);
        let key = |place: Option<u32>| place.and_then(|place| keys.get(place as usize));
        let has_any = key(front).zip(key(back)).is_some_and(|(front, back)| front <= back);
        Ok(if has_any { self.view(table).between(front, back) } else { self.view(table).between(None, None) })
    }

    /// Finds the first member with the key `key`, or the gap into which a place with this key can be inserted, in O(log n). [`Entry`] has an
    /// example.
    ///
    /// # Errors
    ///
    /// [`Error::OutOfRange`] if there are fewer keys than places. [`Error::Broken`] if the root is not linked in this table.
    pub fn entry<'a>(&'a mut self, table: &'a mut [Link3], keys: &[u64], key: u64) -> Result<Entry<'a>, Error> {
        if let Some(member) = self.find(table, keys, key)? {
            return Ok(Entry::Occupied(CursorMut::new(self, table, Some(member))));
        }
        let gap = Gap::find(self, table, |member| keys.get(member as usize).is_some_and(|&other| key < other));
        Ok(Entry::Vacant(VacantEntry { tree: self, table, gap }))
    }
}
