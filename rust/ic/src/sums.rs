//! Trees with sums. Each place has a value and a sum. The sum at a member combines the values of this member and of all members below it.

use crate::error::{done, handed_out, try_counted};
use crate::link::{number, Link};
use crate::{Error, Link3, Tree};
use ic_sys::*;

/// The value and the sum of a place in a tree with sums. You write the value, and calls write the sum.
///
/// A slice of yours has a `Sum` for each place. The sum at a member combines the values of this member and of all members below it, in the way
/// of the [`SumKind`] that you pass to each call. If each value is 1, [`Tree::sums_find`] finds the member at a position, and
/// [`Tree::sums_before`] computes the position of a member:
///
/// ```
/// use ic::{Error, Link3, Sum, SumKind, Tree};
///
/// let deadlines = [30, 10, 20];
/// let (mut links, mut counts, mut timers) = ([Link3::UNLINKED; 3], [Sum::new(1); 3], Tree::new());
/// for timer in 0..3 {
///     timers.sums_insert(&mut links, &deadlines, &mut counts, SumKind::Sum, timer)?;
/// }
/// assert_eq!(timers.sums_total(&counts), 3);
/// assert_eq!(timers.sums_find(&links, &counts, SumKind::Sum, None, 1)?, Some(2)); // at the position 1, from 0 on
/// assert_eq!(Tree::sums_before(&links, &counts, SumKind::Sum, 0)?, 2);
///
/// // After the value of one member has changed, this call updates the sums that include it.
/// counts[2].value = 5;
/// Tree::sums_renew(&links, &mut counts, SumKind::Sum, Some(2))?;
/// assert_eq!(Tree::sums_before(&links, &counts, SumKind::Sum, 0)?, 6);
/// timers.sums_remove(&mut links, &mut counts, SumKind::Sum, 1)?;
/// assert_eq!(timers.sums_total(&counts), 6);
/// # Ok::<(), Error>(())
/// ```
///
/// If the keys are the starts of intervals, and the values are their ends, [`Tree::sums_overlap`] finds, one after the other, all intervals
/// that overlap a given interval:
///
/// ```
/// use ic::{Error, Link3, Sum, SumKind, Tree};
///
/// let (starts, ends) = ([10, 20, 25, 40], [30, 22, 45, 50]);
/// let (mut links, mut sums, mut regions) = ([Link3::UNLINKED; 4], ends.map(Sum::new), Tree::new());
/// for region in 0..4 {
///     regions.insert(&mut links, &starts, region)?;
/// }
/// Tree::sums_renew(&links, &mut sums, SumKind::Greatest, None)?;
/// let first = regions.sums_overlap(&links, &starts, &sums, None, 23, 26)?;
/// assert_eq!(first, Some(0));
/// assert_eq!(regions.sums_overlap(&links, &starts, &sums, first, 23, 26)?, Some(2));
/// assert_eq!(regions.sums_overlap(&links, &starts, &sums, Some(2), 23, 26)?, None);
/// # Ok::<(), Error>(())
/// ```
#[repr(C)]
#[derive(Clone, Copy, Debug, Default, PartialEq, Eq, Hash)]
pub struct Sum {
    /// The value of the place. You write this value, and no call changes it.
    pub value: u64,
    /// The combined value of the place and of all members below it, after a call has computed this sum.
    pub sum: u64,
}

impl Sum {
    /// Returns a `Sum` with this value, in O(1). No call has computed its sum yet.
    #[inline]
    #[must_use]
    pub const fn new(value: u64) -> Sum {
        Sum { value, sum: 0 }
    }
}

/// How a call combines values into a sum.
#[repr(u32)]
#[derive(Clone, Copy, Debug, Default, PartialEq, Eq, Hash)]
pub enum SumKind {
    /// The combined value is the total of the values, but at most `u64::MAX`.
    #[default]
    Sum = IC_SUM,
    /// The combined value is the greatest of the values.
    Greatest = IC_GREATEST,
}

/// Calls of trees with sums. The slice `sums` must have a [`Sum`] for each place.
///
/// The sums of a tree are right if the sum at each member is the combined value of this member and all members below it. If the sums are right
/// before an edit whose name begins with `sums_`, they are right after this edit, too. Other edits do not update the sums. After another edit
/// pass `None` to [`sums_renew`](Self::sums_renew), which makes all sums right. After you have changed the value of one member, pass this
/// member to [`sums_renew`](Self::sums_renew).
impl Tree {
    /// Returns the sum at the root, in O(1). If the sums are right, this is the combined value of all members. The call returns 0 if there are
    /// no members.
    #[inline]
    #[must_use]
    pub fn sums_total(&self, sums: &[Sum]) -> u64 {
        self.root().and_then(|root| sums.get(root as usize)).map_or(0, |root| root.sum)
    }

    // Made by tools/c-calls --write: tree-sums
    /// Inserts `place` by its key as ic_tree_insert does, and updates each sum that the insertion changes, in O(log n). If the sums of the
    /// tree were right before the call, they are right after the call, too. The sum of `place` may be any number before the call.
    ///
    /// # Errors
    ///
    /// [`Error::OutOfRange`] if there are fewer keys than places, or there are fewer sums than places, or `place` is not below the table's
    /// length. [`Error::Linked`] if `place` is linked already. [`Error::Broken`] if the root is not linked in this table.
    #[inline]
    pub fn sums_insert(
        &mut self,
        table: &mut [Link3],
        keys: &[u64],
        sums: &mut [Sum],
        kind: SumKind,
        place: u32,
    ) -> Result<(), Error> {
        let (links, places) = Link3::parts(table);
        // SAFETY: each pointer comes from a reference, with the length of its slice, and no mutable reference overlaps another one.
        done(unsafe {
            ic_tree_sums_insert(
                links,
                places,
                keys.as_ptr(),
                keys.len(),
                sums.as_mut_ptr().cast(),
                sums.len(),
                kind as u32,
                &mut self.0,
                place,
            )
        })
    }

    /// Inserts `place` as ic_tree_insert_left does, and updates each sum that the insertion changes, in O(log n).
    ///
    /// # Errors
    ///
    /// [`Error::OutOfRange`] if there are fewer sums than places, or `at` or `place` is not below the table's length. [`Error::Linked`] if
    /// `place` is linked already. [`Error::NotLinked`] if the place `at` is not linked. [`Error::Broken`] if `at` has a left child, or `at`
    /// is `None` and the tree has members, or the root is not linked in this table.
    #[inline]
    pub fn sums_insert_left(
        &mut self,
        table: &mut [Link3],
        sums: &mut [Sum],
        kind: SumKind,
        at: Option<u32>,
        place: u32,
    ) -> Result<(), Error> {
        let (links, places) = Link3::parts(table);
        // SAFETY: each pointer comes from a reference, with the length of its slice, and no mutable reference overlaps another one.
        done(unsafe {
            ic_tree_sums_insert_left(
                links,
                places,
                sums.as_mut_ptr().cast(),
                sums.len(),
                kind as u32,
                &mut self.0,
                number(at),
                place,
            )
        })
    }

    /// Inserts `place` as ic_tree_insert_right does, and updates each sum that the insertion changes, in O(log n).
    ///
    /// # Errors
    ///
    /// [`Error::OutOfRange`] if there are fewer sums than places, or `at` or `place` is not below the table's length. [`Error::Linked`] if
    /// `place` is linked already. [`Error::NotLinked`] if the place `at` is not linked. [`Error::Broken`] if `at` has a right child, or
    /// `at` is `None` and the tree has members, or the root is not linked in this table.
    #[inline]
    pub fn sums_insert_right(
        &mut self,
        table: &mut [Link3],
        sums: &mut [Sum],
        kind: SumKind,
        at: Option<u32>,
        place: u32,
    ) -> Result<(), Error> {
        let (links, places) = Link3::parts(table);
        // SAFETY: each pointer comes from a reference, with the length of its slice, and no mutable reference overlaps another one.
        done(unsafe {
            ic_tree_sums_insert_right(
                links,
                places,
                sums.as_mut_ptr().cast(),
                sums.len(),
                kind as u32,
                &mut self.0,
                number(at),
                place,
            )
        })
    }

    /// Removes the member `at`, and updates each sum that the removal changes, in O(log n). If the sums of the tree were right before the
    /// call, they are right after the call, too.
    ///
    /// # Errors
    ///
    /// [`Error::Null`] if the place `at` is `u32::MAX`. [`Error::OutOfRange`] if there are fewer sums than places, or the place `at` is not
    /// below the table's length. [`Error::NotLinked`] if the place `at` is not linked. [`Error::Broken`] if the root is not linked in this
    /// table, or `at` is the root of another tree.
    #[inline]
    pub fn sums_remove(&mut self, table: &mut [Link3], sums: &mut [Sum], kind: SumKind, at: u32) -> Result<(), Error> {
        let (links, places) = Link3::parts(table);
        // SAFETY: each pointer comes from a reference, with the length of its slice, and no mutable reference overlaps another one.
        done(unsafe {
            ic_tree_sums_remove(links, places, sums.as_mut_ptr().cast(), sums.len(), kind as u32, &mut self.0, at)
        })
    }

    /// Computes the sum at the member `at` again, and then the sums at the members above `at`, until a sum does not change, in O(log n).
    /// Make this call after you have changed the value of `at`. If `at` is `None`, the call computes the sums of all trees in the table, in
    /// O(p log p) for a table of p places. The call writes only sums.
    ///
    /// # Errors
    ///
    /// [`Error::OutOfRange`] if there are fewer sums than places, or the place `at` is not below the table's length. [`Error::NotLinked`]
    /// if the place `at` is not linked.
    #[inline]
    pub fn sums_renew(table: &[Link3], sums: &mut [Sum], kind: SumKind, at: Option<u32>) -> Result<(), Error> {
        let (links, places) = Link3::read_parts(table);
        // SAFETY: each pointer comes from a reference, with the length of its slice, and no mutable reference overlaps another one.
        done(unsafe {
            ic_tree_sums_renew(links, places, sums.as_mut_ptr().cast(), sums.len(), kind as u32, number(at))
        })
    }

    /// Finds the first member at which the combined value becomes greater than `bound`, and returns this member, in O(log n). The call
    /// combines the values of the members one after the other, in their order. It begins with the member after the member `at`, or with the
    /// first member if `at` is `None`. The call changes no sum. The call returns `None` if the combined value does not become greater than
    /// `bound` at any member.
    ///
    /// # Errors
    ///
    /// [`Error::OutOfRange`] if there are fewer sums than places, or the place `at` is not below the table's length. [`Error::NotLinked`]
    /// if the place `at` is not linked. [`Error::Broken`] if the sums of the tree are wrong, or the root is not linked in this table.
    #[inline]
    pub fn sums_find(
        &self,
        table: &[Link3],
        sums: &[Sum],
        kind: SumKind,
        at: Option<u32>,
        bound: u64,
    ) -> Result<Option<u32>, Error> {
        let (links, places) = Link3::read_parts(table);
        // SAFETY: each pointer comes from a reference, with the length of its slice, and no mutable reference overlaps another one.
        handed_out(|it| unsafe {
            ic_tree_sums_find(
                links,
                places,
                sums.as_ptr().cast(),
                sums.len(),
                kind as u32,
                &self.0,
                number(at),
                bound,
                it,
            )
        })
    }

    /// Computes the combined value of the members before the member `at`, and returns this value, in O(log n). The call changes no sum.
    ///
    /// # Errors
    ///
    /// [`Error::Null`] if the place `at` is `u32::MAX`. [`Error::OutOfRange`] if there are fewer sums than places, or the place `at` is not
    /// below the table's length. [`Error::NotLinked`] if the place `at` is not linked. [`Error::Broken`] if the links from `at` upwards
    /// lead to no root.
    #[inline]
    pub fn sums_before(table: &[Link3], sums: &[Sum], kind: SumKind, at: u32) -> Result<u64, Error> {
        let (links, places) = Link3::read_parts(table);
        // SAFETY: each pointer comes from a reference, with the length of its slice, and no mutable reference overlaps another one.
        try_counted(|sum| unsafe {
            ic_tree_sums_before(links, places, sums.as_ptr().cast(), sums.len(), kind as u32, at, sum)
        })
    }

    /// Finds the first member whose interval overlaps the interval that begins at `from` and ends before `to`, and returns this member, in
    /// O(log n). The search begins after the member `at`, or at the first member if `at` is `None`. The interval of a member begins at its
    /// key and ends before its value. The sums must be computed with [`SumKind::Greatest`], and the members must be sorted by keys. The
    /// call changes no sum. The call returns `None` if there is no such member.
    ///
    /// # Errors
    ///
    /// [`Error::OutOfRange`] if there are fewer keys than places, or there are fewer sums than places, or the place `at` is not below the
    /// table's length. [`Error::NotLinked`] if the place `at` is not linked. [`Error::Broken`] if the sums of the tree are wrong, or the
    /// root is not linked in this table.
    #[inline]
    pub fn sums_overlap(
        &self,
        table: &[Link3],
        keys: &[u64],
        sums: &[Sum],
        at: Option<u32>,
        from: u64,
        to: u64,
    ) -> Result<Option<u32>, Error> {
        let (links, places) = Link3::read_parts(table);
        // SAFETY: each pointer comes from a reference, with the length of its slice, and no mutable reference overlaps another one.
        handed_out(|it| unsafe {
            ic_tree_sums_overlap(
                links,
                places,
                keys.as_ptr(),
                keys.len(),
                sums.as_ptr().cast(),
                sums.len(),
                &self.0,
                number(at),
                from,
                to,
                it,
            )
        })
    }
    // to here
}
