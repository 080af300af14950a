//! Red-black trees.

use crate::collection::{bidirectional, collection, from_place, Bidirectional, Collection, Position};
use crate::error::{counted, done, handed_out};
use crate::link::{is_none, linked, member, number, place, read, Link};
use crate::{Cursor, CursorMut, Error, Iter, Link3, View};
use core::fmt;
use ic_sys::*;

/// A red-black tree over a table of [`Link3`].
///
/// A tree is good for timers, priorities and maps. Its members have an order, and you can insert, remove and find a member at any position.
/// You order the members in one of two ways. You can give each place a number as its key, in a slice of your own, where `keys[place]` is the
/// key of `place`:
///
/// ```
/// use ic::{Error, Link3, Tree};
///
/// let deadlines = [30, 10, 20];
/// let mut links = [Link3::UNLINKED; 3];
/// let mut tree = Tree::new();
/// for timer in 0..3 {
///     tree.insert(&mut links, &deadlines, timer)?;
/// }
/// assert!(tree.iter(&links).eq([1, 2, 0]));
/// assert_eq!(tree.lower_bound(&links, &deadlines, 15)?, Some(2));
/// assert_eq!(tree.upper_bound(&links, &deadlines, 15)?, Some(1));
/// # Ok::<(), Error>(())
/// ```
///
/// Or you can pass a comparison of your own to [`insert_by`](Self::insert_by). Instead of calling `insert_by`, you can also descend from the
/// root yourself to the member below which you insert the place:
///
/// ```
/// use ic::{Error, Link3, Tree};
///
/// fn insert(tree: &mut Tree, links: &mut [Link3], names: &[&str], place: u32) -> Result<(), Error> {
///     let (mut at, mut under, mut left) = (tree.root(), None, false);
///     while let Some(member) = at {
///         let link = &links[member as usize];
///         left = names[place as usize] < names[member as usize];
///         (at, under) = (if left { link.left() } else { link.right() }, at);
///     }
///     if left { tree.insert_left(links, under, place) } else { tree.insert_right(links, under, place) }
/// }
///
/// let names = ["oak", "ash", "elm"];
/// let mut links = [Link3::UNLINKED; 3];
/// let mut tree = Tree::new();
/// for place in 0..3 {
///     insert(&mut tree, &mut links, &names, place)?;
/// }
/// assert!(tree.iter(&links).map(|place| names[place as usize]).eq(["ash", "elm", "oak"]));
/// # Ok::<(), Error>(())
/// ```
///
/// You can remove a member by its place or at a [cursor](CursorMut), and many members by one call of `retain`:
///
/// ```
/// use ic::{Error, Link3, Tree};
///
/// let deadlines = [30, 10, 20, 40];
/// let mut links = [Link3::UNLINKED; 4];
/// let mut timers = Tree::new();
/// for timer in 0..4 {
///     timers.insert(&mut links, &deadlines, timer)?;
/// }
/// timers.retain(&mut links, |timer| deadlines[timer as usize] > 15)?;
/// assert_eq!(format!("{:?}", timers.view(&links)), "[2, 0, 3]");
/// assert_eq!(timers.front_mut(&mut links).remove()?, Some(2));
/// timers.remove(&mut links, 0)?;
/// assert!(timers.iter(&links).eq([3]));
/// # Ok::<(), Error>(())
/// ```
///
/// In the costs of the calls, n is the number of members. If you drop the tree, its members stay linked. Use a clone of the tree only with a
/// clone of its table.
#[repr(transparent)]
#[derive(Clone, Default, PartialEq, Eq)]
pub struct Tree(pub(crate) ic_tree);

impl Tree {
    /// Returns a tree with no members, in O(1).
    #[inline]
    #[must_use]
    pub const fn new() -> Tree {
        Tree(ic_tree { root: 0 })
    }

    /// Returns the tree with these words, which may have any values, for example from a file. The call [`check`](Self::check) says whether the
    /// words of the tree and of its table form a tree.
    #[inline]
    #[must_use]
    pub const fn from_words([root]: [u64; 1]) -> Tree {
        Tree(ic_tree { root })
    }

    /// Returns the words of the tree, for example to write them to a file. The words contain no addresses.
    #[inline]
    #[must_use]
    pub const fn words(&self) -> [u64; 1] {
        [self.0.root]
    }

    /// Returns whether there are no members, in O(1).
    #[inline]
    #[must_use]
    pub fn is_empty(&self) -> bool {
        is_none(self.0.root)
    }

    /// Returns the root, in O(1), or `None` if there are no members.
    #[inline]
    #[must_use]
    pub fn root(&self) -> Option<u32> {
        place(self.0.root)
    }

    /// Returns the left child of the member `at`, in O(1). The call returns `None` if there is no left child, if `at` is not linked or is not
    /// in the table, or if the link of `at` leads out of the table.
    #[inline]
    #[must_use]
    pub fn left(&self, table: &[Link3], at: u32) -> Option<u32> {
        read(table, at, Link3::left)
    }

    /// Returns the right child of the member `at`, in O(1). The call returns `None` if there is no right child, if `at` is not linked or is
    /// not in the table, or if the link of `at` leads out of the table.
    #[inline]
    #[must_use]
    pub fn right(&self, table: &[Link3], at: u32) -> Option<u32> {
        read(table, at, Link3::right)
    }

    /// Returns the parent of the member `at`, in O(1). The call returns `None` if there is no parent, if `at` is not linked or is not in the
    /// table, or if the link of `at` leads out of the table.
    #[inline]
    #[must_use]
    pub fn parent(&self, table: &[Link3], at: u32) -> Option<u32> {
        read(table, at, Link3::parent)
    }

    // Made by tools/c-calls --write: tree
    /// Inserts `place` as the left child of the member `at`, which must have no left child, and balances the tree, in O(log n). So `place`
    /// comes directly before `at` in the order of the members. If `at` is `None`, the tree has to be empty, and `place` becomes its root.
    ///
    /// # Errors
    ///
    /// [`Error::OutOfRange`] if `at` or `place` is not below the table's length. [`Error::Linked`] if `place` is linked already.
    /// [`Error::NotLinked`] if the place `at` is not linked. [`Error::Broken`] if `at` has a left child, or `at` is `None` and the tree has
    /// members, or the root is not linked in this table.
    #[inline]
    pub fn insert_left(&mut self, table: &mut [Link3], at: Option<u32>, place: u32) -> Result<(), Error> {
        let (links, places) = Link3::parts(table);
        // SAFETY: each pointer comes from a reference, with the length of its slice, and no mutable reference overlaps another one.
        done(unsafe { ic_tree_insert_left(links, places, &mut self.0, number(at), place) })
    }

    /// Inserts `place` as the right child of the member `at`, which must have no right child, and balances the tree, in O(log n). So
    /// `place` comes directly after `at` in the order of the members. If `at` is `None`, the tree has to be empty, and `place` becomes its
    /// root.
    ///
    /// # Errors
    ///
    /// [`Error::OutOfRange`] if `at` or `place` is not below the table's length. [`Error::Linked`] if `place` is linked already.
    /// [`Error::NotLinked`] if the place `at` is not linked. [`Error::Broken`] if `at` has a right child, or `at` is `None` and the tree
    /// has members, or the root is not linked in this table.
    #[inline]
    pub fn insert_right(&mut self, table: &mut [Link3], at: Option<u32>, place: u32) -> Result<(), Error> {
        let (links, places) = Link3::parts(table);
        // SAFETY: each pointer comes from a reference, with the length of its slice, and no mutable reference overlaps another one.
        done(unsafe { ic_tree_insert_right(links, places, &mut self.0, number(at), place) })
    }

    /// Removes the member `at`, in O(log n).
    ///
    /// # Errors
    ///
    /// [`Error::Null`] if the place `at` is `u32::MAX`. [`Error::OutOfRange`] if the place `at` is not below the table's length.
    /// [`Error::NotLinked`] if the place `at` is not linked. [`Error::Broken`] if the root is not linked in this table, or `at` is the root
    /// of another tree.
    #[inline]
    pub fn remove(&mut self, table: &mut [Link3], at: u32) -> Result<(), Error> {
        let (links, places) = Link3::parts(table);
        // SAFETY: each pointer comes from a reference, with the length of its slice, and no mutable reference overlaps another one.
        done(unsafe { ic_tree_remove(links, places, &mut self.0, at) })
    }

    /// Removes the member `at`, and inserts `place` where `at` was, in O(1). The call compares no keys, so pass a place that comes between
    /// the neighbors of `at` in the order of the keys.
    ///
    /// # Errors
    ///
    /// [`Error::Null`] if the place `at` is `u32::MAX`. [`Error::OutOfRange`] if `at` or `place` is not below the table's length.
    /// [`Error::Linked`] if `place` is linked already, or is `at` itself. [`Error::NotLinked`] if the place `at` is not linked.
    /// [`Error::Broken`] if the root is not linked in this table, or `at` is the root of another tree.
    #[inline]
    pub fn replace(&mut self, table: &mut [Link3], at: u32, place: u32) -> Result<(), Error> {
        let (links, places) = Link3::parts(table);
        // SAFETY: each pointer comes from a reference, with the length of its slice, and no mutable reference overlaps another one.
        done(unsafe { ic_tree_replace(links, places, &mut self.0, at, place) })
    }

    /// Moves all members of `given`, in their order, after the members of this tree, and leaves `given` empty, in O(n). The call compares
    /// no keys, so pass as `given` a tree whose keys all come after the keys of this tree. The call takes O(n) because it checks both trees
    /// first. In Rattle, the language in which the library is written, types guarantee that the links form a tree, so the same call takes
    /// O(log n).
    ///
    /// # Errors
    ///
    /// [`Error::Broken`] if the links below one of the two roots form no red-black tree, or both trees have the same root.
    #[inline]
    pub fn append(&mut self, table: &mut [Link3], given: &mut Tree) -> Result<(), Error> {
        let (links, places) = Link3::parts(table);
        // SAFETY: each pointer comes from a reference, with the length of its slice, and no mutable reference overlaps another one.
        done(unsafe { ic_tree_append(links, places, &mut self.0, &mut given.0) })
    }

    /// Inserts `place` after all members of this tree, moves all members of `given`, in their order, after `place`, and leaves `given`
    /// empty, in O(n). The call compares no keys. The call takes O(n) because it checks both trees first. In Rattle, the language in which
    /// the library is written, types guarantee that the links form a tree, so the same call takes O(log n).
    ///
    /// # Errors
    ///
    /// [`Error::OutOfRange`] if `place` is not below the table's length. [`Error::Linked`] if `place` is linked already. [`Error::Broken`]
    /// if the links below one of the two roots form no red-black tree, or both trees have the same root.
    #[inline]
    pub fn join(&mut self, table: &mut [Link3], place: u32, given: &mut Tree) -> Result<(), Error> {
        let (links, places) = Link3::parts(table);
        // SAFETY: each pointer comes from a reference, with the length of its slice, and no mutable reference overlaps another one.
        done(unsafe { ic_tree_join(links, places, &mut self.0, place, &mut given.0) })
    }

    /// Removes all members, in O(n).
    ///
    /// # Errors
    ///
    /// [`Error::Broken`] if the root is not linked in this table, or a walk from the first member on goes in a circle, or comes to a place
    /// that is not linked in this table.
    #[inline]
    pub fn clear(&mut self, table: &mut [Link3]) -> Result<(), Error> {
        let (links, places) = Link3::parts(table);
        // SAFETY: each pointer comes from a reference, with the length of its slice, and no mutable reference overlaps another one.
        done(unsafe { ic_tree_clear(links, places, &mut self.0) })
    }

    /// Moves the member `at` and all members after it to a new tree, which the call returns, in O(n). The call takes O(n) because it checks
    /// the tree first. In Rattle, the language in which the library is written, types guarantee that the links form a tree, so the same
    /// call takes O(log n).
    ///
    /// # Errors
    ///
    /// [`Error::Null`] if the place `at` is `u32::MAX`. [`Error::OutOfRange`] if the place `at` is not below the table's length.
    /// [`Error::NotLinked`] if the place `at` is not linked. [`Error::Broken`] if the links below the root form no red-black tree, or `at`
    /// is no member of the tree.
    #[inline]
    pub fn split(&mut self, table: &mut [Link3], at: u32) -> Result<Tree, Error> {
        let ((links, places), mut rest) = (Link3::parts(table), Tree::new());
        // SAFETY: each pointer comes from a reference, with the length of its slice, and no mutable reference overlaps another one.
        done(unsafe { ic_tree_split(links, places, &mut self.0, at, &mut rest.0) })?;
        Ok(rest)
    }

    /// Counts the members, and returns their number, in O(n). Make this call if the words come from a file, or from memory to which other
    /// programs write. If the call returns a number, all other calls on this tree do what their comments say. The check reads no keys. It
    /// is recursive, to a depth of at most 67 calls. The call returns `None` if the links below the root form no red-black tree, because a
    /// parent, a color or a child is wrong.
    #[inline]
    #[must_use]
    pub fn check(&self, table: &[Link3]) -> Option<u64> {
        let (links, places) = Link3::read_parts(table);
        // SAFETY: each pointer comes from a reference, with the length of its slice, and no mutable reference overlaps another one.
        counted(|members| unsafe { ic_tree_check(links, places, &self.0, members) })
    }
    // to here
}

/// Calls of trees by keys. The key of `place` is the number `keys[place]`, so the slice `keys` must have a key for each place. A member with a
/// smaller key comes before a member with a greater key.
///
/// The key of a member must not change. If the members of the tree are not sorted by keys, a search may find a wrong member or none.
impl Tree {
    // Made by tools/c-calls --write: tree-keys
    /// Inserts `place` by its key, after all members whose keys are not greater than `keys[place]`, in O(log n).
    ///
    /// # Errors
    ///
    /// [`Error::OutOfRange`] if there are fewer keys than places, or `place` is not below the table's length. [`Error::Linked`] if `place`
    /// is linked already. [`Error::Broken`] if the root is not linked in this table.
    #[inline]
    pub fn insert(&mut self, table: &mut [Link3], keys: &[u64], place: u32) -> Result<(), Error> {
        let (links, places) = Link3::parts(table);
        // SAFETY: each pointer comes from a reference, with the length of its slice, and no mutable reference overlaps another one.
        done(unsafe { ic_tree_insert(links, places, keys.as_ptr(), keys.len(), &mut self.0, place) })
    }

    /// Finds the first member whose key is `key`, and returns this member, in O(log n). The call returns `None` if no member has this key.
    ///
    /// # Errors
    ///
    /// [`Error::OutOfRange`] if there are fewer keys than places. [`Error::Broken`] if the root is not linked in this table.
    #[inline]
    pub fn find(&self, table: &[Link3], keys: &[u64], key: u64) -> Result<Option<u32>, Error> {
        let (links, places) = Link3::read_parts(table);
        // SAFETY: each pointer comes from a reference, with the length of its slice, and no mutable reference overlaps another one.
        handed_out(|it| unsafe { ic_tree_find(links, places, keys.as_ptr(), keys.len(), &self.0, key, it) })
    }

    /// Finds the first member whose key is not less than `key`, and returns this member, in O(log n). The call returns `None` if every
    /// member's key is less than `key`.
    ///
    /// # Errors
    ///
    /// [`Error::OutOfRange`] if there are fewer keys than places. [`Error::Broken`] if the root is not linked in this table.
    #[inline]
    pub fn lower_bound(&self, table: &[Link3], keys: &[u64], key: u64) -> Result<Option<u32>, Error> {
        let (links, places) = Link3::read_parts(table);
        // SAFETY: each pointer comes from a reference, with the length of its slice, and no mutable reference overlaps another one.
        handed_out(|it| unsafe { ic_tree_lower_bound(links, places, keys.as_ptr(), keys.len(), &self.0, key, it) })
    }

    /// Finds the LAST member whose key is NOT GREATER than `key`, and returns this member, in O(log n). The upper_bound of C++ finds
    /// another member, the first one whose key is greater than `key`. The names of the lower and the upper bound come from the Rust crate
    /// intrusive-collections. If members have keys from `low` to `high`, the lower bound of `low` is the first of these members, and the
    /// upper bound of `high` is the last. The call returns `None` if every member's key is greater than `key`.
    ///
    /// # Errors
    ///
    /// [`Error::OutOfRange`] if there are fewer keys than places. [`Error::Broken`] if the root is not linked in this table.
    #[inline]
    pub fn upper_bound(&self, table: &[Link3], keys: &[u64], key: u64) -> Result<Option<u32>, Error> {
        let (links, places) = Link3::read_parts(table);
        // SAFETY: each pointer comes from a reference, with the length of its slice, and no mutable reference overlaps another one.
        handed_out(|it| unsafe { ic_tree_upper_bound(links, places, keys.as_ptr(), keys.len(), &self.0, key, it) })
    }
    // to here
}

/// Calls that step through a tree. A walk over all n members takes O(n).
impl Tree {
    /// Returns the first member, in O(log n), or `None` if there are no members.
    ///
    /// # Errors
    ///
    /// [`Error::Broken`] if the root is not linked in this table.
    #[inline]
    pub fn first(&self, table: &[Link3]) -> Result<Option<u32>, Error> {
        Tree::next(self, table, None)
    }

    /// Returns the last member, in O(log n), or `None` if there are no members.
    ///
    /// # Errors
    ///
    /// [`Error::Broken`] if the root is not linked in this table.
    #[inline]
    pub fn last(&self, table: &[Link3]) -> Result<Option<u32>, Error> {
        Tree::prev(self, table, None)
    }

    // Made by tools/c-calls --write: tree-steps tree-ends
    /// Finds the member after the member `at`, or the first member if `at` is `None`, and returns this member, in O(log n). The call
    /// returns `None` if `at` is the last member, or the tree is empty.
    ///
    /// # Errors
    ///
    /// [`Error::OutOfRange`] if the place `at` is not below the table's length. [`Error::NotLinked`] if the place `at` is not linked.
    /// [`Error::Broken`] if the root is not linked in this table.
    #[inline]
    pub fn next(&self, table: &[Link3], at: Option<u32>) -> Result<Option<u32>, Error> {
        let (links, places) = Link3::read_parts(table);
        // SAFETY: each pointer comes from a reference, with the length of its slice, and no mutable reference overlaps another one.
        handed_out(|it| unsafe { ic_tree_next(links, places, &self.0, number(at), it) })
    }

    /// Finds the member before the member `at`, or the last member if `at` is `None`, and returns this member, in O(log n). The call
    /// returns `None` if `at` is the first member, or the tree is empty.
    ///
    /// # Errors
    ///
    /// [`Error::OutOfRange`] if the place `at` is not below the table's length. [`Error::NotLinked`] if the place `at` is not linked.
    /// [`Error::Broken`] if the root is not linked in this table.
    #[inline]
    pub fn prev(&self, table: &[Link3], at: Option<u32>) -> Result<Option<u32>, Error> {
        let (links, places) = Link3::read_parts(table);
        // SAFETY: each pointer comes from a reference, with the length of its slice, and no mutable reference overlaps another one.
        handed_out(|it| unsafe { ic_tree_prev(links, places, &self.0, number(at), it) })
    }

    /// Inserts `place` by its key, after all members whose keys are not greater than `keys[place]`, and updates the ends of the tree, in
    /// O(log n).
    ///
    /// # Errors
    ///
    /// [`Error::OutOfRange`] if there are fewer keys than places, or `place` is not below the table's length. [`Error::Linked`] if `place`
    /// is linked already. [`Error::Broken`] if the root is not linked in this table.
    #[inline]
    pub fn ends_insert(
        &mut self,
        table: &mut [Link3],
        keys: &[u64],
        ends: &mut TreeEnds,
        place: u32,
    ) -> Result<(), Error> {
        let (links, places) = Link3::parts(table);
        // SAFETY: each pointer comes from a reference, with the length of its slice, and no mutable reference overlaps another one.
        done(unsafe { ic_tree_ends_insert(links, places, keys.as_ptr(), keys.len(), &mut self.0, &mut ends.0, place) })
    }

    /// Inserts `place` as ic_tree_insert_left does, and updates the ends of the tree, in O(log n).
    ///
    /// # Errors
    ///
    /// [`Error::OutOfRange`] if `at` or `place` is not below the table's length. [`Error::Linked`] if `place` is linked already.
    /// [`Error::NotLinked`] if the place `at` is not linked. [`Error::Broken`] if `at` has a left child, or `at` is `None` and the tree has
    /// members, or the root is not linked in this table.
    #[inline]
    pub fn ends_insert_left(
        &mut self,
        table: &mut [Link3],
        ends: &mut TreeEnds,
        at: Option<u32>,
        place: u32,
    ) -> Result<(), Error> {
        let (links, places) = Link3::parts(table);
        // SAFETY: each pointer comes from a reference, with the length of its slice, and no mutable reference overlaps another one.
        done(unsafe { ic_tree_ends_insert_left(links, places, &mut self.0, &mut ends.0, number(at), place) })
    }

    /// Inserts `place` as ic_tree_insert_right does, and updates the ends of the tree, in O(log n).
    ///
    /// # Errors
    ///
    /// [`Error::OutOfRange`] if `at` or `place` is not below the table's length. [`Error::Linked`] if `place` is linked already.
    /// [`Error::NotLinked`] if the place `at` is not linked. [`Error::Broken`] if `at` has a right child, or `at` is `None` and the tree
    /// has members, or the root is not linked in this table.
    #[inline]
    pub fn ends_insert_right(
        &mut self,
        table: &mut [Link3],
        ends: &mut TreeEnds,
        at: Option<u32>,
        place: u32,
    ) -> Result<(), Error> {
        let (links, places) = Link3::parts(table);
        // SAFETY: each pointer comes from a reference, with the length of its slice, and no mutable reference overlaps another one.
        done(unsafe { ic_tree_ends_insert_right(links, places, &mut self.0, &mut ends.0, number(at), place) })
    }

    /// Removes the member `at`, in O(log n). If `at` is the first or the last member, the call sets this end of the tree to the neighbor of
    /// `at`.
    ///
    /// # Errors
    ///
    /// [`Error::Null`] if the place `at` is `u32::MAX`. [`Error::OutOfRange`] if the place `at` is not below the table's length.
    /// [`Error::NotLinked`] if the place `at` is not linked. [`Error::Broken`] if the root is not linked in this table, or `at` is the root
    /// of another tree, or `at` is an end, and the links lead from `at` to a place that is not linked, or back to `at`.
    #[inline]
    pub fn ends_remove(&mut self, table: &mut [Link3], ends: &mut TreeEnds, at: u32) -> Result<(), Error> {
        let (links, places) = Link3::parts(table);
        // SAFETY: each pointer comes from a reference, with the length of its slice, and no mutable reference overlaps another one.
        done(unsafe { ic_tree_ends_remove(links, places, &mut self.0, &mut ends.0, at) })
    }

    /// Removes the member `at`, and inserts `place` where `at` was, in O(1). If `at` is the first or the last member, the call sets this
    /// end of the tree to `place`. The call compares no keys, so pass a place that comes between the neighbors of `at` in the order of the
    /// keys.
    ///
    /// # Errors
    ///
    /// [`Error::Null`] if the place `at` is `u32::MAX`. [`Error::OutOfRange`] if `at` or `place` is not below the table's length.
    /// [`Error::Linked`] if `place` is linked already, or is `at` itself. [`Error::NotLinked`] if the place `at` is not linked.
    /// [`Error::Broken`] if the root is not linked in this table, or `at` is the root of another tree.
    #[inline]
    pub fn ends_replace(&mut self, table: &mut [Link3], ends: &mut TreeEnds, at: u32, place: u32) -> Result<(), Error> {
        let (links, places) = Link3::parts(table);
        // SAFETY: each pointer comes from a reference, with the length of its slice, and no mutable reference overlaps another one.
        done(unsafe { ic_tree_ends_replace(links, places, &mut self.0, &mut ends.0, at, place) })
    }

    /// Removes the first member, and returns this member, in O(log n). The call reads this member from `ends`, and finds the next member,
    /// which becomes the first one, in O(1) on average. The call returns `None` if `ends` names no first member.
    ///
    /// # Errors
    ///
    /// [`Error::Broken`] if the root or the first member is not linked in this table, or the links lead from the first member to a place
    /// that is not linked, or back to the first member.
    #[inline]
    pub fn ends_pop_first(&mut self, table: &mut [Link3], ends: &mut TreeEnds) -> Result<Option<u32>, Error> {
        let (links, places) = Link3::parts(table);
        // SAFETY: each pointer comes from a reference, with the length of its slice, and no mutable reference overlaps another one.
        handed_out(|it| unsafe { ic_tree_ends_pop_first(links, places, &mut self.0, &mut ends.0, it) })
    }
    // to here
}

/// The ends of a tree, which name the first and the last member. The calls `ends_...` of a [`Tree`] read and update the ends.
///
/// With the ends of a tree, you find its first member, such as the next timer, in O(1). Edit a tree with ends only by the calls `ends_...`,
/// because no other call updates the ends:
///
/// ```
/// use ic::{Error, Link3, Tree, TreeEnds};
///
/// let deadlines = [30, 10, 20];
/// let (mut links, mut timers, mut ends) = ([Link3::UNLINKED; 3], Tree::new(), TreeEnds::new());
/// for timer in 0..3 {
///     timers.ends_insert(&mut links, &deadlines, &mut ends, timer)?;
/// }
/// assert_eq!((ends.first(&links), ends.last(&links)), (Some(1), Some(0)));
/// assert_eq!(timers.ends_pop_first(&mut links, &mut ends)?, Some(1));
/// timers.ends_remove(&mut links, &mut ends, 0)?;
/// assert_eq!((ends.first(&links), ends.last(&links)), (Some(2), Some(2)));
/// # Ok::<(), Error>(())
/// ```
///
/// After [`Tree::clear`] make new ends with [`TreeEnds::new`].
#[repr(transparent)]
#[derive(Clone, Default, PartialEq, Eq)]
pub struct TreeEnds(ic_tree_ends);

impl TreeEnds {
    /// Returns the ends of a tree with no members, in O(1).
    #[inline]
    #[must_use]
    pub const fn new() -> TreeEnds {
        TreeEnds(ic_tree_ends { first: 0, last: 0 })
    }

    /// Returns the ends with these words, which may have any values.
    #[inline]
    #[must_use]
    pub const fn from_words([first, last]: [u64; 2]) -> TreeEnds {
        TreeEnds(ic_tree_ends { first, last })
    }

    /// Returns the words of the ends, for example to write them to a file. The words contain no addresses.
    #[inline]
    #[must_use]
    pub const fn words(&self) -> [u64; 2] {
        [self.0.first, self.0.last]
    }

    /// Returns the first member of the tree, in O(1). The call returns `None` if there is no member, or if the first member is not linked in
    /// the table.
    #[inline]
    #[must_use]
    pub fn first(&self, table: &[Link3]) -> Option<u32> {
        member(table, place(self.0.first))
    }

    /// Returns the last member of the tree, in O(1). The call returns `None` if there is no member, or if the last member is not linked in the
    /// table.
    #[inline]
    #[must_use]
    pub fn last(&self, table: &[Link3]) -> Option<u32> {
        member(table, place(self.0.last))
    }
}

impl fmt::Debug for TreeEnds {
    fn fmt(&self, f: &mut fmt::Formatter<'_>) -> fmt::Result {
        f.debug_struct("TreeEnds").field("first", &place(self.0.first)).field("last", &place(self.0.last)).finish()
    }
}

collection!(Tree, Link3);
bidirectional!(Tree, Link3);
from_place!(Tree, Link3);

impl fmt::Debug for Tree {
    fn fmt(&self, f: &mut fmt::Formatter<'_>) -> fmt::Result {
        f.debug_struct("Tree").field("root", &self.root()).finish()
    }
}

// `insert_after` inserts a place as the right child of the member. If the member has a right child already, the next member has no left child,
// and the place becomes the left child of the next member. `insert_before` does the same with left and right exchanged.
impl Collection for Tree {
    type Link = Link3;
    type Position = Option<u32>;

    #[inline]
    fn next(&self, table: &[Link3], at: Option<u32>) -> Option<u32> {
        Tree::next(self, table, at).unwrap_or(None)
    }

    #[inline]
    fn end(&self, table: &[Link3]) -> Option<u32> {
        Bidirectional::prev(self, table, None)
    }

    #[inline]
    fn insert_after(&mut self, table: &mut [Link3], at: Option<u32>, place: u32) -> Result<(), Error> {
        match at.and_then(|at| table.get(at as usize)) {
            Some(link) if link.right().is_none() => self.insert_right(table, at, place),
            _ => self.insert_left(table, Collection::next(self, table, at), place),
        }
    }

    #[inline]
    fn remove_next(&mut self, table: &mut [Link3], at: Option<u32>) -> Result<Option<u32>, Error> {
        let next = Collection::next(self, table, at);
        next.map_or(Ok(()), |next| Tree::remove(self, table, next))?;
        Ok(next)
    }
}

impl Bidirectional for Tree {
    #[inline]
    fn prev(&self, table: &[Link3], at: Option<u32>) -> Option<u32> {
        Tree::prev(self, table, at).unwrap_or(None)
    }

    #[inline]
    fn insert_before(&mut self, table: &mut [Link3], at: Option<u32>, place: u32) -> Result<Option<u32>, Error> {
        match at.and_then(|at| table.get(at as usize)) {
            Some(link) if link.left().is_none() => self.insert_left(table, at, place),
            _ => self.insert_right(table, Bidirectional::prev(self, table, at), place),
        }?;
        Ok(at)
    }

    #[inline]
    fn remove(&mut self, table: &mut [Link3], at: Option<u32>) -> Result<Option<u32>, Error> {
        let next = Collection::next(self, table, at);
        Tree::remove(self, table, number(at))?;
        Ok(next)
    }

    #[inline]
    fn replace(&mut self, table: &mut [Link3], at: Option<u32>, place: u32) -> Result<Option<u32>, Error> {
        Tree::replace(self, table, number(at), place)?;
        Ok(Some(place))
    }
}
