//! This crate has lists, rings, hash tables and red-black trees of objects in your own arrays. Its calls allocate no memory.
//!
//! You name an object by its place, which is the index of the object in your array. The links of the objects are in a second slice, the table,
//! which has one link for each place. A link consists of words, which are integers that name other places. A place that is in a list or tree
//! is linked, and is a member of this list or tree. A place is in at most one list or tree of a table. To have an object in several lists or
//! trees at once, use one table for each list or tree.
//!
//! ```
//! use ic::{Error, Link2, List};
//!
//! let names = ["ash", "elm", "oak"];
//! let mut links = [Link2::UNLINKED; 3];
//! let mut list = List::new();
//! list.push_back(&mut links, 2)?;
//! list.push_front(&mut links, 0)?;
//! assert_eq!(list.push_back(&mut links, 2), Err(Error::Linked)); // and nothing is changed
//! assert!(list.iter(&links).map(|place| names[place as usize]).eq(["ash", "oak"]));
//! list.remove(&mut links, 2)?;
//! assert_eq!(list.pop_front(&mut links)?, Some(0));
//! assert_eq!(list.pop_front(&mut links)?, None);
//! # Ok::<(), Error>(())
//! ```
//!
//! | Type | Link | Good for |
//! |---|---|---|
//! | [`List`] | [`Link2`], 16 bytes | queues and caches, from whose middle you remove objects |
//! | [`ring`] | [`Link2`], 16 bytes | queues whose members you remove without the queue's name |
//! | [`Stack`] | [`Link1`], 8 bytes | stacks and free lists |
//! | [`mod@hash`] | [`Link1`], 8 bytes | objects that you find by a key, in no order |
//! | [`XorList`] | [`Link1`], 8 bytes | both ends and both directions, where memory is scarce |
//! | [`Tree`] | [`Link3`], 24 bytes | timers, priorities and indices: objects in order, which you search for |
//!
//! # A list and its table
//!
//! A list consists of one or two words, and does not contain its table. So you pass the table to each call. Three types borrow a list together
//! with its table:
//!
//! - A [`View`] reads. You can print the view `list.view(&links)` with `{:?}`, and use the view in a `for` loop. `list.iter(&links)` returns
//!   an iterator over the members.
//! - A [`Cursor`] moves from member to member, and reads. `list.front(&links)` returns a cursor on the first member.
//! - A [`CursorMut`] moves and reads, too, and also edits: it inserts, removes and replaces members, and splits and splices lists.
//!   `list.front_mut(&mut links)` returns a [`CursorMut`] on the first member.
//!
//! ```
//! use ic::{Link2, List};
//!
//! let mut links = [Link2::UNLINKED; 5];
//! let mut list = List::new();
//! for place in 0..5 {
//!     list.push_back(&mut links, place)?;
//! }
//! let mut cursor = list.front_mut(&mut links);
//! while let Some(place) = cursor.get() {
//!     if place == 2 {
//!         cursor.remove()?; // and the cursor is on 3
//!     } else {
//!         cursor.move_next();
//!     }
//! }
//! assert_eq!(format!("{:?}", list.view(&links)), "[0, 1, 3, 4]");
//! list.retain(&mut links, |place| place != 1)?;
//! for place in list.view(&links) {
//!     assert!(links[place as usize].is_linked());
//! }
//! assert!(list.iter(&links).rev().eq([4, 3, 0]));
//! # Ok::<(), ic::Error>(())
//! ```
//!
//! The calls of cursors have the same names as in the crate `intrusive-collections`. `retain` keeps the members for which a closure returns
//! `true`, as `Vec::retain` does.
//!
//! # What can go wrong
//!
//! No call panics, and you write no unsafe code. You may pass any table, list, tree and place to each call. A call that returns an [`Error`]
//! has changed nothing, except `retain`, which has made its edits up to the member at which it stopped. An edit of a list takes a constant
//! number of steps, except [`Stack::splice_after`], [`Stack::remove`], [`hash::remove`], [`hash::move_chain`], `fill`, `clear`, `retain`,
//! `sort` and `merge`. An edit or a search of a tree takes O(log n), except `append`, `join`, `split`, `clear` and `retain`, and
//! [`Tree::sums_renew`] for all places. A `check` takes O(n).
//!
//! The compiler doesn't check that you pass a list or tree together with its own table. With the wrong table every call is still memory safe.
//! If the call detects the mistake, it returns [`Error::Broken`]. If the call does not detect the mistake, it may damage lists or trees of the
//! wrong table. An iterator ends at a place that is not linked, and after as many members as the table has places. A cursor never leaves the
//! table. If a word names a place outside the table, the cursor treats the word as `None`.
//!
//! Links and lists contain numbers and no addresses. You can write their [words](Link2::words) to a file, and read them again. Words may have
//! any values. [`List::check`] says whether the words of a list and its table form a list, and [`ring::check`] says whether the words of a
//! table form a ring.
//!
//! The edits, the searches and the steps through a tree are calls of the crate `ic-sys`, which are proved. The crate `ic` itself is tested,
//! and not proved. Each of its `unsafe` blocks contains one call of `ic-sys` and nothing else.

#![no_std]
#![warn(missing_docs, clippy::missing_errors_doc, clippy::undocumented_unsafe_blocks)]

/// The code sample of the file `README.md`, which is tested with the samples of this documentation.
#[cfg(doctest)]
#[doc = include_str!("../README.md")]
struct Readme;

mod collection;
mod cursor;
mod error;
pub mod hash;
mod keyed;
mod link;
mod list;
mod list32;
pub mod ring;
pub mod ring32;
mod stack;
mod sums;
#[cfg(test)]
mod tests;
mod tree;
mod view;
mod xor_list;

pub use cursor::{Cursor, CursorMut};
pub use error::Error;
pub use keyed::{Entry, VacantEntry};
pub use link::{Link1, Link2, Link2x32, Link3};
pub use list::List;
pub use list32::List32;
pub use stack::Stack;
pub use sums::{Sum, SumKind};
pub use tree::{Tree, TreeEnds};
pub use view::{Iter, View};
pub use xor_list::XorList;
