//! Hash tables. A hash table is a slice of buckets, and each bucket is a [`Stack`], a singly linked list, which is called a chain.
//!
//! Hash tables are good for finding objects by a key, if you need no order. Your hash function computes a number, the hash, from the key of
//! each object. The chain of a hash is the bucket with the index `hash % buckets.len()`. The place of an object is in the chain of the
//! object's hash, so pass the same hash whenever you name this object. If there are about as many buckets as members, chains are short.
//!
//! ```
//! use ic::{hash, Error, Link1, Stack};
//!
//! fn hash_of(key: u64) -> u64 {
//!     key.wrapping_mul(0x9E37_79B9_7F4A_7C15) >> 32
//! }
//!
//! let keys = [50, 60, 70, 60, 90];
//! let mut links = [Link1::UNLINKED; 5];
//! let mut buckets = [const { Stack::new() }; 4];
//! for place in 0..4 {
//!     hash::insert(&mut links, &mut buckets, hash_of(keys[place as usize]), place)?;
//! }
//! assert_eq!(hash::find(&links, &keys, &buckets, hash_of(70), 70)?, Some(2));
//! assert_eq!(hash::find(&links, &keys, &buckets, hash_of(80), 80)?, None);
//!
//! // Of several members with one key the one that was inserted last is found first.
//! let found = hash::find(&links, &keys, &buckets, hash_of(60), 60)?;
//! assert_eq!((found, hash::next_equal(&links, &keys, 3)?), (Some(3), Some(1)));
//!
//! hash::remove(&mut links, &mut buckets, hash_of(60), 3)?;
//! assert_eq!(hash::find(&links, &keys, &buckets, hash_of(60), 60)?, Some(1));
//!
//! // Any other comparison is yours, in a walk over the chain.
//! let found = hash::chain(&buckets, hash_of(70)).and_then(|it| it.iter(&links).find(|&at| keys[at as usize] == 70));
//! assert_eq!(found, Some(2));
//! # Ok::<(), Error>(())
//! ```
//!
//! Words that come from a file may have any values. [`check`] returns an error if a member is not in the chain of its hash, so that no search
//! would find it:
//!
//! ```
//! use ic::{hash, Error, Link1, Stack};
//!
//! let hashes = [10, 11, 12, 13];
//! let mut links = [Link1::UNLINKED; 4];
//! let mut buckets = [const { Stack::new() }; 2];
//! for place in [0, 1, 3] {
//!     hash::insert(&mut links, &mut buckets, hashes[place as usize], place)?;
//! }
//! let (table, heads) = (links.map(|link| link.words()), buckets.each_ref().map(Stack::words));
//!
//! let mut again = heads.map(Stack::from_words);
//! assert_eq!(hash::check(&table.map(Link1::from_words), &hashes, &again), Ok(3));
//! again.swap(0, 1);
//! assert_eq!(hash::check(&table.map(Link1::from_words), &hashes, &again), Err(Error::Broken));
//! # Ok::<(), Error>(())
//! ```
//!
//! To grow or shrink a hash table, make another array of buckets, and call [`move_chain`] for each bucket of the old array, all at once or
//! over time. Members with the same key keep their order:
//!
//! ```
//! use ic::{hash, Error, Link1, Stack};
//!
//! let (keys, hashes) = ([50, 60, 60, 70, 60], [1, 2, 2, 3, 2]);
//! let mut links = [Link1::UNLINKED; 5];
//! let (mut few, mut many) = ([const { Stack::new() }; 1], [const { Stack::new() }; 4]);
//! for place in 0..5 {
//!     hash::insert(&mut links, &mut few, hashes[place as usize], place)?;
//! }
//! for chain in &mut few {
//!     hash::move_chain(&mut links, &hashes, chain, &mut many)?;
//! }
//! assert!(few[0].is_empty() && hash::iter(&links, &many).eq([0, 4, 2, 1, 3]));
//! assert_eq!(hash::find(&links, &keys, &many, 2, 60)?, Some(4));
//! # Ok::<(), Error>(())
//! ```
//!
//! You can make each call of [`Stack`] on a bucket, too. For example, [`Stack::clear`] empties a bucket. A place is in at most one chain or
//! list of a table.

use crate::error::{done, handed_out, try_counted};
use crate::link::Link;
use crate::{Error, Link1, Stack};
use ic_sys::*;

/// Returns the chain of a hash, or `None` if there is no bucket, in O(1).
#[inline]
#[must_use]
pub fn chain(buckets: &[Stack], hash: u64) -> Option<&Stack> {
    let at = hash.checked_rem(buckets.len() as u64)?;
    buckets.get(at as usize)
}

/// Iterates over all members, chain by chain, in O(buckets + n). The iterator ends after as many members as the table has places.
///
/// ```
/// use ic::{hash, Error, Link1, Stack};
///
/// let mut links = [Link1::UNLINKED; 5];
/// let mut buckets = [const { Stack::new() }; 2];
/// for place in 0..4 {
///     hash::insert(&mut links, &mut buckets, place.into(), place)?;
/// }
/// assert!(hash::iter(&links, &buckets).eq([2, 0, 3, 1]));
/// # Ok::<(), Error>(())
/// ```
#[inline]
pub fn iter<'a>(table: &'a [Link1], buckets: &'a [Stack]) -> impl Iterator<Item = u32> + 'a {
    buckets.iter().flat_map(|chain| chain.iter(table)).take(table.len())
}

// Made by tools/c-calls --write: hash hash-growth
/// Inserts `place` at the front of the chain of `hash`, in O(1).
///
/// # Errors
///
/// [`Error::OutOfRange`] if there is no bucket, or `place` is not below the table's length. [`Error::Linked`] if `place` is linked already.
/// [`Error::Broken`] if the first member of the chain is not linked in this table.
#[inline]
pub fn insert(table: &mut [Link1], buckets: &mut [Stack], hash: u64, place: u32) -> Result<(), Error> {
    let (links, places) = Link1::parts(table);
    // SAFETY: each pointer comes from a reference, with the length of its slice, and no mutable reference overlaps another one.
    done(unsafe { ic_hash_insert(links, places, buckets.as_mut_ptr().cast(), buckets.len(), hash, place) })
}

/// Removes `place` from any position in the chain of `hash`, in O(members of the chain).
///
/// # Errors
///
/// [`Error::Null`] if `place` is `u32::MAX`. [`Error::OutOfRange`] if there is no bucket, or `place` is not below the table's length.
/// [`Error::NotLinked`] if `place` is not linked. [`Error::Broken`] if `place` is linked, for example in the chain of another hash, but the
/// links of the chain of `hash` do not lead to `place`.
#[inline]
pub fn remove(table: &mut [Link1], buckets: &mut [Stack], hash: u64, place: u32) -> Result<(), Error> {
    let (links, places) = Link1::parts(table);
    // SAFETY: each pointer comes from a reference, with the length of its slice, and no mutable reference overlaps another one.
    done(unsafe { ic_hash_remove(links, places, buckets.as_mut_ptr().cast(), buckets.len(), hash, place) })
}

/// Finds the first member with the key `key` in the chain of `hash`, and returns this member, in O(members of the chain). If several
/// members have this key, the first of them is the one that you inserted last. The call returns `None` if no member of the chain has this
/// key.
///
/// # Errors
///
/// [`Error::OutOfRange`] if there are fewer keys than places, or there is no bucket. [`Error::Broken`] if the links of the chain run in a
/// circle, or lead to a place that is not linked in this table.
#[inline]
pub fn find(table: &[Link1], keys: &[u64], buckets: &[Stack], hash: u64, key: u64) -> Result<Option<u32>, Error> {
    let (links, places) = Link1::read_parts(table);
    // SAFETY: each pointer comes from a reference, with the length of its slice, and no mutable reference overlaps another one.
    handed_out(|it| unsafe {
        ic_hash_find(links, places, keys.as_ptr(), keys.len(), buckets.as_ptr().cast(), buckets.len(), hash, key, it)
    })
}

/// Finds the next member after the member `at` that is in the same chain as `at` and has the same key as `at`, and returns this member, in
/// O(members of the chain). The call returns `None` if the place `at` is `u32::MAX`, or no later member of the chain has this key.
///
/// # Errors
///
/// [`Error::OutOfRange`] if there are fewer keys than places, or the place `at` is not below the table's length. [`Error::NotLinked`] if
/// the place `at` is not linked. [`Error::Broken`] if the links of the chain run in a circle, or lead to a place that is not linked in this
/// table.
#[inline]
pub fn next_equal(table: &[Link1], keys: &[u64], at: u32) -> Result<Option<u32>, Error> {
    let (links, places) = Link1::read_parts(table);
    // SAFETY: each pointer comes from a reference, with the length of its slice, and no mutable reference overlaps another one.
    handed_out(|it| unsafe { ic_hash_next_equal(links, places, keys.as_ptr(), keys.len(), at, it) })
}

/// Counts the members of all chains, and returns their number, in O(buckets + n). `hashes` has the hash of each place. Make this call if
/// the words come from a file, or from memory to which other programs write. If the call returns a number, each member is in the chain of
/// its hash and in no other chain, and all other calls on this hash table do what their comments say.
///
/// # Errors
///
/// [`Error::OutOfRange`] if there are fewer hashes than places, or there is no bucket. [`Error::Broken`] if the links of a chain run in a
/// circle, or lead to a place that is not linked in this table, or to a member whose hash chooses another bucket.
#[inline]
pub fn check(table: &[Link1], hashes: &[u64], buckets: &[Stack]) -> Result<u64, Error> {
    let (links, places) = Link1::read_parts(table);
    // SAFETY: each pointer comes from a reference, with the length of its slice, and no mutable reference overlaps another one.
    try_counted(|members| unsafe {
        ic_hash_check(links, places, hashes.as_ptr(), hashes.len(), buckets.as_ptr().cast(), buckets.len(), members)
    })
}

/// Moves each member of `chain`, a bucket of another array, to the chain of its hash, and leaves `chain` empty, in O(members of the chain).
/// `hashes` has the hash of each place. Members that move to the same bucket keep their order, and come before the members that were in
/// this bucket before. So if several of the moved members have the same key, a search still finds the one that you inserted last. Each
/// place stays linked during the call. To grow or shrink a hash table, make another array of buckets, and make this call for each bucket of
/// the old array.
///
/// # Errors
///
/// [`Error::OutOfRange`] if there are fewer hashes than places, or there is no bucket. [`Error::Broken`] if the links of `chain` run in a
/// circle, or lead to a place that is not linked in this table, or the first member of a bucket to which a member moves is not linked in
/// this table.
#[inline]
pub fn move_chain(table: &mut [Link1], hashes: &[u64], chain: &mut Stack, buckets: &mut [Stack]) -> Result<(), Error> {
    let (links, places) = Link1::parts(table);
    // SAFETY: each pointer comes from a reference, with the length of its slice, and no mutable reference overlaps another one.
    done(unsafe {
        ic_hash_move_chain(
            links,
            places,
            hashes.as_ptr(),
            hashes.len(),
            &mut chain.0,
            buckets.as_mut_ptr().cast(),
            buckets.len(),
        )
    })
}
// to here
