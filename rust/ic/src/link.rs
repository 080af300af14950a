//! This module has links, and the words of which they consist.
//!
//! Bits 3 to 35 of a word are a number. If the word names a place, the number is this place plus 1. If the number is 0, the word names no
//! place. Bit 0 is a mark of the link, and the library ignores all other bits. Every bit pattern is a valid word.

use crate::Error;
use ic_sys::*;

/// The bits of a word that are the number of a place.
const NUMBER: u64 = (1 << 36) - (1 << 3);

/// Returns whether the number in a word is 0, so that the word names no place.
#[inline]
pub(crate) fn is_none(word: u64) -> bool {
    word & NUMBER == 0
}

/// Returns the place that a word names, or `None` if the word names no place, or a place that is no `u32`.
#[inline]
pub(crate) fn place(word: u64) -> Option<u32> {
    let place = ic_place(word);
    (place != IC_NONE).then_some(place)
}

/// Returns the number that a call of C takes for a place or for `None`.
#[inline]
pub(crate) fn number(place: Option<u32>) -> u32 {
    place.unwrap_or(IC_NONE)
}

/// Returns the place that the closure `word` reads from the link of `at`. The function returns `None` if `at` or the place that was read is
/// not in the table.
#[inline]
pub(crate) fn read<L: Link>(table: &[L], at: u32, word: impl FnOnce(&L) -> Option<u32>) -> Option<u32> {
    within(table, link_of(table, at).and_then(word))
}

/// Returns the link of a place, if the table has the place.
#[inline]
fn link_of<L: Link>(table: &[L], at: u32) -> Option<&L> {
    table.get(at as usize).filter(|_| (at as usize) < L::PLACES)
}

/// Returns `place`, or `None` if the table does not have this place.
#[inline]
pub(crate) fn within<L: Link>(table: &[L], place: Option<u32>) -> Option<u32> {
    place.filter(|&place| (place as usize) < table.len().min(L::PLACES))
}

/// Returns `place`, or `None` if this place is not linked in the table. An iterator ends at a place that is not linked.
#[inline]
pub(crate) fn member<L: Link>(table: &[L], place: Option<u32>) -> Option<u32> {
    place.filter(|&place| link_of(table, place).is_some_and(L::is_linked))
}

/// The trait of all types of links.
pub trait Link: Sized {
    /// The type that C has for this link. The link is a transparent wrapper of `Raw`.
    type Raw;

    /// The greatest number of places that a table of such links can have.
    const PLACES: usize = usize::MAX;

    /// Returns whether the place of this link is linked.
    fn is_linked(&self) -> bool;

    /// Returns the pointer and the length that a call of C takes for a table that it edits.
    #[inline]
    fn parts(table: &mut [Self]) -> (*mut Self::Raw, usize) {
        (table.as_mut_ptr().cast(), table.len())
    }

    /// Returns the pointer and the length that a call of C takes for a table that it reads.
    #[inline]
    fn read_parts(table: &[Self]) -> (*const Self::Raw, usize) {
        (table.as_ptr().cast(), table.len())
    }
}

/// Returns an error if a place is not linked in the table.
#[inline]
pub(crate) fn linked<L: Link>(table: &[L], place: u32) -> Result<(), Error> {
    match table.get(place as usize) {
        None => Err(Error::OutOfRange),
        Some(link) if !link.is_linked() => Err(Error::NotLinked),
        Some(_) => Ok(()),
    }
}

/// Defines the calls that all types of links have. Bit 0 of the first word says whether the place of the link is linked.
macro_rules! link {
    ($Link:ident, $words:literal, $Raw:ident { $first:ident $(, $word:ident)* }) => {
        link!($Link, $words, u64, usize::MAX, $Raw { $first $(, $word)* });
    };
    ($Link:ident, $words:literal, $Word:ty, $places:expr, $Raw:ident { $first:ident $(, $word:ident)* }) => {
        impl Link for $Link {
            type Raw = $Raw;
            const PLACES: usize = $places;

            #[inline]
            fn is_linked(&self) -> bool {
                self.0.$first & 1 == 1
            }
        }

        impl $Link {
            /// The link of a place that is in no list and no tree.
            pub const UNLINKED: $Link = $Link($Raw { $first: 0 $(, $word: 0)* });

            /// Returns the link with these words, which may have any values, for example from a file. The call `check` of a list or tree says
            /// whether the words of a table form this list or tree.
            #[inline]
            #[must_use]
            pub const fn from_words([$first $(, $word)*]: [$Word; $words]) -> $Link {
                $Link($Raw { $first $(, $word)* })
            }

            /// Returns the words of the link, for example to write them to a file. The words contain no addresses.
            #[inline]
            #[must_use]
            pub const fn words(&self) -> [$Word; $words] {
                [self.0.$first $(, self.0.$word)*]
            }

            /// Returns whether the place is in a list or tree, in O(1).
            #[inline]
            #[must_use]
            pub fn is_linked(&self) -> bool {
                Link::is_linked(self)
            }

            // Returns the place that a word of the link names, or `None` if the place of the link is not linked.
            #[inline]
            fn named(&self, word: $Word) -> Option<u32> {
                place(word.into()).filter(|_| self.is_linked())
            }
        }
    };
}

link!(Link1, 1, ic_link1 { next });
link!(Link2, 2, ic_link2 { next, prev });
link!(Link3, 3, ic_link3 { left, right, parent });
link!(Link2x32, 2, u32, 536_870_911, ic_link2_32 { next, prev });

/// The link of a place in a table for a [`List`](crate::List) or for rings.
///
/// ```
/// use ic::{Link2, List};
///
/// let mut links = [Link2::UNLINKED; 3];
/// let mut list = List::new();
/// list.push_back(&mut links, 0)?;
/// list.push_back(&mut links, 2)?;
/// assert_eq!((links[0].next(), links[2].prev()), (Some(2), Some(0)));
/// assert!(links[2].is_linked() && !links[1].is_linked());
/// # Ok::<(), ic::Error>(())
/// ```
#[repr(transparent)]
#[derive(Clone, Copy, Debug, Default, PartialEq, Eq, Hash)]
pub struct Link2(pub(crate) ic_link2);

impl Link2 {
    /// Returns the member after the place of this link, in O(1), or `None` if there is none or if the place of this link is not linked.
    #[inline]
    #[must_use]
    pub fn next(&self) -> Option<u32> {
        self.named(self.0.next)
    }

    /// Returns the member before the place of this link, in O(1), or `None` if there is none or if the place of this link is not linked.
    #[inline]
    #[must_use]
    pub fn prev(&self) -> Option<u32> {
        self.named(self.0.prev)
    }
}

/// The link of a place in a table for a [`List32`](crate::List32) or for rings with words of 4 bytes. This link takes half the memory of a
/// [`Link2`], and can name only places below 536,870,911.
///
/// ```
/// use ic::{ring32, Link2x32};
///
/// let mut links = [Link2x32::UNLINKED; 3];
/// ring32::init(&mut links, 2)?;
/// ring32::push_back(&mut links, 2, 0)?;
/// assert_eq!((links[2].next(), links[2].prev()), (Some(0), Some(0)));
/// assert!(links[0].is_linked() && !links[1].is_linked());
/// # Ok::<(), ic::Error>(())
/// ```
#[repr(transparent)]
#[derive(Clone, Copy, Debug, Default, PartialEq, Eq, Hash)]
pub struct Link2x32(pub(crate) ic_link2_32);

impl Link2x32 {
    /// Returns the place after the place of this link, in O(1), or `None` if there is none or if the place of this link is not linked.
    #[inline]
    #[must_use]
    pub fn next(&self) -> Option<u32> {
        self.named(self.0.next)
    }

    /// Returns the place before the place of this link, in O(1), or `None` if there is none or if the place of this link is not linked.
    #[inline]
    #[must_use]
    pub fn prev(&self) -> Option<u32> {
        self.named(self.0.prev)
    }
}

/// The link of a place in a table for a [`Stack`](crate::Stack), a hash table or an [`XorList`](crate::XorList).
///
/// ```
/// use ic::{Link1, Stack, XorList};
///
/// let (mut links, mut stack) = ([Link1::UNLINKED; 3], Stack::new());
/// stack.push_front(&mut links, 2)?;
/// stack.push_front(&mut links, 0)?;
/// assert_eq!(links[0].next(), Some(2));
///
/// let (mut links, mut list) = ([Link1::UNLINKED; 3], XorList::new());
/// for place in 0..3 {
///     list.push_back(&mut links, place)?;
/// }
/// assert_eq!((links[1].step(Some(0)), links[1].step(Some(2))), (Some(2), Some(0)));
/// # Ok::<(), ic::Error>(())
/// ```
#[repr(transparent)]
#[derive(Clone, Copy, Debug, Default, PartialEq, Eq, Hash)]
pub struct Link1(pub(crate) ic_link1);

impl Link1 {
    /// Returns the member after the place of this link in a [`Stack`](crate::Stack), in O(1), or `None` if there is none or if the place of
    /// this link is not linked.
    #[inline]
    #[must_use]
    pub fn next(&self) -> Option<u32> {
        self.named(self.0.next)
    }

    /// Returns the other neighbor in an [`XorList`](crate::XorList), in O(1): the neighbor of the place of this link that is not its neighbor
    /// `from`. If the place of this link is the first or the last member, pass `None` as `from` to get its only neighbor. The call returns
    /// `None` if there is no other neighbor, or if the place of this link is not linked.
    #[inline]
    #[must_use]
    pub fn step(&self, from: Option<u32>) -> Option<u32> {
        self.named(self.0.next ^ ic_word(number(from)))
    }
}

/// The link of a place in a table for a [`Tree`](crate::Tree).
///
/// ```
/// use ic::{Link3, Tree};
///
/// let mut links = [Link3::UNLINKED; 3];
/// let mut tree = Tree::new();
/// tree.insert_left(&mut links, None, 1)?;
/// tree.insert_right(&mut links, Some(1), 2)?;
/// assert_eq!((links[1].left(), links[1].right(), links[2].parent()), (None, Some(2), Some(1)));
/// assert!(links[2].is_linked() && !links[0].is_linked());
/// # Ok::<(), ic::Error>(())
/// ```
#[repr(transparent)]
#[derive(Clone, Copy, Debug, Default, PartialEq, Eq, Hash)]
pub struct Link3(pub(crate) ic_link3);

impl Link3 {
    /// Returns the left child of the place of this link, in O(1), or `None` if there is none or if the place of this link is not linked. The
    /// left child and all members below it come before the place of this link.
    #[inline]
    #[must_use]
    pub fn left(&self) -> Option<u32> {
        self.named(self.0.left)
    }

    /// Returns the right child of the place of this link, in O(1), or `None` if there is none or if the place of this link is not linked. The
    /// right child and all members below it come after the place of this link.
    #[inline]
    #[must_use]
    pub fn right(&self) -> Option<u32> {
        self.named(self.0.right)
    }

    /// Returns the parent of the place of this link, in O(1), or `None` if there is none or if the place of this link is not linked.
    #[inline]
    #[must_use]
    pub fn parent(&self) -> Option<u32> {
        self.named(self.0.parent)
    }
}
