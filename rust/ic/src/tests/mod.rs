//! Tests of the code that all lists and trees share: views, iterators, cursors and `retain`.

extern crate std;

mod commands;
mod hostile;
mod words;

use crate::collection::{retain, Bidirectional, BidirectionalSplice, Collection, Position, Splice};
use crate::error::Error;
use crate::link::{place, Link};
use crate::{CursorMut, Link1, Link2, Link3, List, Stack, Tree, View, XorList};
use ic_sys::*;
use std::vec::Vec;
use std::{format, vec};

/// The number of places of each table in the tests.
const PLACES: usize = 12;

/// A generator of random numbers by three shifts, as Marsaglia described it.
struct Random(u64);

impl Random {
    fn new(seed: u64) -> Random {
        Random(seed ^ 0x9E37_79B9_7F4A_7C15)
    }

    fn word(&mut self) -> u64 {
        self.0 ^= self.0 << 13;
        self.0 ^= self.0 >> 7;
        self.0 ^= self.0 << 17;
        self.0
    }

    fn below(&mut self, bound: usize) -> usize {
        (self.word() >> 16) as usize % bound
    }

    /// Returns a place of the table, or the first number that is no place of the table.
    fn place(&mut self) -> u32 {
        self.below(PLACES + 1) as u32
    }
}

/// A kind of list or tree, whose words the tests read and make.
trait Kind: Collection<Link: Copy + Default> + Clone + Default {
    fn link(word: impl FnMut() -> u64) -> Self::Link;

    fn words(link: &Self::Link) -> Vec<u64>;

    fn collection(word: impl FnMut() -> u64) -> Self;

    fn own_words(&self) -> Vec<u64>;

    fn is_empty(&self) -> bool;

    /// Makes the call that hands out the first member, and returns its result.
    fn first_by_call(self, table: &mut [Self::Link]) -> Result<Option<u32>, Error>;
}

macro_rules! kind {
    ($Collection:ident, $Own:ident { $($own:ident),* }, $Link:ident, $Raw:ident { $($word:ident),* }, $first:expr) => {
        impl Kind for $Collection {
            fn link(mut word: impl FnMut() -> u64) -> $Link {
                $Link($Raw { $($word: word()),* })
            }

            fn words(link: &$Link) -> Vec<u64> {
                vec![$(link.0.$word),*]
            }

            fn collection(mut word: impl FnMut() -> u64) -> $Collection {
                $Collection($Own { $($own: word()),* })
            }

            fn own_words(&self) -> Vec<u64> {
                vec![$(self.0.$own),*]
            }

            fn is_empty(&self) -> bool {
                $Collection::is_empty(self)
            }

            fn first_by_call(mut self, table: &mut [$Link]) -> Result<Option<u32>, Error> {
                $first(&mut self, table)
            }
        }
    };
}

kind!(List, ic_list { head, tail }, Link2, ic_link2 { next, prev }, List::pop_front);
kind!(Stack, ic_stack { head }, Link1, ic_link1 { next }, Stack::pop_front);
kind!(XorList, ic_xor_list { head, tail }, Link1, ic_link1 { next }, XorList::pop_front);
kind!(Tree, ic_tree { root }, Link3, ic_link3 { left, right, parent }, |tree: &mut Tree, table: &mut [Link3]| tree
    .first(table));

/// Returns all words of a table and of a list or tree.
fn words_of<C: Kind>(collection: &C, table: &[C::Link]) -> Vec<Vec<u64>> {
    let mut words = vec![collection.own_words()];
    words.extend(table.iter().map(C::words));
    words
}

fn cursor_mut<'a, C: Kind>(collection: &'a mut C, table: &'a mut [C::Link]) -> CursorMut<'a, C> {
    CursorMut::new(collection, table, Position::NULL)
}

fn members<C: Kind>(collection: &C, table: &[C::Link]) -> Vec<u32> {
    View::new(collection, table).iter().collect()
}
