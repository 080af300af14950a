//! The lists and the tree of the Rust crate `intrusive-collections` over the C library, so that the crate's own tests can run on it.
//!
//! `tools/test-library` puts the crate's files beside these, and each test module at the end of its collection's file.

#![allow(clippy::all, dead_code, unused_imports, unexpected_cfgs)]

extern crate alloc;
// The tree's tests want both crates of random numbers, and `random` has what they use of them.
extern crate self as rand;
extern crate self as rand_xorshift;

mod unsafe_ref;
#[macro_use]
mod adapter;
mod key_adapter;
mod link_ops;
mod pointer_ops;
mod random;
#[macro_use]
mod collection;

pub mod linked_list;
pub mod rbtree;
pub mod singly_linked_list;
pub mod xor_linked_list;

pub use crate::adapter::Adapter;
pub use crate::key_adapter::KeyAdapter;
pub use crate::link_ops::{DefaultLinkOps, LinkOps};
pub use crate::linked_list::Link as LinkedListLink;
pub use crate::linked_list::LinkedList;
pub use crate::pointer_ops::{DefaultPointerOps, PointerOps};
pub use crate::random::{prelude, XorShiftRng};
pub use crate::rbtree::Link as RBTreeLink;
pub use crate::rbtree::RBTree;
pub use crate::singly_linked_list::Link as SinglyLinkedListLink;
pub use crate::singly_linked_list::SinglyLinkedList;
pub use crate::unsafe_ref::UnsafeRef;
pub use crate::xor_linked_list::Link as XorLinkedListLink;
pub use crate::xor_linked_list::XorLinkedList;
pub use core::mem::offset_of;

#[derive(Clone, Copy, Debug, Hash, PartialEq, Eq)]
pub enum Bound<T> {
    Included(T),
    Excluded(T),
    Unbounded,
}
