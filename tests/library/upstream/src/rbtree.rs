//! `RBTree` over `ic::Tree`, for keys that a `u64` can stand for.

use crate::collection::Field;
use crate::link_ops::{self, DefaultLinkOps};
use crate::pointer_ops::PointerOps;
use crate::{Adapter, Bound, KeyAdapter};
use core::borrow::Borrow;
use core::cell::{Cell, RefCell};
use core::fmt;
use core::ptr::NonNull;
use ic::{Error, Link3, Tree};

#[derive(Clone, Copy)]
struct Position {
    at: Option<u32>,
}

impl Position {
    const NULL: Position = Position { at: None };
}

fn first(tree: &Tree, links: &[Link3]) -> Position {
    Position { at: tree.first(links).unwrap() }
}

fn last(tree: &Tree, links: &[Link3]) -> Position {
    Position { at: tree.last(links).unwrap() }
}

fn next(tree: &Tree, links: &[Link3], position: Position) -> Position {
    Position { at: tree.next(links, position.at).unwrap() }
}

fn prev(tree: &Tree, links: &[Link3], position: Position) -> Position {
    Position { at: tree.prev(links, position.at).unwrap() }
}

/// In the gap behind a position: under the member in front of it, if that has no right child, else under the one behind it.
fn insert_after(tree: &mut Tree, links: &mut [Link3], position: Position, place: u32) -> Result<(), Error> {
    match position.at {
        Some(at) if links[at as usize].right().is_none() => tree.insert_right(links, Some(at), place),
        _ => tree.insert_left(links, next(tree, links, position).at, place),
    }
}

fn insert_before(tree: &mut Tree, links: &mut [Link3], position: Position, place: u32) -> Result<Position, Error> {
    match position.at {
        Some(at) if links[at as usize].left().is_none() => tree.insert_left(links, Some(at), place)?,
        _ => tree.insert_right(links, prev(tree, links, position).at, place)?,
    }
    Ok(position)
}

fn remove(tree: &mut Tree, links: &mut [Link3], position: Position) -> Result<Position, Error> {
    let behind = next(tree, links, position);
    tree.remove(links, position.at.ok_or(Error::Null)?)?;
    Ok(behind)
}

fn replace(tree: &mut Tree, links: &mut [Link3], position: Position, place: u32) -> Result<Position, Error> {
    tree.replace(links, position.at.ok_or(Error::Null)?, place)?;
    Ok(Position { at: Some(place) })
}

fn pop_front(tree: &mut Tree, links: &mut [Link3]) -> Result<Option<u32>, Error> {
    let at = tree.first(links)?;
    at.map_or(Ok(()), |at| tree.remove(links, at)).and(Ok(at))
}

fn pop_back(tree: &mut Tree, links: &mut [Link3]) -> Result<Option<u32>, Error> {
    let at = tree.last(links)?;
    at.map_or(Ok(()), |at| tree.remove(links, at)).and(Ok(at))
}

link!(RBTreeOps, Link3);
cursors!(RBTree, RBTreeOps);
collection!(RBTree, RBTreeOps, Tree, Link3, debug_set);
two_way!(RBTree, RBTreeOps);
from_pointer!(RBTree, RBTreeOps);

/// A key that a number stands for, in the same order.
pub trait Number {
    fn number(&self) -> u64;
}

impl Number for i32 {
    fn number(&self) -> u64 {
        (i64::from(*self) as u64) ^ (1 << 63)
    }
}

impl Number for usize {
    fn number(&self) -> u64 {
        *self as u64
    }
}

impl<T: Number + ?Sized> Number for &T {
    fn number(&self) -> u64 {
        (**self).number()
    }
}

impl<A: for<'a> KeyAdapter<'a, LinkOps: RBTreeOps>> RBTree<A> {
    /// The keys of all members, and of one more place. Each object is asked before each search, as the crate does.
    fn keys<'b, Q: ?Sized + Number>(&self, more: Option<u32>) -> Vec<u64>
    where
        <A as KeyAdapter<'b>>::Key: Borrow<Q>,
        Value<A>: 'b,
    {
        let (mut keys, places) =
            table(|links| (vec![0; links.len()], self.raw.iter(links).chain(more).collect::<Vec<_>>()));
        for place in places {
            let value = self.value(Some(place)).unwrap();
            keys[place as usize] = self.adapter.get_key(unsafe { &*value }).borrow().number();
        }
        keys
    }

    fn found<'b, Q: ?Sized + Number>(&self, key: &Q) -> Position
    where
        <A as KeyAdapter<'b>>::Key: Borrow<Q>,
        Value<A>: 'b,
    {
        let keys = self.keys::<Q>(None);
        Position { at: table(|links| self.raw.find(links, &keys, key.number())).unwrap() }
    }

    fn lower<'b, Q: ?Sized + Number>(&self, bound: Bound<&Q>) -> Position
    where
        <A as KeyAdapter<'b>>::Key: Borrow<Q>,
        Value<A>: 'b,
    {
        let keys = self.keys::<Q>(None);
        let least = match bound {
            Bound::Included(key) => Some(key.number()),
            Bound::Excluded(key) => key.number().checked_add(1),
            Bound::Unbounded => Some(0),
        };
        let at = least.and_then(|key| table(|links| self.raw.lower_bound(links, &keys, key)).unwrap());
        Position { at }
    }

    fn upper<'b, Q: ?Sized + Number>(&self, bound: Bound<&Q>) -> Position
    where
        <A as KeyAdapter<'b>>::Key: Borrow<Q>,
        Value<A>: 'b,
    {
        let keys = self.keys::<Q>(None);
        let greatest = match bound {
            Bound::Included(key) => Some(key.number()),
            Bound::Excluded(key) => key.number().checked_sub(1),
            Bound::Unbounded => Some(u64::MAX),
        };
        let at = greatest.and_then(|key| table(|links| self.raw.upper_bound(links, &keys, key)).unwrap());
        Position { at }
    }

    pub fn find<'a, 'b, Q: ?Sized + Number>(&'a self, key: &Q) -> Cursor<'a, A>
    where
        <A as KeyAdapter<'b>>::Key: Borrow<Q>,
        'a: 'b,
    {
        Cursor { position: self.found(key), list: self }
    }

    pub fn find_mut<'a, 'b, Q: ?Sized + Number>(&'a mut self, key: &Q) -> CursorMut<'a, A>
    where
        <A as KeyAdapter<'b>>::Key: Borrow<Q>,
        'a: 'b,
    {
        CursorMut { position: self.found(key), list: self }
    }

    pub fn find_owning<'a, Q: ?Sized + Number>(self, key: &Q) -> CursorOwning<A>
    where
        <A as KeyAdapter<'a>>::Key: Borrow<Q>,
        Self: 'a,
    {
        CursorOwning { position: self.found(key), list: self }
    }

    pub fn lower_bound<'a, 'b, Q: ?Sized + Number>(&'a self, bound: Bound<&Q>) -> Cursor<'a, A>
    where
        <A as KeyAdapter<'b>>::Key: Borrow<Q>,
        'a: 'b,
    {
        Cursor { position: self.lower(bound), list: self }
    }

    pub fn lower_bound_mut<'a, 'b, Q: ?Sized + Number>(&'a mut self, bound: Bound<&Q>) -> CursorMut<'a, A>
    where
        <A as KeyAdapter<'b>>::Key: Borrow<Q>,
        'a: 'b,
    {
        CursorMut { position: self.lower(bound), list: self }
    }

    pub fn lower_bound_owning<'a, Q: ?Sized + Number>(self, bound: Bound<&Q>) -> CursorOwning<A>
    where
        <A as KeyAdapter<'a>>::Key: Borrow<Q>,
        Self: 'a,
    {
        CursorOwning { position: self.lower(bound), list: self }
    }

    pub fn upper_bound<'a, 'b, Q: ?Sized + Number>(&'a self, bound: Bound<&Q>) -> Cursor<'a, A>
    where
        <A as KeyAdapter<'b>>::Key: Borrow<Q>,
        'a: 'b,
    {
        Cursor { position: self.upper(bound), list: self }
    }

    pub fn upper_bound_mut<'a, 'b, Q: ?Sized + Number>(&'a mut self, bound: Bound<&Q>) -> CursorMut<'a, A>
    where
        <A as KeyAdapter<'b>>::Key: Borrow<Q>,
        'a: 'b,
    {
        CursorMut { position: self.upper(bound), list: self }
    }

    pub fn upper_bound_owning<'a, Q: ?Sized + Number>(self, bound: Bound<&Q>) -> CursorOwning<A>
    where
        <A as KeyAdapter<'a>>::Key: Borrow<Q>,
        Self: 'a,
    {
        CursorOwning { position: self.upper(bound), list: self }
    }

    pub fn range<'a, Min: ?Sized + Number, Max: ?Sized + Number>(
        &'a self,
        min: Bound<&Min>,
        max: Bound<&Max>,
    ) -> Iter<'a, A>
    where
        <A as KeyAdapter<'a>>::Key: Borrow<Min> + Borrow<Max>,
    {
        let (front, back, keys) = (self.lower(min), self.upper(max), self.keys::<Min>(None));
        match (front.at, back.at) {
            (Some(low), Some(high)) if keys[low as usize] <= keys[high as usize] => Iter { front, back, list: self },
            _ => Iter { front: Position::NULL, back: Position::NULL, list: self },
        }
    }

    pub fn insert<'a>(&'a mut self, pointer: Pointer<A>) -> CursorMut<'a, A>
    where
        <A as KeyAdapter<'a>>::Key: Number,
    {
        let value = self.adapter.pointer_ops().into_raw(pointer);
        let place = unsafe { self.place_of(value) };
        let keys = self.keys::<<A as KeyAdapter<'a>>::Key>(Some(place));
        let pointer = unsafe { self.adapter.pointer_ops().from_raw(value) };
        self.link(pointer, |raw, links, place| raw.insert(links, &keys, place));
        CursorMut { position: Position { at: Some(place) }, list: self }
    }

    pub fn entry<'a, Q: ?Sized + Number>(&'a mut self, key: &Q) -> Entry<'a, A>
    where
        <A as KeyAdapter<'a>>::Key: Borrow<Q>,
    {
        match self.found(key) {
            Position { at: None } => {
                Entry::Vacant(InsertCursor { behind: self.lower(Bound::Included(key)), list: self })
            }
            position => Entry::Occupied(CursorMut { position, list: self }),
        }
    }
}

impl<'a, A: for<'b> KeyAdapter<'b, LinkOps: RBTreeOps>> CursorMut<'a, A> {
    pub fn insert<'c>(&'c mut self, pointer: Pointer<A>)
    where
        <A as KeyAdapter<'c>>::Key: Number,
    {
        self.list.insert(pointer);
    }
}

pub struct InsertCursor<'a, A: Adapter<LinkOps: RBTreeOps>> {
    behind: Position,
    list: &'a mut RBTree<A>,
}

impl<'a, A: Adapter<LinkOps: RBTreeOps>> InsertCursor<'a, A> {
    pub fn insert(self, pointer: Pointer<A>) -> CursorMut<'a, A> {
        let mut cursor = CursorMut { position: self.behind, list: self.list };
        cursor.insert_before(pointer);
        cursor.move_prev();
        cursor
    }
}

pub enum Entry<'a, A: Adapter<LinkOps: RBTreeOps>> {
    Occupied(CursorMut<'a, A>),
    Vacant(InsertCursor<'a, A>),
}

impl<'a, A: Adapter<LinkOps: RBTreeOps>> Entry<'a, A> {
    pub fn or_insert(self, pointer: Pointer<A>) -> CursorMut<'a, A> {
        self.or_insert_with(|| pointer)
    }

    pub fn or_insert_with(self, pointer: impl FnOnce() -> Pointer<A>) -> CursorMut<'a, A> {
        match self {
            Entry::Occupied(cursor) => cursor,
            Entry::Vacant(cursor) => cursor.insert(pointer()),
        }
    }
}
