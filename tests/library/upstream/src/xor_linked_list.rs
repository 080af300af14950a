//! `XorLinkedList` over `ic::XorList`.

use crate::collection::Field;
use crate::link_ops::{self, DefaultLinkOps};
use crate::pointer_ops::PointerOps;
use crate::Adapter;
use core::cell::{Cell, RefCell};
use core::fmt;
use core::mem::swap;
use core::ptr::NonNull;
use ic::{Error, Link1, XorList};

/// A member, and the one in front of it.
#[derive(Clone, Copy)]
struct Position {
    at: Option<u32>,
    before: Option<u32>,
}

impl Position {
    const NULL: Position = Position { at: None, before: None };
}

/// The member on the other side of a member than its neighbor.
fn step(links: &[Link1], from: Option<u32>, at: u32) -> Option<u32> {
    links[at as usize].step(from)
}

/// The neighbors of the gap behind a position.
fn gap_behind(list: &XorList, links: &[Link1], position: Position) -> (Option<u32>, Option<u32>) {
    (position.at, position.at.map_or(list.first(), |at| step(links, position.before, at)))
}

/// The neighbors of the gap in front of a position.
fn gap_before(list: &XorList, position: Position) -> (Option<u32>, Option<u32>) {
    (position.at.map_or(list.last(), |_| position.before), position.at)
}

/// A member and the one in front of it, or the null position.
fn position(at: Option<u32>, before: Option<u32>) -> Position {
    Position { at, before: at.and(before) }
}

fn first(list: &XorList, _: &[Link1]) -> Position {
    position(list.first(), None)
}

fn last(list: &XorList, links: &[Link1]) -> Position {
    position(list.last(), list.last().and_then(|at| step(links, None, at)))
}

fn next(list: &XorList, links: &[Link1], from: Position) -> Position {
    position(gap_behind(list, links, from).1, from.at)
}

fn prev(list: &XorList, links: &[Link1], from: Position) -> Position {
    let at = gap_before(list, from).0;
    position(at, at.and_then(|at| step(links, from.at, at)))
}

fn insert_after(list: &mut XorList, links: &mut [Link1], at: Position, place: u32) -> Result<(), Error> {
    let (before, behind) = gap_behind(list, links, at);
    list.insert_between(links, before, place, behind)
}

fn insert_before(list: &mut XorList, links: &mut [Link1], at: Position, place: u32) -> Result<Position, Error> {
    let (before, behind) = gap_before(list, at);
    list.insert_between(links, before, place, behind)?;
    Ok(position(at.at, Some(place)))
}

fn remove(list: &mut XorList, links: &mut [Link1], at: Position) -> Result<Position, Error> {
    let behind = gap_behind(list, links, at).1;
    list.remove(links, at.before, at.at.ok_or(Error::Null)?)?;
    Ok(position(behind, at.before))
}

fn replace(list: &mut XorList, links: &mut [Link1], at: Position, place: u32) -> Result<Position, Error> {
    list.replace(links, at.before, at.at.ok_or(Error::Null)?, place)?;
    Ok(position(Some(place), at.before))
}

fn splice_after(list: &mut XorList, links: &mut [Link1], at: Position, given: &mut XorList) -> Result<(), Error> {
    let (before, behind) = gap_behind(list, links, at);
    list.splice_between(links, before, given, behind)
}

fn splice_before(list: &mut XorList, links: &mut [Link1], at: Position, given: &mut XorList) -> Result<Position, Error> {
    let ((before, behind), last) = (gap_before(list, at), given.last());
    list.splice_between(links, before, given, behind)?;
    Ok(position(at.at, last.or(at.before)))
}

fn split_after(list: &mut XorList, links: &mut [Link1], at: Position) -> Result<XorList, Error> {
    let (before, behind) = gap_behind(list, links, at);
    list.split_between(links, before, behind)
}

fn split_before(list: &mut XorList, links: &mut [Link1], at: Position) -> Result<(XorList, Position), Error> {
    let (before, behind) = gap_before(list, at);
    let mut rest = list.split_between(links, before, behind)?;
    swap(list, &mut rest);
    Ok((rest, position(at.at, None)))
}

link!(XorLinkedListOps, Link1);
two_way_list!(XorLinkedList, XorLinkedListOps, XorList, Link1);

impl<A: Adapter<LinkOps: XorLinkedListOps>> XorLinkedList<A> {
    /// The place of an object, or none of a null pointer.
    unsafe fn place_or_none(&self, value: *const Value<A>) -> Option<u32> {
        (!value.is_null()).then(|| self.place_of(value))
    }

    unsafe fn from_prev(&self, value: *const Value<A>, prev: *const Value<A>) -> Position {
        position(self.place_or_none(value), self.place_or_none(prev))
    }

    unsafe fn from_next(&self, value: *const Value<A>, next: *const Value<A>) -> Position {
        let (at, next) = (self.place_of(value), self.place_or_none(next));
        position(Some(at), table(|links| step(links, next, at)))
    }

    pub unsafe fn cursor_from_ptr_and_prev(&self, value: *const Value<A>, prev: *const Value<A>) -> Cursor<'_, A> {
        Cursor { position: self.from_prev(value, prev), list: self }
    }

    pub unsafe fn cursor_from_ptr_and_next(&self, value: *const Value<A>, next: *const Value<A>) -> Cursor<'_, A> {
        Cursor { position: self.from_next(value, next), list: self }
    }

    pub unsafe fn cursor_mut_from_ptr_and_prev(&mut self, value: *const Value<A>, prev: *const Value<A>) -> CursorMut<'_, A> {
        CursorMut { position: self.from_prev(value, prev), list: self }
    }

    pub unsafe fn cursor_mut_from_ptr_and_next(&mut self, value: *const Value<A>, next: *const Value<A>) -> CursorMut<'_, A> {
        CursorMut { position: self.from_next(value, next), list: self }
    }

    pub fn reverse(&mut self) {
        self.raw.reverse();
    }
}
