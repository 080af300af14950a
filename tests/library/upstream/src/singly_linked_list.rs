//! `SinglyLinkedList` over `ic::Stack`.

use crate::collection::Field;
use crate::link_ops::{self, DefaultLinkOps};
use crate::pointer_ops::PointerOps;
use crate::Adapter;
use core::cell::{Cell, RefCell};
use core::fmt;
use core::ptr::NonNull;
use ic::{Error, Link1, Stack};

#[derive(Clone, Copy)]
struct Position {
    at: Option<u32>,
}

impl Position {
    const NULL: Position = Position { at: None };
}

fn first(list: &Stack, _: &[Link1]) -> Position {
    Position { at: list.first() }
}

/// No member: an iterator goes on to where none is behind.
fn last(_: &Stack, _: &[Link1]) -> Position {
    Position::NULL
}

fn next(list: &Stack, links: &[Link1], position: Position) -> Position {
    Position { at: position.at.map_or(list.first(), |at| links[at as usize].next()) }
}

fn insert_after(list: &mut Stack, links: &mut [Link1], position: Position, place: u32) -> Result<(), Error> {
    list.insert_after(links, position.at, place)
}

fn splice_after(list: &mut Stack, links: &mut [Link1], position: Position, given: &mut Stack) -> Result<(), Error> {
    list.splice_after(links, position.at, given)
}

fn split_after(list: &mut Stack, links: &mut [Link1], position: Position) -> Result<Stack, Error> {
    list.split_after(links, position.at)
}

link!(SinglyLinkedListOps, Link1);
list!(SinglyLinkedList, SinglyLinkedListOps, Stack, Link1);
from_pointer!(SinglyLinkedList, SinglyLinkedListOps);

impl<A: Adapter<LinkOps: SinglyLinkedListOps>> CursorMut<'_, A> {
    pub fn remove_next(&mut self) -> Option<Pointer<A>> {
        let place = table(|links| self.list.raw.remove_after(links, self.position.at)).unwrap();
        self.list.pointer(place)
    }

    pub fn replace_next_with(&mut self, pointer: Pointer<A>) -> Result<Pointer<A>, Pointer<A>> {
        if self.peek_next().is_null() {
            return Err(pointer);
        }
        let at = self.position.at;
        let out = self.list.link(pointer, |raw, links, place| raw.replace_after(links, at, place));
        Ok(self.list.pointer(Some(out)).unwrap())
    }
}
