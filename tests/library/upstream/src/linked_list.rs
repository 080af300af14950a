//! `LinkedList` over `ic::List`.

use crate::collection::Field;
use crate::link_ops::{self, DefaultLinkOps};
use crate::pointer_ops::PointerOps;
use crate::Adapter;
use core::cell::{Cell, RefCell};
use core::fmt;
use core::ptr::NonNull;
use ic::{Error, Link2, List};

#[derive(Clone, Copy)]
struct Position {
    at: Option<u32>,
}

impl Position {
    const NULL: Position = Position { at: None };
}

fn first(list: &List, _: &[Link2]) -> Position {
    Position { at: list.first() }
}

fn last(list: &List, _: &[Link2]) -> Position {
    Position { at: list.last() }
}

fn next(list: &List, links: &[Link2], position: Position) -> Position {
    Position { at: position.at.map_or(list.first(), |at| links[at as usize].next()) }
}

fn prev(list: &List, links: &[Link2], position: Position) -> Position {
    Position { at: position.at.map_or(list.last(), |at| links[at as usize].prev()) }
}

fn insert_after(list: &mut List, links: &mut [Link2], position: Position, place: u32) -> Result<(), Error> {
    list.insert_after(links, position.at, place)
}

fn insert_before(list: &mut List, links: &mut [Link2], position: Position, place: u32) -> Result<Position, Error> {
    list.insert_before(links, position.at, place)?;
    Ok(position)
}

fn remove(list: &mut List, links: &mut [Link2], position: Position) -> Result<Position, Error> {
    let behind = next(list, links, position);
    list.remove(links, position.at.ok_or(Error::Null)?)?;
    Ok(behind)
}

fn replace(list: &mut List, links: &mut [Link2], position: Position, place: u32) -> Result<Position, Error> {
    list.replace(links, position.at.ok_or(Error::Null)?, place)?;
    Ok(Position { at: Some(place) })
}

fn splice_after(list: &mut List, links: &mut [Link2], position: Position, given: &mut List) -> Result<(), Error> {
    list.splice_after(links, position.at, given)
}

fn splice_before(list: &mut List, links: &mut [Link2], position: Position, given: &mut List) -> Result<Position, Error> {
    list.splice_before(links, position.at, given)?;
    Ok(position)
}

fn split_after(list: &mut List, links: &mut [Link2], position: Position) -> Result<List, Error> {
    list.split_after(links, position.at)
}

fn split_before(list: &mut List, links: &mut [Link2], position: Position) -> Result<(List, Position), Error> {
    Ok((list.split_before(links, position.at)?, position))
}

link!(LinkedListOps, Link2);
two_way_list!(LinkedList, LinkedListOps, List, Link2);
from_pointer!(LinkedList, LinkedListOps);
