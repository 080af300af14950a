//! Plays a text of calls in Rust, and prints what each returns. tools/same-calls says how a line is written, and writes made.rs, whose function
//! `play` makes the call of a line.
//!
//!     same_calls CALLS

use ic::{Error, Sum, SumKind};
use made::World;
use std::fmt::{Display, Write};

mod made;

/// Of three hash tables the second has too few keys, as the second list and the second tree do, also too few sums, and the third has no buckets.
const BUCKETS: [std::ops::Range<usize>; 3] = [0..4, 4..7, 7..7];
const FEW: usize = 5;

/// The place of an argument, or none.
fn gap(word: &str) -> Option<u32> {
    (word != "none").then(|| number(word) as u32)
}

fn place(word: &str) -> u32 {
    gap(word).unwrap_or(u32::MAX)
}

fn number(word: &str) -> u64 {
    word.parse().expect("a number")
}

fn slot(word: &str) -> usize {
    number(word) as usize
}

fn kind(word: &str) -> SumKind {
    [SumKind::Sum, SumKind::Greatest][slot(word)]
}

/// How many of the keys or sums a call gets.
fn count(all: usize, slot: usize) -> usize {
    if slot == 1 {
        FEW
    } else {
        all
    }
}

fn some<T>(all: &[T], slot: usize) -> &[T] {
    &all[..count(all.len(), slot)]
}

fn some_mut<T>(all: &mut [T], slot: usize) -> &mut [T] {
    let count = count(all.len(), slot);
    &mut all[..count]
}

/// Two of the lists, the first of which is edited, and the second handed to the call.
fn two<T>(all: &mut [T], one: usize, other: usize) -> (&mut T, &mut T) {
    let (front, back) = all.split_at_mut(one.max(other));
    let (least, greatest) = (&mut front[one.min(other)], &mut back[0]);
    if one < other {
        (least, greatest)
    } else {
        (greatest, least)
    }
}

// ---- What is printed of what a call returns ----

fn name(error: Error) -> String {
    let name = match error {
        Error::OutOfRange => "OUT_OF_RANGE",
        Error::Linked => "LINKED",
        Error::NotLinked => "NOT_LINKED",
        Error::Null => "NULL",
        Error::Broken => "BROKEN",
    };
    name.into()
}

fn done(result: Result<(), Error>) -> String {
    result.map_or_else(name, |()| "OK".into())
}

fn member(result: Result<Option<u32>, Error>) -> String {
    result.map_or_else(name, |found| found.map_or("NULL".into(), |place| place.to_string()))
}

fn replaced(result: Result<u32, Error>) -> String {
    result.map_or_else(name, |place| place.to_string())
}

fn counted(members: Option<u64>) -> String {
    try_counted(members.ok_or(Error::Broken))
}

fn try_counted(result: Result<u64, Error>) -> String {
    result.map_or_else(name, |members| members.to_string())
}

/// A split fills the other list, if that is empty.
fn split<T>(rest: &mut T, result: Result<T, Error>) -> String {
    done(result.map(|made| *rest = made))
}

fn neighbor(place: Option<u32>) -> String {
    place.map_or("none".into(), |place| place.to_string())
}

fn yes_or_no(is: bool) -> String {
    if is { "yes" } else { "no" }.into()
}

fn walk(members: impl Iterator<Item = u32>) -> String {
    members.fold(String::new(), |text, place| text + &format!("{place} "))
}

/// A walk by a cursor. An iterator goes from both ends, so it also ends at the member that broken words name as the last one.
macro_rules! walk_by_cursor {
    ($collection:expr, $links:expr) => {{
        let (links, mut cursor) = (&$links, $collection.front(&$links));
        walk((0..links.len()).map_while(|_| {
            let place = cursor.get().filter(|&at| links.get(at as usize).is_some_and(|link| link.is_linked()));
            cursor.move_next();
            place
        }))
    }};
}
pub(crate) use walk_by_cursor;

// ---- The words ----

/// A word of 8 or of 4 bytes.
trait Word: Display {
    fn of(word: u64) -> Self;
}

impl Word for u64 {
    fn of(word: u64) -> u64 {
        word
    }
}

impl Word for u32 {
    fn of(word: u64) -> u32 {
        word as u32
    }
}

fn sum_words(of: &Sum) -> [u64; 2] {
    [of.value, of.sum]
}

fn sum_of([value, sum]: [u64; 2]) -> Sum {
    Sum { value, sum }
}

/// Writes one word of an array of links or lists.
fn set<T, W: Word, const N: usize>(
    all: &mut [T],
    at: usize,
    word: u64,
    words: fn(&T) -> [W; N],
    from_words: fn([W; N]) -> T,
) {
    let mut them = words(&all[at / N]);
    them[at % N] = W::of(word);
    all[at / N] = from_words(them);
}

fn line<T, W: Word, const N: usize>(text: &mut String, all: &[T], words: fn(&T) -> [W; N]) {
    for word in all.iter().flat_map(words) {
        write!(text, "{word} ").expect("a text");
    }
    text.push('\n');
}

fn main() {
    let path = std::env::args().nth(1).expect("the calls");
    let calls = std::fs::read_to_string(path).expect("the calls");
    let (mut world, mut said) = (World::default(), String::new());
    for line in calls.lines() {
        let (name, rest) = line.split_once(' ').unwrap_or((line, ""));
        let words: Vec<&str> = rest.split_whitespace().collect();
        match name {
            "reset" => world = World { keys: world.keys, ..World::default() },
            "show" => said += &world.show(),
            "keys" => world.keys = words.iter().map(|word| number(word)).collect(),
            "values" => world.sums.iter_mut().zip(words).for_each(|(sum, word)| sum.value = number(word)),
            "word" => world.set(number(words[0]), slot(words[1]), number(words[2])),
            _ => {
                said += &made::play(&mut world, name, &words);
                said.push('\n');
            }
        }
    }
    print!("{said}");
}
