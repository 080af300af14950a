//! Tests iterators, cursors and `retain` over tables whose words are random.

use super::*;

/// The number of random tables that each test tries.
const TABLES: u64 = 20_000;

/// Returns a random word. It may name a place inside or outside the table, may have the mark in bit 0, and may have bits set that the library
/// ignores.
fn any_word(random: &mut Random) -> u64 {
    let (word, noise) = (random.below(PLACES + 4) as u64 * 8, random.word());
    match random.below(8) {
        0..=3 => word | 1,
        4 => word | (noise & 7),
        5 => word | (noise & !((1 << 36) - 8)),
        6 => word | 1 << 35,
        _ => noise,
    }
}

/// Two lists or trees and a table, all with random words. Before and after the table there is a link that no call may touch.
pub(super) struct Hostile<C: Kind> {
    pub(super) own: C,
    other: C,
    links: Vec<C::Link>,
    random: Random,
}

impl<C: Kind> Hostile<C> {
    pub(super) fn new(seed: u64) -> Self {
        let mut random = Random::new(seed);
        let links = (0..PLACES + 2).map(|_| C::link(|| any_word(&mut random))).collect();
        let (own, other) = (C::collection(|| any_word(&mut random)), C::collection(|| any_word(&mut random)));
        Hostile { own, other, links, random }
    }

    pub(super) fn table(&mut self) -> &mut [C::Link] {
        &mut self.links[1..=PLACES]
    }

    fn view(&self) -> View<'_, C> {
        View::new(&self.own, &self.links[1..=PLACES])
    }

    fn guards(&self) -> [Vec<u64>; 2] {
        [0, PLACES + 1].map(|index| C::words(&self.links[index]))
    }
}

fn is_within(place: u32) -> bool {
    (place as usize) < PLACES
}

fn walks_end<C: Kind>() {
    for seed in 0..TABLES {
        let hostile = Hostile::<C>::new(seed);
        let mut iter = hostile.view().iter();
        let (_, most) = iter.size_hint();
        let count = iter.by_ref().inspect(|&place| assert!(is_within(place))).count();
        assert!(count <= PLACES && most == Some(PLACES));
        assert_eq!((iter.next(), iter.size_hint()), (None, (0, Some(0))));
    }
}

fn walks_from_both_ends_end<C: Kind + Bidirectional>() {
    walks_end::<C>();
    for seed in 0..TABLES {
        let mut hostile = Hostile::<C>::new(seed);
        assert!(hostile.view().iter().rev().inspect(|&place| assert!(is_within(place))).count() <= PLACES);
        let (mut random, mut count) = (Random::new(hostile.random.word()), 0);
        let mut iter = hostile.view().iter();
        while let Some(place) = if random.below(2) == 0 { iter.next() } else { iter.next_back() } {
            assert!(is_within(place));
            count += 1;
        }
        assert!(count <= PLACES);
        assert_eq!((iter.next(), iter.next_back()), (None, None));
    }
}

/// The type of a function that makes an edit at a cursor, and returns whether the edit was accepted.
pub(super) type Edit<C> = fn(&mut CursorMut<'_, C>, &mut C, u32) -> bool;

pub(super) fn edits<C: Kind>() -> Vec<Edit<C>> {
    vec![|cursor, _, place| cursor.insert_after(place).is_ok()]
}

pub(super) fn edits_both_ways<C: Kind + Bidirectional>() -> Vec<Edit<C>> {
    vec![
        |cursor, _, place| cursor.insert_before(place).is_ok(),
        |cursor, _, _| cursor.remove().is_ok(),
        |cursor, _, place| cursor.replace_with(place).is_ok(),
    ]
}

pub(super) fn edits_of_lists<C: Kind + Splice>() -> Vec<Edit<C>> {
    vec![|cursor, other, _| cursor.splice_after(other).is_ok(), |cursor, other, _| {
        cursor.split_after().map(|rest| *other = rest).is_ok()
    }]
}

pub(super) fn edits_of_lists_both_ways<C: Kind + BidirectionalSplice>() -> Vec<Edit<C>> {
    vec![|cursor, other, _| cursor.splice_before(other).is_ok(), |cursor, other, _| {
        cursor.split_before().map(|rest| *other = rest).is_ok()
    }]
}

pub(super) fn edits_of_stacks() -> Vec<Edit<Stack>> {
    vec![|cursor, _, _| cursor.remove_next().is_ok(), |cursor, _, place| cursor.replace_next_with(place).is_ok()]
}

type Move<C> = fn(&mut CursorMut<'_, C>);

fn both_moves<C: Kind + Bidirectional>() -> [Move<C>; 2] {
    [|cursor| cursor.move_next(), |cursor| cursor.move_prev()]
}

/// Moves a cursor at random, and then edits. The test checks that a refused edit changes nothing, and that no edit changes a link outside the
/// table.
fn edits_stay_within<C: Kind>(moves: &[Move<C>], edits: &[Edit<C>]) {
    let mut made = 0;
    for seed in 0..TABLES {
        let mut hostile = Hostile::<C>::new(seed);
        let guards = hostile.guards();
        for _ in 0..4 {
            made += u32::from(one_edit(&mut hostile, moves, edits));
            assert_eq!(hostile.guards(), guards);
        }
    }
    assert!(made > 1_000, "only {made} edits are made");
}

fn one_edit<C: Kind>(hostile: &mut Hostile<C>, moves: &[Move<C>], edits: &[Edit<C>]) -> bool {
    let Hostile { own, other, links, random } = hostile;
    let before = (words_of(own, links), other.own_words());
    let mut cursor = cursor_mut(own, &mut links[1..=PLACES]);
    for _ in 0..random.below(2 * PLACES) {
        moves[random.below(moves.len())](&mut cursor);
        assert!(cursor.get().into_iter().all(is_within));
    }
    let at = cursor.get();
    let is_made = edits[random.below(edits.len())](&mut cursor, other, random.place());
    assert!(cursor.get().into_iter().all(is_within));
    if !is_made {
        assert_eq!(cursor.get(), at);
        assert_eq!((words_of(own, links), other.own_words()), before);
    }
    is_made
}

/// Checks that `retain` ends, and does not call its closure more often than the table has places.
fn retain_ends<C: Kind>() {
    for seed in 0..TABLES {
        let mut hostile = Hostile::<C>::new(seed);
        let (guards, mut asked) = (hostile.guards(), 0);
        let Hostile { own, links, random, .. } = &mut hostile;
        let _ = retain(own, &mut links[1..=PLACES], |place| {
            assert!(is_within(place));
            asked += 1;
            random.below(2) == 0
        });
        assert!(asked <= PLACES && hostile.guards() == guards);
    }
}

/// Calls `retain` on a list whose first member is 5, and in which each member comes after itself.
fn a_ring_is_broken<C: Kind>(mut own: C) {
    let mut table = vec![C::link(|| ic_word(5) | 1); PLACES];
    assert_eq!(members(&own, &table), [5; PLACES]);
    let mut asked = 0;
    let result = retain(&mut own, &mut table, |_| {
        asked += 1;
        true
    });
    assert_eq!((result, asked), (Err(Error::Broken), PLACES));
}

#[test]
fn rings() {
    a_ring_is_broken(Stack(ic_stack { head: ic_word(5) }));
    a_ring_is_broken(List(ic_list { head: ic_word(5), tail: 0 }));
}

#[test]
fn lists() {
    walks_from_both_ends_end::<List>();
    edits_stay_within::<List>(
        &both_moves(),
        &[edits(), edits_both_ways(), edits_of_lists(), edits_of_lists_both_ways()].concat(),
    );
    retain_ends::<List>();
}

#[test]
fn xor_lists() {
    walks_from_both_ends_end::<XorList>();
    edits_stay_within::<XorList>(
        &both_moves(),
        &[edits(), edits_both_ways(), edits_of_lists(), edits_of_lists_both_ways()].concat(),
    );
    retain_ends::<XorList>();
}

#[test]
fn stacks() {
    walks_end::<Stack>();
    edits_stay_within::<Stack>(
        &[|cursor| cursor.move_next()],
        &[edits(), edits_of_lists(), edits_of_stacks()].concat(),
    );
    retain_ends::<Stack>();
}

#[test]
fn trees() {
    walks_from_both_ends_end::<Tree>();
    edits_stay_within::<Tree>(&both_moves(), &[edits(), edits_both_ways()].concat());
    retain_ends::<Tree>();
}
