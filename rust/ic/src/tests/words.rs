//! Tests that this crate reads a word as the calls of C do: bits 3 to 35 are its number.

use super::hostile::{edits, edits_both_ways, edits_of_lists, edits_of_stacks, Edit, Hostile};
use super::*;

/// The highest bit of the number in a word. No word for a `u32` has this bit.
const HIGHEST: u64 = 1 << 35;
/// The bits that the library ignores in each word. Bit 0, which may be a mark, is not one of them.
const NOISE: u64 = !((1 << 36) - 1) | 0b110;

#[test]
fn a_word_names_one_place() {
    for word in [8, 8 | 7, 8 | 1 << 36, 8 | u64::MAX << 36] {
        assert_eq!((place(word), ic_place(word)), (Some(0), 0));
    }
    assert_eq!(place(u64::from(u32::MAX) * 8), Some(u32::MAX - 1));
    for word in [0, 7, 1 << 36, HIGHEST, HIGHEST | 8, HIGHEST | 7 << 3, u64::MAX] {
        assert_eq!((place(word), ic_place(word)), (None, IC_NONE));
    }
    for index in [0, 1, 12, u32::MAX - 1] {
        assert_eq!(place(ic_word(index)), Some(index));
    }
}

/// Returns a list or tree that has some or all places of a table.
fn random_collection<C: Kind>(random: &mut Random) -> (C, Vec<C::Link>) {
    let (mut own, mut table) = (C::default(), vec![C::Link::default(); PLACES]);
    for _ in 0..random.below(2 * PLACES) {
        let mut cursor = cursor_mut(&mut own, &mut table);
        for _ in 0..random.below(PLACES) {
            cursor.move_next();
        }
        let _ = cursor.insert_after(random.place());
    }
    (own, table)
}

/// Returns the words of a list or tree and of its table, and sets random bits that the library ignores. In the second word of a link, bit 0 is
/// no mark and may be set, too.
fn with_noise<C: Kind>(own: &C, table: &[C::Link], random: &mut Random) -> (C, Vec<C::Link>) {
    let mut words = own.own_words().into_iter();
    let noisy = C::collection(|| words.next().unwrap() | random.word() & (NOISE | 1));
    let links = table.iter().map(|link| {
        let mut words = (0..).zip(C::words(link));
        C::link(|| words.next().map(|(index, word)| word | random.word() & (NOISE | u64::from(index == 1))).unwrap())
    });
    (noisy, links.collect())
}

/// Checks that edits at a cursor have the same results with the ignored bits and without them.
fn noise_counts_for_nothing<C: Kind>(edits: &[Edit<C>]) {
    let mut random = Random::new(3);
    for _ in 0..2_000 {
        let (mut own, mut table) = random_collection::<C>(&mut random);
        for _ in 0..8 {
            let (mut noisy, mut links) = with_noise(&own, &table, &mut random);
            assert_eq!((noisy.is_empty(), members(&noisy, &links)), (own.is_empty(), members(&own, &table)));
            let (steps, edit, place) = (random.below(PLACES), edits[random.below(edits.len())], random.place());
            let make = |own: &mut C, table: &mut [C::Link]| {
                let (mut cursor, mut other) = (cursor_mut(own, table), C::default());
                (0..steps).for_each(|_| cursor.move_next());
                let is_made = edit(&mut cursor, &mut other, place);
                let at = cursor.get();
                (is_made, at, members(own, table), members(&other, table))
            };
            assert_eq!(make(&mut noisy, &mut links), make(&mut own, &mut table));
            assert_eq!(members(&noisy, &links), members(&own, &table));
        }
    }
}

/// Checks that a list or tree whose words have the highest bit is not empty, but has no members in the table.
fn the_highest_bit_names_no_first_member<C: Kind>() {
    let mut random = Random::new(4);
    for _ in 0..2_000 {
        let (own, mut table) = random_collection::<C>(&mut random);
        let mut words = own.own_words().into_iter();
        let broken = C::collection(|| words.next().unwrap() | HIGHEST);
        assert!(!broken.is_empty() && members(&broken, &table).is_empty());
        assert!(broken.first_by_call(&mut table).is_err());
    }
}

/// Checks that a walk through a list ends at a link whose words have the highest bit.
fn the_highest_bit_names_no_next_member<C: Kind>() {
    let mut random = Random::new(5);
    for _ in 0..2_000 {
        let (own, mut table) = random_collection::<C>(&mut random);
        let mut expected = members(&own, &table);
        expected.truncate(random.below(PLACES) + 1);
        let Some(&last) = expected.last() else { continue };
        let mut words = C::words(&table[last as usize]).into_iter();
        table[last as usize] = C::link(|| words.next().unwrap() | HIGHEST);
        assert_eq!(members(&own, &table), expected);
    }
}

/// Checks, for random words, that a list or tree is empty exactly if a call of C finds no first member.
fn empty_is_what_calls_see<C: Kind>() {
    let mut empty = 0;
    for seed in 0..20_000 {
        let mut hostile = Hostile::<C>::new(seed);
        let own = hostile.own.clone();
        let first_member = members(&own, hostile.table()).first().copied();
        let first = own.clone().first_by_call(hostile.table());
        assert_eq!(own.is_empty(), first == Ok(None));
        if let Ok(Some(first)) = first {
            assert_eq!(first_member, Some(first));
        }
        empty += u32::from(own.is_empty());
    }
    assert!(empty > 500, "only {empty} are empty");
}

#[test]
fn of_lists() {
    noise_counts_for_nothing::<List>(&[edits(), edits_both_ways(), edits_of_lists()].concat());
    the_highest_bit_names_no_first_member::<List>();
    the_highest_bit_names_no_next_member::<List>();
    empty_is_what_calls_see::<List>();
}

#[test]
fn of_xor_lists() {
    noise_counts_for_nothing::<XorList>(&[edits(), edits_both_ways(), edits_of_lists()].concat());
    the_highest_bit_names_no_first_member::<XorList>();
    the_highest_bit_names_no_next_member::<XorList>();
    empty_is_what_calls_see::<XorList>();
}

#[test]
fn of_stacks() {
    noise_counts_for_nothing::<Stack>(&[edits(), edits_of_lists(), edits_of_stacks()].concat());
    the_highest_bit_names_no_first_member::<Stack>();
    the_highest_bit_names_no_next_member::<Stack>();
    empty_is_what_calls_see::<Stack>();
}

#[test]
fn of_trees() {
    noise_counts_for_nothing::<Tree>(&[edits(), edits_both_ways()].concat());
    the_highest_bit_names_no_first_member::<Tree>();
    empty_is_what_calls_see::<Tree>();
}
