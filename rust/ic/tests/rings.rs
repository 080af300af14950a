//! Makes random calls of two rings of one table, and compares the rings with two plain lists.

use ic::{ring, Error, Link2};

const PLACES: u32 = 12;
/// The heads of both rings, which no call of the test names as an object.
const HEADS: [u32; 2] = [PLACES, PLACES + 1];

/// A generator of random numbers by three shifts, as Marsaglia described it.
struct Random(u64);

impl Random {
    fn below(&mut self, bound: u32) -> u32 {
        self.0 ^= self.0 << 13;
        self.0 ^= self.0 >> 7;
        self.0 ^= self.0 << 17;
        (self.0 >> 32) as u32 % bound
    }
}

struct Pair {
    links: Vec<Link2>,
    plain: [Vec<u32>; 2],
}

/// The side on which a call edits: after the place that the call names, or before this place.
#[derive(Clone, Copy, PartialEq)]
enum Side {
    Before,
    After,
}

impl Pair {
    fn new() -> Pair {
        let mut links = vec![Link2::UNLINKED; PLACES as usize + 2];
        for head in HEADS {
            ring::init(&mut links, head).unwrap();
        }
        Pair { links, plain: Default::default() }
    }

    /// Returns the ring of a place, and the index of the gap on this side of the place. If the place is a head, the gap is before all members
    /// or after all members.
    fn find(&self, place: u32, side: Side) -> Option<(usize, usize)> {
        (0..2).find_map(|ring| {
            let members = &self.plain[ring];
            let gap = if side == Side::After { 0 } else { members.len() };
            if place == HEADS[ring] {
                return Some((ring, gap));
            }
            let index = members.iter().position(|&it| it == place)?;
            Some((ring, index + usize::from(side == Side::After)))
        })
    }

    fn is_member(&self, place: u32) -> bool {
        self.plain.iter().any(|members| members.contains(&place))
    }

    fn plain_remove(&mut self, place: u32) {
        self.plain.iter_mut().for_each(|members| members.retain(|&it| it != place));
    }

    fn plain_insert(&mut self, at: u32, place: u32, side: Side) {
        let (ring, index) = self.find(at, side).unwrap();
        self.plain[ring].insert(index, place);
    }

    /// Returns the error with which a call refuses a place to insert, or `None` if the call accepts it.
    fn refusal_of_new(&self, place: u32) -> Option<Error> {
        if place >= PLACES + 2 {
            return Some(Error::OutOfRange);
        }
        self.find(place, Side::After).map(|_| Error::Linked)
    }

    /// Returns the error with which a call refuses a place as a place of a ring, or `None` if the call accepts it.
    fn refusal_of_old(&self, place: u32) -> Option<Error> {
        match place {
            u32::MAX => Some(Error::Null),
            place if place >= PLACES + 2 => Some(Error::OutOfRange),
            place => self.find(place, Side::After).map_or(Some(Error::NotLinked), |_| None),
        }
    }

    fn insert(&mut self, at: u32, place: u32, side: Side) {
        let call = if side == Side::After { ring::insert_after } else { ring::insert_before };
        let refusal = self.refusal_of_old(at).or(self.refusal_of_new(place));
        assert_eq!(call(&mut self.links, at, place), refusal.map_or(Ok(()), Err));
        if refusal.is_none() {
            self.plain_insert(at, place, side);
        }
    }

    fn push(&mut self, ring: usize, place: u32, side: Side) {
        let call = if side == Side::After { ring::push_front } else { ring::push_back };
        let refusal = self.refusal_of_new(place);
        assert_eq!(call(&mut self.links, HEADS[ring], place), refusal.map_or(Ok(()), Err));
        if refusal.is_none() {
            self.plain_insert(HEADS[ring], place, side);
        }
    }

    fn pop(&mut self, ring: usize, side: Side) {
        let (popped, wanted) = if side == Side::After {
            (ring::pop_front(&mut self.links, HEADS[ring]), self.plain[ring].first().copied())
        } else {
            (ring::pop_back(&mut self.links, HEADS[ring]), self.plain[ring].last().copied())
        };
        assert_eq!(popped, Ok(wanted));
        wanted.into_iter().for_each(|place| self.plain_remove(place));
    }

    fn remove(&mut self, place: u32) {
        let refusal = self.refusal_of_old(place);
        assert_eq!(ring::remove(&mut self.links, place), refusal.map_or(Ok(()), Err));
        self.plain_remove(place);
    }

    fn replace(&mut self, at: u32, place: u32) {
        let refusal = self.refusal_of_old(at).or(self.refusal_of_new(place));
        assert_eq!(ring::replace(&mut self.links, at, place), refusal.map_or(Ok(()), Err));
        if refusal.is_none() {
            self.plain_insert(at, place, Side::Before);
            self.plain_remove(at);
        }
    }

    fn move_to(&mut self, at: u32, place: u32, side: Side) {
        let call = if side == Side::After { ring::move_after } else { ring::move_before };
        let refusal = self.refusal_of_old(at).or(self.refusal_of_old(place));
        assert_eq!(call(&mut self.links, at, place), refusal.map_or(Ok(()), Err));
        if refusal.is_none() && at != place {
            self.plain_remove(place);
            self.plain_insert(at, place, side);
        }
    }

    /// Moves the members of the second ring after or before a place of the first ring.
    fn splice(&mut self, random: &mut Random, side: Side) {
        let call = if side == Side::After { ring::splice_after } else { ring::splice_before };
        let index = random.below(self.plain[0].len() as u32 + 1) as usize;
        let at = self.plain[0].get(index).copied().unwrap_or(HEADS[0]);
        call(&mut self.links, at, HEADS[1]).unwrap();
        let (_, gap) = self.find(at, side).unwrap();
        let moved = std::mem::take(&mut self.plain[1]);
        self.plain[0].splice(gap..gap, moved);
    }

    /// Makes the same exchange twice, so that the second call undoes the first.
    fn exchange_twice(&mut self, one: u32, other: u32) {
        let refusal = self.refusal_of_old(one).or(self.refusal_of_old(other));
        let none = [one, other].contains(&u32::MAX).then_some(Error::Null);
        for _ in 0..2 {
            assert_eq!(ring::exchange(&mut self.links, one, other), none.or(refusal).map_or(Ok(()), Err));
        }
    }

    fn sort(&mut self, ring: usize, random: &mut Random) {
        let keys: Vec<_> = (0..PLACES + 2).map(|_| u64::from(random.below(5))).collect();
        ring::sort(&mut self.links, &keys, HEADS[ring]).unwrap();
        self.plain[ring].sort_by_key(|&place| keys[place as usize]);
        if random.below(8) == 0 {
            // Of members with equal keys, those of the first ring come first. A stable sort of the members of both rings, those of the first
            // ring first, gives the same order.
            ring::sort(&mut self.links, &keys, HEADS[1 - ring]).unwrap();
            assert_eq!(ring::merge(&mut self.links, &keys, HEADS[ring], HEADS[ring]), Err(Error::Broken));
            ring::merge(&mut self.links, &keys, HEADS[ring], HEADS[1 - ring]).unwrap();
            let mut given = std::mem::take(&mut self.plain[1 - ring]);
            given.sort_by_key(|&place| keys[place as usize]);
            self.plain[ring].append(&mut given);
            self.plain[ring].sort_by_key(|&place| keys[place as usize]);
        }
    }

    fn check(&self) {
        for (head, members) in HEADS.into_iter().zip(&self.plain) {
            assert!(ring::iter(&self.links, head).eq(members.iter().copied()));
            assert_eq!(ring::is_empty(&self.links, head), members.is_empty());
            assert_eq!(ring::check(&self.links, head), Ok(members.len() as u64));
            let circle: Vec<_> = [head].into_iter().chain(members.iter().copied()).chain([head]).collect();
            for beside in circle.windows(2) {
                assert_eq!(ring::next(&self.links, beside[0]), Some(beside[1]));
                assert_eq!(ring::prev(&self.links, beside[1]), Some(beside[0]));
            }
        }
    }
}

#[test]
fn rings_are_as_lists() {
    let (mut pair, mut random) = (Pair::new(), Random(11));
    for _ in 0..60_000 {
        let any = |random: &mut Random| if random.below(30) == 0 { u32::MAX } else { random.below(PLACES + 3) };
        let (at, place, object, ring) =
            (any(&mut random), any(&mut random), random.below(PLACES), random.below(2) as usize);
        let side = if random.below(2) == 0 { Side::After } else { Side::Before };
        match random.below(11) {
            0 => pair.insert(at, object, side),
            1 => pair.insert(at, place.min(PLACES + 2), side),
            2 => pair.push(ring, object, side),
            3 => pair.pop(ring, side),
            4 | 5 => pair.remove(object),
            6 if pair.is_member(object) => pair.replace(object, place.min(PLACES + 2)),
            7 => pair.move_to(at, object, side),
            8 => pair.splice(&mut random, side),
            9 => pair.sort(ring, &mut random),
            _ => pair.exchange_twice(at, place),
        }
        pair.check();
    }
}

#[test]
fn broken_rings_are_refused() {
    // The head 0 leads to a place that the table does not have, and the place 1 leads to a place that does not lead back.
    let mut links = [[81, 8], [25, 8], [1, 0], [33, 32]].map(Link2::from_words);
    let before = links;
    assert_eq!(ring::pop_front(&mut links, 0), Err(Error::Broken));
    assert_eq!(ring::pop_front(&mut links, 9), Err(Error::OutOfRange));
    assert_eq!(ring::replace(&mut links, 1, 0), Err(Error::Linked));
    assert_eq!(ring::move_after(&mut links, 3, 1), Err(Error::Broken));
    assert_eq!(ring::splice_before(&mut links, 2, 3), Err(Error::Broken));
    assert_eq!(ring::splice_after(&mut links, 3, 2), Err(Error::Broken));
    let heads = [u32::MAX, 9, 0, 1].map(|head| ring::check(&links, head).unwrap_err());
    assert_eq!(heads, [Error::Null, Error::OutOfRange, Error::Broken, Error::Broken]);
    assert_eq!(ring::sort(&mut links, &[0; 4], 0), Err(Error::Broken));
    assert_eq!(ring::sort(&mut links, &[0; 3], 0), Err(Error::OutOfRange));
    assert_eq!(ring::merge(&mut links, &[0; 4], 0, 1), Err(Error::Broken));
    assert_eq!(ring::merge(&mut links, &[0; 4], 0, u32::MAX), Err(Error::Null));
    assert_eq!((ring::is_empty(&links, 0), ring::iter(&links, 0).count()), (false, 0));
    assert!(links == before);
}
