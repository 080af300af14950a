//! Tests trees by keys, and compares them with a `BTreeMap`.

use ic::{Entry, Error, Link3, Tree};
use std::collections::BTreeMap;
use std::ops::Bound;

const PLACES: u32 = 64;

/// A generator of random numbers by three shifts, as Marsaglia described it.
struct Random(u64);

impl Random {
    fn below(&mut self, bound: u32) -> u32 {
        self.0 ^= self.0 << 13;
        self.0 ^= self.0 >> 7;
        self.0 ^= self.0 << 17;
        (self.0 >> 32) as u32 % bound
    }
}

/// A tree, and a map of its places by their keys and by the time of their insertion.
struct Pair {
    links: Vec<Link3>,
    keys: Vec<u64>,
    tree: Tree,
    plain: BTreeMap<(u64, u64), u32>,
    clock: u64,
}

impl Pair {
    fn entry(&self, place: u32) -> Option<(u64, u64)> {
        self.plain.iter().find(|(_, &it)| it == place).map(|(&entry, _)| entry)
    }

    fn insert(&mut self, place: u32, key: u64) {
        if self.entry(place).is_none() {
            self.keys[place as usize] = key;
            self.tree.insert(&mut self.links, &self.keys, place).unwrap();
            self.clock += 1;
            self.plain.insert((key, self.clock), place);
        }
    }

    /// Makes the insertion that `insert` makes, but by a comparison of keys.
    fn insert_by(&mut self, place: u32, key: u64) {
        if self.entry(place).is_some() {
            let inserted = self.tree.insert_by(&mut self.links, place, |one, other| one.cmp(&other));
            return assert_eq!(inserted, Err(Error::Linked));
        }
        self.keys[place as usize] = key;
        let keys = &self.keys;
        self.tree
            .insert_by(&mut self.links, place, |one, other| keys[one as usize].cmp(&keys[other as usize]))
            .unwrap();
        self.clock += 1;
        self.plain.insert((key, self.clock), place);
    }

    /// Inserts a place by `Tree::entry`, if no member has its key.
    fn insert_at_entry(&mut self, place: u32, key: u64) {
        let is_free = self.entry(place).is_none();
        let equal = self.plain.range((key, 0)..=(key, u64::MAX)).next().map(|(_, &place)| place);
        if is_free {
            self.keys[place as usize] = key;
        }
        match self.tree.entry(&mut self.links, &self.keys, key).unwrap() {
            Entry::Occupied(cursor) => assert_eq!(cursor.get(), equal),
            Entry::Vacant(gap) => {
                let inserted = gap.insert(place).map(|cursor| cursor.get());
                assert_eq!((inserted, equal), (if is_free { Ok(Some(place)) } else { Err(Error::Linked) }, None));
                self.clock += 1;
                is_free.then(|| self.plain.insert((key, self.clock), place));
            }
        }
    }

    /// Compares the members in a range of keys with those of the map, from both ends.
    fn check_range(&self, first: Bound<u64>, last: Bound<u64>) {
        let is_in = |key: u64| {
            (match first {
                Bound::Included(first) => key >= first,
                Bound::Excluded(first) => key > first,
                Bound::Unbounded => true,
            }) && match last {
                Bound::Included(last) => key <= last,
                Bound::Excluded(last) => key < last,
                Bound::Unbounded => true,
            }
        };
        let wanted: Vec<_> = self.plain.iter().filter(|((key, _), _)| is_in(*key)).map(|(_, &place)| place).collect();
        let range = self.tree.range(&self.links, &self.keys, (first, last)).unwrap();
        assert!(range.clone().eq(wanted.iter().copied()) && range.rev().eq(wanted.iter().rev().copied()));
    }

    /// Removes members at a cursor, which moves to the next member after each removal.
    fn remove_some(&mut self, place: u32, count: u32) {
        let Some(entry) = self.entry(place) else { return };
        let gone: Vec<_> = self.plain.range(entry..).take(count as usize).map(|(&entry, _)| entry).collect();
        let mut cursor = self.tree.cursor_mut_from_place(&mut self.links, place).unwrap();
        for entry in gone {
            assert_eq!(cursor.remove().unwrap(), self.plain.remove(&entry));
            assert_eq!(cursor.get(), self.plain.range(entry..).next().map(|(_, &place)| place));
        }
    }

    fn replace(&mut self, place: u32, other: u32) {
        if let (Some(entry), None) = (self.entry(place), self.entry(other)) {
            self.keys[other as usize] = entry.0;
            let mut cursor = self.tree.cursor_mut_from_place(&mut self.links, place).unwrap();
            assert_eq!(cursor.replace_with(other), Ok(place));
            self.plain.insert(entry, other);
        }
    }

    fn retain(&mut self, least: u64) {
        let keys = &self.keys;
        self.tree.retain(&mut self.links, |place| keys[place as usize] >= least).unwrap();
        self.plain.retain(|&(key, _), _| key >= least);
    }

    fn check(&self, key: u64) {
        let (tree, links, keys) = (&self.tree, &self.links, &self.keys);
        assert!(tree.view(links).into_iter().eq(self.plain.values().copied()));
        assert!(tree.iter(links).rev().eq(self.plain.values().rev().copied()));
        let at_least = self.plain.range((key, 0)..).next().map(|(entry, &place)| (entry.0, place));
        let at_most = self.plain.range(..=(key, u64::MAX)).next_back().map(|(_, &place)| place);
        let equal = at_least.filter(|&(found, _)| found == key);
        assert_eq!(tree.lower_bound(links, keys, key), Ok(at_least.map(|(_, place)| place)));
        assert_eq!(tree.upper_bound(links, keys, key), Ok(at_most));
        assert_eq!(tree.find(links, keys, key), Ok(equal.map(|(_, place)| place)));
        assert_eq!(tree.find_by(links, |member| keys[member as usize].cmp(&key)), equal.map(|(_, place)| place));
    }
}

#[test]
fn a_tree_is_as_a_map() {
    let (links, keys) = (vec![Link3::UNLINKED; PLACES as usize], vec![0; PLACES as usize]);
    let mut pair = Pair { links, keys, tree: Tree::new(), plain: BTreeMap::new(), clock: 0 };
    let mut random = Random(7);
    for _ in 0..20_000 {
        let (place, key) = (random.below(PLACES), u64::from(random.below(40)));
        match random.below(16) {
            0..=5 => pair.insert(place, key),
            6..=7 => pair.insert_by(place, key),
            8..=9 => pair.insert_at_entry(place, key),
            10..=12 => pair.remove_some(place, random.below(4)),
            13..=14 => pair.replace(place, random.below(PLACES)),
            _ => pair.retain(key / 4),
        }
        pair.check(u64::from(random.below(42)));
        let bounds = [(); 2].map(|()| {
            let key = u64::from(random.below(42));
            [Bound::Included(key), Bound::Excluded(key), Bound::Unbounded][random.below(3) as usize]
        });
        pair.check_range(bounds[0], bounds[1]);
    }
}

#[test]
fn ranges_and_entries_of_few_keys_are_refused() {
    let (mut links, mut tree, keys) = ([Link3::UNLINKED; 4], Tree::new(), [10, 20, 30]);
    tree.insert_by(&mut links, 3, |_, _| unreachable!()).unwrap();
    assert!(matches!(tree.range(&links, &keys, ..), Err(Error::OutOfRange)));
    assert!(matches!(tree.entry(&mut links, &keys, 10), Err(Error::OutOfRange)));
    assert_eq!(tree.insert_by(&mut links, 4, |_, _| unreachable!()), Err(Error::OutOfRange));
    let keys = [10, 20, 30, u64::MAX];
    assert!(tree.range(&links, &keys, u64::MAX..).unwrap().eq([3]));
    assert_eq!(tree.range(&links, &keys, (Bound::Excluded(u64::MAX), Bound::Unbounded)).unwrap().count(), 0);
    assert_eq!(tree.range(&links, &keys, ..0).unwrap().count(), 0);
    assert_eq!(tree.entry(&mut links, &keys, 20).unwrap().or_insert_with(|| 1).unwrap().get(), Some(1));
    assert!(tree.iter(&links).eq([1, 3]));
    // With the wrong table, the descent ends at a place that is not linked.
    let mut others = [Link3::UNLINKED; 4];
    assert_eq!(tree.insert_by(&mut others, 0, |_, _| unreachable!()), Err(Error::Broken));
}
