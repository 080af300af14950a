//! Tests the calls of trees with sums, and compares them with plain arrays of the members.

use ic::{Error, Link3, Sum, SumKind, Tree};

const PLACES: usize = 12;

/// A generator of random numbers by three shifts, as Marsaglia described it.
struct Random(u64);

impl Random {
    fn below(&mut self, bound: u64) -> u64 {
        self.0 ^= self.0 << 13;
        self.0 ^= self.0 >> 7;
        self.0 ^= self.0 << 17;
        (self.0 >> 16) % bound
    }

    /// Returns a random value or bound, which is small or one of the greatest three numbers.
    fn value(&mut self) -> u64 {
        match self.below(8) {
            0 => u64::MAX - self.below(3),
            _ => self.below(20),
        }
    }
}

/// A tree by keys that has some of the places, the array of its members in order, and the values and the right sums of all places.
struct Summed {
    kind: SumKind,
    keys: [u64; PLACES],
    links: [Link3; PLACES],
    tree: Tree,
    members: Vec<u32>,
    sums: [Sum; PLACES],
}

impl Summed {
    fn new(kind: SumKind, random: &mut Random) -> Summed {
        let keys = [(); PLACES].map(|()| random.below(20));
        let (mut links, mut tree) = ([Link3::UNLINKED; PLACES], Tree::new());
        for place in (0..PLACES as u32).filter(|_| random.below(3) > 0).collect::<Vec<_>>() {
            tree.insert(&mut links, &keys, place).unwrap();
        }
        let mut sums = [(); PLACES].map(|()| Sum::new(random.value()));
        Tree::sums_renew(&links, &mut sums, kind, None).unwrap();
        let members = tree.iter(&links).collect();
        Summed { kind, keys, links, tree, members, sums }
    }

    /// Returns the combined value of these members.
    fn total(&self, members: &[u32]) -> u64 {
        let values = members.iter().map(|&at| self.sums[at as usize].value);
        match self.kind {
            SumKind::Sum => values.fold(0, u64::saturating_add),
            SumKind::Greatest => values.fold(0, u64::max),
        }
    }

    /// Returns the member before a position. A search that gets this member begins at the position.
    fn before(&self, position: usize) -> Option<u32> {
        position.checked_sub(1).map(|it| self.members[it])
    }

    fn check_find(&self, position: usize, bound: u64) {
        let rest = &self.members[position..];
        let expected = (0..rest.len()).find(|&last| self.total(&rest[..=last]) > bound).map(|last| rest[last]);
        assert_eq!(self.tree.sums_find(&self.links, &self.sums, self.kind, self.before(position), bound), Ok(expected));
    }

    fn check_overlap(&self, position: usize, from: u64, to: u64) {
        let overlaps = |&&at: &&u32| self.keys[at as usize] < to && from < self.sums[at as usize].value;
        let expected = self.members[position..].iter().find(overlaps).copied();
        let at = self.before(position);
        assert_eq!(self.tree.sums_overlap(&self.links, &self.keys, &self.sums, at, from, to), Ok(expected));
    }

    /// Edits the tree by the calls that keep the sums right.
    fn edit(&mut self, place: u32) {
        if self.links[place as usize].is_linked() {
            self.tree.sums_remove(&mut self.links, &mut self.sums, self.kind, place).unwrap();
        } else {
            self.tree.sums_insert(&mut self.links, &self.keys, &mut self.sums, self.kind, place).unwrap();
        }
        self.members = self.tree.iter(&self.links).collect();
        assert!(self.members.windows(2).all(|pair| self.keys[pair[0] as usize] <= self.keys[pair[1] as usize]));
    }

    fn check(&self) {
        assert_eq!(self.tree.sums_total(&self.sums), self.total(&self.members));
        for (position, &at) in self.members.iter().enumerate() {
            let before = self.total(&self.members[..position]);
            assert_eq!(Tree::sums_before(&self.links, &self.sums, self.kind, at), Ok(before));
        }
    }
}

#[test]
fn sums_are_those_of_the_members() {
    let mut random = Random(7);
    for kind in [SumKind::Sum, SumKind::Greatest].repeat(200) {
        let mut it = Summed::new(kind, &mut random);
        it.check();
        for position in 0..=it.members.len() {
            it.check_find(position, random.value());
            if kind == SumKind::Greatest {
                it.check_overlap(position, random.value(), random.value());
            }
        }
        for place in 0..PLACES as u32 {
            it.edit(place);
            it.check();
        }
        if let Some(&at) = it.members.last() {
            it.sums[at as usize].value = random.value();
            Tree::sums_renew(&it.links, &mut it.sums, kind, Some(at)).unwrap();
            it.check();
        }
    }
}

#[test]
fn sums_refuse() {
    let keys = [1, 2, 3, 4];
    let (mut links, mut tree, mut sums) = ([Link3::UNLINKED; 4], Tree::new(), [Sum::new(1); 4]);
    assert_eq!(tree.sums_total(&sums), 0);
    for place in 0..3 {
        tree.insert(&mut links, &keys, place).unwrap();
    }
    let kind = SumKind::Sum;
    assert_eq!(Tree::sums_renew(&links, &mut sums[..3], kind, None), Err(Error::OutOfRange));
    assert_eq!(Tree::sums_renew(&links, &mut sums, kind, Some(4)), Err(Error::OutOfRange));
    assert_eq!(Tree::sums_renew(&links, &mut sums, kind, Some(3)), Err(Error::NotLinked));
    assert_eq!(sums, [Sum::new(1); 4]);
    Tree::sums_renew(&links, &mut sums, kind, None).unwrap();
    assert_eq!((tree.sums_total(&sums), tree.sums_total(&[])), (3, 0));
    assert_eq!(tree.sums_find(&links, &sums, kind, None, 3), Ok(None));
    assert_eq!(tree.sums_find(&links, &sums[..3], kind, None, 0), Err(Error::OutOfRange));
    assert_eq!(Tree::sums_before(&links, &sums, kind, u32::MAX), Err(Error::Null));
    assert_eq!(Tree::sums_before(&links, &sums, kind, 3), Err(Error::NotLinked));
    assert_eq!(tree.sums_overlap(&links, &keys[..3], &sums, None, 0, 9), Err(Error::OutOfRange));
    assert_eq!(tree.sums_overlap(&links, &keys, &sums, Some(3), 0, 9), Err(Error::NotLinked));
}
