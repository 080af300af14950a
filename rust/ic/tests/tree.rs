//! Tests the calls of trees, on a table of eight places.

use ic::{Error, Link3, Tree, TreeEnds};

const KEYS: [u64; 8] = [50, 20, 70, 20, 90, 10, 60, 20];

/// Returns a tree that has these places in the order of their keys.
fn by_keys(links: &mut [Link3], places: impl IntoIterator<Item = u32>) -> Tree {
    let mut tree = Tree::new();
    for place in places {
        tree.insert(links, &KEYS, place).unwrap();
    }
    tree
}

#[test]
fn tree_edits() {
    let mut links = [Link3::UNLINKED; 8];
    let mut tree = Tree::new();
    assert!(tree.is_empty() && tree.root().is_none());
    tree.insert_left(&mut links, None, 3).unwrap();
    tree.insert_left(&mut links, Some(3), 1).unwrap();
    tree.insert_right(&mut links, Some(3), 5).unwrap();
    assert_eq!(tree.root(), Some(3));
    assert_eq!((links[3].left(), links[3].right(), links[3].parent()), (Some(1), Some(5), None));
    assert_eq!((links[1].left(), links[1].right(), links[1].parent()), (None, None, Some(3)));
    tree.insert_right(&mut links, Some(1), 2).unwrap();
    tree.insert_left(&mut links, Some(5), 4).unwrap();
    assert!(tree.iter(&links).eq([1, 2, 3, 4, 5]));
    tree.replace(&mut links, 3, 7).unwrap();
    tree.remove(&mut links, 1).unwrap();
    assert!(tree.iter(&links).eq([2, 7, 4, 5]));
    assert!(links[7].is_linked() && !links[3].is_linked() && !links[1].is_linked());
    let taken = tree.take();
    assert!(tree.is_empty() && taken.iter(&links).eq([2, 7, 4, 5]));
}

#[test]
fn trees_are_joined_and_split() {
    let mut links = [Link3::UNLINKED; 8];
    let (mut tree, mut given) = (by_keys(&mut links, [5, 1, 3]), by_keys(&mut links, [6, 2]));
    tree.join(&mut links, 0, &mut given).unwrap();
    assert!(given.is_empty() && tree.iter(&links).eq([5, 1, 3, 0, 6, 2]));
    let mut rest = tree.split(&mut links, 3).unwrap();
    assert!(tree.iter(&links).eq([5, 1]) && rest.iter(&links).eq([3, 0, 6, 2]));
    assert_eq!(tree.split(&mut links, 3).err(), Some(Error::Broken));
    tree.append(&mut links, &mut rest).unwrap();
    assert!(rest.is_empty() && tree.iter(&links).eq([5, 1, 3, 0, 6, 2]));
    assert_eq!(tree.join(&mut links, 3, &mut rest), Err(Error::Linked));
    assert_eq!(tree.split(&mut links, 4).err(), Some(Error::NotLinked));
    assert_eq!(tree.split(&mut links, 8).err(), Some(Error::OutOfRange));
    assert_eq!(tree.split(&mut links, u32::MAX).err(), Some(Error::Null));
    assert_eq!(tree.check(&links), Some(6));
}

#[test]
fn trees_keep_their_ends() {
    let (mut links, mut tree, mut ends) = ([Link3::UNLINKED; 8], Tree::new(), TreeEnds::new());
    assert_eq!(
        (ends.first(&links), ends.last(&links), tree.ends_pop_first(&mut links, &mut ends)),
        (None, None, Ok(None))
    );
    for place in 0..6 {
        tree.ends_insert(&mut links, &KEYS, &mut ends, place).unwrap();
    }
    assert!(tree.iter(&links).eq([5, 1, 3, 0, 2, 4]));
    assert_eq!((ends.first(&links), ends.last(&links)), (Some(5), Some(4)));
    tree.ends_insert_left(&mut links, &mut ends, Some(5), 7).unwrap();
    tree.ends_insert_right(&mut links, &mut ends, Some(4), 6).unwrap();
    assert_eq!((ends.first(&links), ends.last(&links)), (Some(7), Some(6)));
    tree.ends_remove(&mut links, &mut ends, 6).unwrap();
    tree.ends_replace(&mut links, &mut ends, 4, 6).unwrap();
    assert_eq!((tree.ends_pop_first(&mut links, &mut ends), ends.last(&links)), (Ok(Some(7)), Some(6)));
    let (words, before) = (ends.words(), ends.clone());
    assert_eq!(tree.ends_insert_left(&mut links, &mut ends, None, 7), Err(Error::Broken));
    assert_eq!(tree.ends_insert(&mut links, &KEYS[..7], &mut ends, 7), Err(Error::OutOfRange));
    assert_eq!(tree.ends_replace(&mut links, &mut ends, 5, 5), Err(Error::Linked));
    assert_eq!(tree.ends_remove(&mut links, &mut ends, 7), Err(Error::NotLinked));
    assert_eq!(tree.ends_remove(&mut links, &mut ends, u32::MAX), Err(Error::Null));
    assert_eq!(tree.ends_pop_first(&mut links[..1], &mut ends), Err(Error::Broken));
    assert!(ends == before && TreeEnds::from_words(words) == before && tree.check(&links) == Some(6));
    assert!((0..6).all(|_| tree.ends_pop_first(&mut links, &mut ends).is_ok()) && ends == TreeEnds::new());
}

#[test]
fn tree_by_keys() {
    let mut links = [Link3::UNLINKED; 8];
    let tree = by_keys(&mut links, 0..8);
    assert!(tree.iter(&links).eq([5, 1, 3, 7, 0, 6, 2, 4]));
    assert_eq!(tree.find(&links, &KEYS, 20), Ok(Some(1)));
    assert_eq!(tree.find(&links, &KEYS, 21), Ok(None));
    assert_eq!(tree.lower_bound(&links, &KEYS, 20), Ok(Some(1)));
    assert_eq!(tree.lower_bound(&links, &KEYS, 21), Ok(Some(0)));
    assert_eq!(tree.lower_bound(&links, &KEYS, 91), Ok(None));
    assert_eq!(tree.upper_bound(&links, &KEYS, 20), Ok(Some(7)));
    assert_eq!(tree.upper_bound(&links, &KEYS, 19), Ok(Some(5)));
    assert_eq!(tree.upper_bound(&links, &KEYS, 9), Ok(None));
    assert_eq!(tree.upper_bound(&links, &KEYS, u64::MAX), Ok(Some(4)));
}

#[test]
fn tree_steps() {
    let mut links = [Link3::UNLINKED; 8];
    let tree = by_keys(&mut links, [0, 1, 2, 3]);
    assert_eq!((tree.first(&links), tree.last(&links)), (Ok(Some(1)), Ok(Some(2))));
    for pair in [1, 3, 0, 2].windows(2) {
        assert_eq!(
            (tree.next(&links, Some(pair[0])), tree.prev(&links, Some(pair[1]))),
            (Ok(Some(pair[1])), Ok(Some(pair[0])))
        );
    }
    assert_eq!((tree.prev(&links, Some(1)), tree.next(&links, Some(2))), (Ok(None), Ok(None)));
    assert_eq!(tree.next(&links, Some(4)), Err(Error::NotLinked));
    assert_eq!(tree.prev(&links, Some(8)), Err(Error::OutOfRange));
    assert_eq!(Tree::new().first(&links), Ok(None));
    assert_eq!(Tree::new().last(&[]), Ok(None));
}

#[test]
fn tree_refuses() {
    let mut links = [Link3::UNLINKED; 8];
    let mut tree = by_keys(&mut links, [0, 1, 2]);
    assert_eq!(tree.insert(&mut links, &KEYS, 1), Err(Error::Linked));
    assert_eq!(tree.insert(&mut links, &KEYS, 8), Err(Error::OutOfRange));
    assert_eq!(tree.insert(&mut links, &KEYS[..7], 3), Err(Error::OutOfRange));
    assert_eq!(tree.find(&links, &KEYS[..7], 20), Err(Error::OutOfRange));
    assert_eq!(tree.lower_bound(&links, &[], 20), Err(Error::OutOfRange));
    assert_eq!(tree.upper_bound(&links, &KEYS[..7], 20), Err(Error::OutOfRange));
    assert_eq!(tree.insert_left(&mut links, Some(0), 3), Err(Error::Broken));
    assert_eq!(tree.insert_left(&mut links, None, 3), Err(Error::Broken));
    assert_eq!(tree.insert_left(&mut links, Some(4), 3), Err(Error::NotLinked));
    assert_eq!(tree.insert_right(&mut links, Some(8), 3), Err(Error::OutOfRange));
    assert_eq!(tree.insert_right(&mut links, Some(2), 0), Err(Error::Linked));
    assert_eq!(tree.replace(&mut links, 0, 0), Err(Error::Linked));
    assert_eq!(tree.remove(&mut links, u32::MAX), Err(Error::Null));
    assert_eq!(tree.remove(&mut links, 3), Err(Error::NotLinked));
    assert!(tree.iter(&links).eq([1, 0, 2]));
}

#[test]
fn tree_is_checked() {
    let mut links = [Link3::UNLINKED; 8];
    let tree = by_keys(&mut links, 0..8);
    assert_eq!((tree.check(&links), Tree::new().check(&links)), (Some(8), Some(0)));
    assert_eq!(tree.check(&links[..7]), None);
    links[0] = Link3::UNLINKED;
    assert_eq!(tree.check(&links), None);
}

#[test]
fn tree_is_cleared() {
    let mut links = [Link3::UNLINKED; 8];
    let (mut tree, mut other) = (by_keys(&mut links, [0, 1, 2, 3]), by_keys(&mut links, [4, 5]));
    let root = tree.root().unwrap() as usize;
    assert_eq!(tree.clear(&mut links[..root]), Err(Error::Broken));
    assert!(tree.iter(&links).eq([1, 3, 0, 2]));
    tree.clear(&mut links).unwrap();
    assert!(tree.is_empty() && links[..4].iter().all(|link| !link.is_linked()));
    assert!(other.iter(&links).eq([5, 4]));
    other.insert(&mut links, &KEYS, 0).unwrap();
    assert!(other.iter(&links).eq([5, 0, 4]));
}

#[test]
fn tree_iterators_meet_in_the_middle() {
    let mut links = [Link3::UNLINKED; 8];
    let tree = by_keys(&mut links, [5, 1, 0, 6, 2]);
    let mut iter = tree.iter(&links);
    assert_eq!((iter.next(), iter.next()), (Some(5), Some(1)));
    assert_eq!((iter.next_back(), iter.next_back(), iter.next_back()), (Some(2), Some(6), Some(0)));
    assert_eq!((iter.next_back(), iter.next()), (None, None));
    assert!(tree.iter(&links).rev().eq([2, 6, 0, 1, 5]));
}

#[test]
fn tree_iterators_end_on_the_table_of_others() {
    let mut links = [Link3::UNLINKED; 8];
    let mut others = [Link3::UNLINKED; 8];
    let tree = by_keys(&mut links, 0..8);
    let other = by_keys(&mut others, (0..8).rev());
    assert!(tree.iter(&others).count() <= 8 && other.iter(&links).rev().count() <= 8);
    assert!(tree.iter(&links[..3]).count() <= 3);
    assert!(tree.iter(&[]).next().is_none());
}
