//! Tests the calls of each type of list, on a table of eight places.

use ic::{ring, Error, Link1, Link2, List, Stack, XorList};

#[test]
fn list_edits() {
    let mut links = [Link2::UNLINKED; 8];
    let mut list = List::new();
    assert!(list.is_empty() && list.first().is_none() && list.last().is_none());
    list.push_back(&mut links, 3).unwrap();
    list.push_front(&mut links, 1).unwrap();
    list.insert_after(&mut links, Some(1), 2).unwrap();
    list.insert_before(&mut links, Some(1), 0).unwrap();
    list.insert_before(&mut links, None, 4).unwrap();
    list.insert_after(&mut links, None, 7).unwrap();
    assert!(list.iter(&links).eq([7, 0, 1, 2, 3, 4]));
    assert!(list.iter(&links).rev().eq([4, 3, 2, 1, 0, 7]));
    list.replace(&mut links, 1, 6).unwrap();
    list.remove(&mut links, 7).unwrap();
    assert_eq!(list.pop_back(&mut links), Ok(Some(4)));
    assert_eq!(list.pop_front(&mut links), Ok(Some(0)));
    assert!(list.iter(&links).eq([6, 2, 3]));
    assert_eq!((list.first(), list.last()), (Some(6), Some(3)));
    assert_eq!((links[2].prev(), links[2].next()), (Some(6), Some(3)));
    assert!(links[2].is_linked() && !links[1].is_linked());
}

#[test]
fn list_moves() {
    let mut links = [Link2::UNLINKED; 8];
    let mut list = List::new();
    for place in 0..5 {
        list.push_back(&mut links, place).unwrap();
    }
    let mut back = list.split_after(&mut links, Some(2)).unwrap();
    let mut front = list.split_before(&mut links, Some(1)).unwrap();
    assert!(list.iter(&links).eq([1, 2]) && front.iter(&links).eq([0]) && back.iter(&links).eq([3, 4]));
    list.splice_after(&mut links, Some(1), &mut back).unwrap();
    list.splice_before(&mut links, None, &mut front).unwrap();
    assert!(list.iter(&links).eq([1, 3, 4, 2, 0]) && back.is_empty() && front.is_empty());
    let mut all = list.split_after(&mut links, None).unwrap();
    assert!(list.is_empty());
    list.splice_after(&mut links, None, &mut all).unwrap();
    let taken = list.take();
    assert!(list.is_empty() && taken.iter(&links).eq([1, 3, 4, 2, 0]));
}

#[test]
fn list_moves_members() {
    let mut links = [Link2::UNLINKED; 8];
    let (mut list, mut other) = (List::new(), List::new());
    for place in 0..5 {
        list.push_back(&mut links, place).unwrap();
    }
    other.push_back(&mut links, 5).unwrap();
    list.move_to_front(&mut links, 3).unwrap();
    list.move_to_back(&mut links, 1).unwrap();
    assert!(list.iter(&links).eq([3, 0, 2, 4, 1]));
    list.move_after(&mut links, Some(4), 3).unwrap();
    list.move_before(&mut links, Some(2), 1).unwrap();
    assert!(list.iter(&links).eq([0, 1, 2, 4, 3]) && list.iter(&links).rev().eq([3, 4, 2, 1, 0]));
    let told = |links: &[Link2; 8]| links.each_ref().map(|link| (link.is_linked(), link.prev(), link.next()));
    let was = told(&links);
    list.move_after(&mut links, Some(2), 2).unwrap();
    list.move_before(&mut links, Some(4), 2).unwrap();
    list.move_after(&mut links, None, 0).unwrap();
    list.move_before(&mut links, None, 3).unwrap();
    assert_eq!(list.move_after(&mut links, Some(6), 0), Err(Error::NotLinked));
    assert_eq!(list.move_before(&mut links, Some(0), 8), Err(Error::OutOfRange));
    assert_eq!(list.move_to_front(&mut links, u32::MAX), Err(Error::Null));
    assert_eq!(list.move_to_back(&mut links, 5), Err(Error::Broken));
    assert!(told(&links) == was && (list.first(), list.last()) == (Some(0), Some(3)));
    assert!(other.iter(&links).eq([5]));
}

#[test]
fn list_transfers_members() {
    let mut links = [Link2::UNLINKED; 8];
    let (mut list, mut other) = (List::new(), List::new());
    list.fill(&mut links, 0, 2).unwrap();
    other.fill(&mut links, 2, 4).unwrap();
    list.transfer_after(&mut links, Some(0), &mut other, 3).unwrap();
    list.transfer_before(&mut links, Some(0), &mut other, 5).unwrap();
    list.transfer_after(&mut links, None, &mut other, 2).unwrap();
    assert!(list.iter(&links).eq([2, 5, 0, 3, 1]) && other.iter(&links).eq([4]));
    let mut same = list.clone();
    assert_eq!(list.transfer_after(&mut links, None, &mut other, u32::MAX), Err(Error::Null));
    assert_eq!(list.transfer_after(&mut links, Some(8), &mut other, 4), Err(Error::OutOfRange));
    assert_eq!(list.transfer_before(&mut links, Some(0), &mut other, 6), Err(Error::NotLinked));
    assert_eq!(list.transfer_before(&mut links, Some(4), &mut other, 4), Err(Error::Broken));
    assert_eq!(list.transfer_before(&mut links, Some(0), &mut other, 2), Err(Error::Broken));
    assert_eq!(list.transfer_after(&mut links, None, &mut same, 3), Err(Error::Broken));
    list.transfer_before(&mut links, None, &mut other, 4).unwrap();
    assert!(list.iter(&links).rev().eq([4, 1, 3, 0, 5, 2]) && other.is_empty());
}

#[test]
fn lists_are_filled() {
    let mut links = [Link2::UNLINKED; 8];
    let mut list = List::new();
    list.fill(&mut links, 4, 3).unwrap();
    list.fill(&mut links, 0, 2).unwrap();
    assert!(list.iter(&links).eq([4, 5, 6, 0, 1]));
    assert_eq!(list.fill(&mut links, 2, 3), Err(Error::Linked));
    assert_eq!(list.fill(&mut links, 7, 2), Err(Error::OutOfRange));
    assert_eq!(list.fill(&mut links, u32::MAX, 1), Err(Error::OutOfRange));
    assert_eq!(list.fill(&mut links[..1], 0, 0), Ok(()));
    assert!(list.iter(&links).eq([4, 5, 6, 0, 1]) && !links[2].is_linked() && !links[7].is_linked());

    let mut links = [Link1::UNLINKED; 8];
    let (mut one, mut stack) = (XorList::new(), Stack::new());
    one.fill(&mut links, 2, 2).unwrap();
    one.fill(&mut links, 0, 2).unwrap();
    assert!(one.iter(&links).eq([2, 3, 0, 1]));
    stack.fill(&mut links, 6, 2).unwrap();
    stack.fill(&mut links, 4, 2).unwrap();
    assert!(stack.iter(&links).eq([4, 5, 6, 7]));
    assert_eq!(one.fill(&mut links, 0, 8), Err(Error::Linked));
    assert_eq!(stack.fill(&mut links, 8, 1), Err(Error::OutOfRange));
}

#[test]
fn lists_are_appended_and_cleared() {
    let mut links = [Link2::UNLINKED; 8];
    let (mut list, mut other) = (List::new(), List::new());
    list.append(&mut links, &mut other).unwrap();
    for place in 0..4 {
        if place % 2 == 0 { &mut list } else { &mut other }.push_back(&mut links, place).unwrap();
    }
    list.append(&mut links, &mut other).unwrap();
    assert!(list.iter(&links).eq([0, 2, 1, 3]) && other.is_empty());
    assert_eq!(list.clear(&mut links[..3]), Err(Error::Broken));
    assert!(list.iter(&links).eq([0, 2, 1, 3]));
    list.clear(&mut links).unwrap();
    assert!(list.is_empty() && links.iter().all(|link| !link.is_linked()));

    let mut links = [Link1::UNLINKED; 8];
    let (mut one, mut two, mut stack) = (XorList::new(), XorList::new(), Stack::new());
    for place in 0..4 {
        if place % 2 == 0 { &mut one } else { &mut two }.push_back(&mut links, place).unwrap();
        stack.push_front(&mut links, place + 4).unwrap();
    }
    one.append(&mut links, &mut two).unwrap();
    assert!(one.iter(&links).eq([0, 2, 1, 3]) && two.is_empty());
    stack.clear(&mut links).unwrap();
    assert!(stack.is_empty() && links[4..].iter().all(|link| !link.is_linked()));
    one.clear(&mut links).unwrap();
    assert!(one.is_empty() && links.iter().all(|link| !link.is_linked()));
}

#[test]
fn lists_are_sorted_and_merged() {
    let keys = [5, 3, 5, 1, 3, 0, 4, 9];
    let mut links = [Link2::UNLINKED; 8];
    let (mut list, mut given) = (List::new(), List::new());
    list.fill(&mut links, 0, 4).unwrap();
    given.fill(&mut links, 4, 4).unwrap();
    list.sort(&mut links, &keys).unwrap();
    given.sort(&mut links, &keys).unwrap();
    assert!(list.iter(&links).eq([3, 1, 0, 2]) && given.iter(&links).rev().eq([7, 6, 4, 5]));
    assert_eq!(list.sort(&mut links, &keys[..7]), Err(Error::OutOfRange));
    let mut same = list.clone();
    assert_eq!(list.merge(&mut links, &keys, &mut same), Err(Error::Broken));
    list.merge(&mut links, &keys, &mut given).unwrap();
    assert!(list.iter(&links).eq([5, 3, 1, 4, 6, 0, 2, 7]) && given.is_empty());
    assert_eq!((list.check(&links), given.check(&links)), (Some(8), Some(0)));
}

#[test]
fn stacks_are_sorted_and_merged() {
    let keys = [5, 3, 5, 1, 3, 0, 4, 9];
    let mut links = [Link1::UNLINKED; 8];
    let (mut list, mut given) = (Stack::new(), Stack::new());
    list.fill(&mut links, 0, 4).unwrap();
    given.fill(&mut links, 4, 4).unwrap();
    list.sort(&mut links, &keys).unwrap();
    given.sort(&mut links, &keys).unwrap();
    assert!(list.iter(&links).eq([3, 1, 0, 2]) && given.iter(&links).eq([5, 4, 6, 7]));
    assert_eq!(list.sort(&mut links, &keys[..7]), Err(Error::OutOfRange));
    let mut end = list.clone().split_after(&mut links.clone(), Some(0)).unwrap(); // which is the last member of both
    assert_eq!(list.merge(&mut links, &keys, &mut end), Err(Error::Broken));
    list.merge(&mut links, &keys, &mut given).unwrap();
    assert!(list.iter(&links).eq([5, 3, 1, 4, 6, 0, 2, 7]) && given.is_empty());
    assert_eq!((list.check(&links), given.check(&links)), (Some(8), Some(0)));
}

#[test]
fn lists_are_checked() {
    let (mut links, mut words) = ([Link2::UNLINKED; 8], [Link1::UNLINKED; 8]);
    let (mut list, mut stack) = (List::new(), Stack::new());
    list.fill(&mut links, 0, 6).unwrap();
    stack.fill(&mut words, 0, 6).unwrap();
    assert_eq!((list.check(&links), stack.check(&words)), (Some(6), Some(6)));
    assert_eq!((list.check(&links[..5]), stack.check(&words[..5])), (None, None));
    links[3] = Link2::UNLINKED;
    assert_eq!((list.check(&links), list.sort(&mut links, &[0; 8])), (None, Err(Error::Broken)));
    words[3] = Link1::UNLINKED;
    assert_eq!((stack.check(&words), stack.sort(&mut words, &[0; 8])), (None, Err(Error::Broken)));
}

#[test]
fn rings_are_joined_and_cut() {
    let mut links = [Link2::UNLINKED; 8];
    let (ready, late) = (6, 7);
    ring::init(&mut links, ready).unwrap();
    ring::init(&mut links, late).unwrap();
    for place in 0..3 {
        ring::insert_before(&mut links, ready, place).unwrap();
        ring::insert_after(&mut links, late, 3 + place).unwrap();
    }
    assert!(ring::iter(&links, ready).eq([0, 1, 2]) && ring::iter(&links, late).eq([5, 4, 3]));
    assert_eq!((ring::next(&links, 2), ring::prev(&links, 5)), (Some(ready), Some(late)));
    ring::exchange(&mut links, 2, 3).unwrap(); // the one circle is ready, 0, 1, 2, late, 5, 4, 3
    assert!(ring::iter(&links, ready).eq([0, 1, 2, 7, 5, 4, 3]));
    ring::exchange(&mut links, 2, late).unwrap(); // and `late` is alone
    assert!(ring::iter(&links, ready).eq([0, 1, 2, 5, 4, 3]) && ring::iter(&links, late).next().is_none());
    ring::remove(&mut links, 5).unwrap();
    assert_eq!(ring::remove(&mut links, 5), Err(Error::NotLinked));
    assert_eq!(ring::insert_after(&mut links, 5, 5), Err(Error::NotLinked));
    assert_eq!(ring::init(&mut links, 4), Err(Error::Linked));
    links[4] = Link2::UNLINKED;
    assert_eq!(ring::remove(&mut links, 3), Err(Error::Broken));
}

#[test]
fn list_refuses() {
    let mut links = [Link2::UNLINKED; 8];
    let (mut list, mut other) = (List::new(), List::new());
    assert_eq!(list.pop_front(&mut links), Ok(None));
    assert_eq!(list.pop_back(&mut links), Ok(None));
    list.push_back(&mut links, 0).unwrap();
    list.push_back(&mut links, 1).unwrap();
    other.push_back(&mut links, 2).unwrap();
    assert_eq!(list.push_back(&mut links, 1), Err(Error::Linked));
    assert_eq!(list.push_front(&mut links, 8), Err(Error::OutOfRange));
    assert_eq!(list.insert_after(&mut links, Some(5), 6), Err(Error::NotLinked));
    assert_eq!(list.replace(&mut links, 0, 0), Err(Error::Linked));
    assert_eq!(list.remove(&mut links, u32::MAX), Err(Error::Null));
    assert_eq!(list.remove(&mut links, 2), Err(Error::Broken));
    assert_eq!(List::new().push_back(&mut [], 0), Err(Error::OutOfRange));
    assert!(list.pop_front(&mut links[..0]).is_err());
    assert!(list.iter(&links).eq([0, 1]) && other.iter(&links).eq([2]));
}

#[test]
fn stack_edits() {
    let mut links = [Link1::UNLINKED; 8];
    let mut stack = Stack::new();
    assert!(stack.is_empty() && stack.first().is_none());
    stack.push_front(&mut links, 2).unwrap();
    stack.push_front(&mut links, 1).unwrap();
    stack.insert_after(&mut links, Some(2), 3).unwrap();
    stack.insert_after(&mut links, None, 0).unwrap();
    assert!(stack.iter(&links).eq([0, 1, 2, 3]));
    assert_eq!(stack.remove_after(&mut links, Some(1)), Ok(Some(2)));
    assert_eq!(stack.remove_after(&mut links, Some(3)), Ok(None));
    assert_eq!(stack.replace_after(&mut links, None, 7), Ok(0));
    assert_eq!(stack.replace_after(&mut links, Some(1), 6), Ok(3));
    assert!(stack.iter(&links).eq([7, 1, 6]));
    assert_eq!(links[1].next(), Some(6));
    assert_eq!(stack.pop_front(&mut links), Ok(Some(7)));
    let mut rest = stack.split_after(&mut links, Some(1)).unwrap();
    assert!(stack.iter(&links).eq([1]) && rest.iter(&links).eq([6]));
    stack.splice_after(&mut links, None, &mut rest).unwrap();
    assert!(rest.is_empty() && stack.take().iter(&links).eq([6, 1]) && stack.is_empty());
}

#[test]
fn stack_refuses() {
    let mut links = [Link1::UNLINKED; 8];
    let mut stack = Stack::new();
    assert_eq!(stack.pop_front(&mut links), Ok(None));
    assert_eq!(stack.replace_after(&mut links, None, 0), Err(Error::Null));
    stack.push_front(&mut links, 0).unwrap();
    assert_eq!(stack.push_front(&mut links, 0), Err(Error::Linked));
    assert_eq!(stack.insert_after(&mut links, Some(0), 8), Err(Error::OutOfRange));
    assert_eq!(stack.insert_after(&mut links, Some(1), 2), Err(Error::NotLinked));
    assert!(stack.pop_front(&mut links[..0]).is_err());
    assert!(stack.iter(&links).eq([0]));
    let mut other = Stack::new();
    other.push_front(&mut links, 3).unwrap();
    other.push_front(&mut links, 2).unwrap();
    assert_eq!(other.remove(&mut links, 0), Err(Error::Broken));
    assert_eq!(other.remove(&mut links, 4), Err(Error::NotLinked));
    assert_eq!(other.remove(&mut links, 8), Err(Error::OutOfRange));
    assert_eq!(other.remove(&mut links, u32::MAX), Err(Error::Null));
    assert_eq!(other.remove(&mut links, 3), Ok(()));
    assert!(other.iter(&links).eq([2]) && stack.iter(&links).eq([0]));
}

#[test]
fn xor_list_edits() {
    let mut links = [Link1::UNLINKED; 8];
    let mut list = XorList::new();
    assert!(list.is_empty() && list.first().is_none() && list.last().is_none());
    list.push_back(&mut links, 3).unwrap();
    list.push_front(&mut links, 1).unwrap();
    list.insert_between(&mut links, Some(1), 2, Some(3)).unwrap();
    list.insert_between(&mut links, None, 0, Some(1)).unwrap();
    list.insert_between(&mut links, Some(3), 4, None).unwrap();
    assert!(list.iter(&links).eq([0, 1, 2, 3, 4]));
    assert!(list.iter(&links).rev().eq([4, 3, 2, 1, 0]));
    list.reverse();
    assert!(list.iter(&links).eq([4, 3, 2, 1, 0]));
    list.remove(&mut links, Some(3), 2).unwrap();
    list.replace(&mut links, Some(3), 1, 7).unwrap();
    assert!(list.iter(&links).eq([4, 3, 7, 0]));
    assert_eq!(links[3].step(Some(4)), Some(7));
    assert_eq!(links[4].step(Some(3)), None);
    assert_eq!(list.pop_front(&mut links), Ok(Some(4)));
    assert_eq!(list.pop_back(&mut links), Ok(Some(0)));
    let mut rest = list.split_between(&mut links, Some(3), Some(7)).unwrap();
    assert!(list.iter(&links).eq([3]) && rest.iter(&links).eq([7]));
    list.splice_between(&mut links, None, &mut rest, Some(3)).unwrap();
    assert!(rest.is_empty() && list.take().iter(&links).eq([7, 3]) && list.is_empty());
}

#[test]
fn xor_list_refuses() {
    let mut links = [Link1::UNLINKED; 8];
    let mut list = XorList::new();
    assert_eq!(list.pop_front(&mut links), Ok(None));
    assert_eq!(list.pop_back(&mut links), Ok(None));
    list.push_front(&mut links, 0).unwrap();
    assert_eq!(list.push_back(&mut links, 0), Err(Error::Linked));
    assert_eq!(list.push_back(&mut links, 8), Err(Error::OutOfRange));
    assert_eq!(list.insert_between(&mut links, Some(1), 2, None), Err(Error::NotLinked));
    assert_eq!(list.insert_between(&mut links, None, 2, None), Err(Error::Broken));
    assert_eq!(list.remove(&mut links, None, u32::MAX), Err(Error::Null));
    assert!(list.pop_front(&mut links[..0]).is_err());
    assert!(list.iter(&links).eq([0]));
}

#[test]
fn iterators_meet_in_the_middle() {
    let mut links = [Link2::UNLINKED; 8];
    let mut small = [Link1::UNLINKED; 8];
    let (mut list, mut xor) = (List::new(), XorList::new());
    for place in 0..5 {
        list.push_back(&mut links, place).unwrap();
        xor.push_back(&mut small, place).unwrap();
    }
    let (mut one, mut other) = (list.iter(&links), xor.iter(&small));
    for expected in [Some(0), Some(1)] {
        assert_eq!((one.next(), other.next()), (expected, expected));
    }
    for expected in [Some(4), Some(3), Some(2), None] {
        assert_eq!((one.next_back(), other.next_back()), (expected, expected));
    }
    assert_eq!((one.next(), other.next()), (None, None));
}

#[test]
fn iterators_end_on_the_table_of_others() {
    let mut links = [Link2::UNLINKED; 8];
    let mut ring = [Link2::UNLINKED; 8];
    let (mut list, mut other) = (List::new(), List::new());
    for place in 0..8 {
        list.push_back(&mut links, place).unwrap();
        other.push_front(&mut ring, place).unwrap();
    }
    assert!(list.iter(&ring).count() <= 8);
    assert!(list.iter(&links[..3]).eq([0, 1, 2]));
    assert!(list.iter(&links[..3]).next_back().is_none());
}

#[test]
fn errors_are_said_in_words() {
    let errors = [Error::OutOfRange, Error::Linked, Error::NotLinked, Error::Null, Error::Broken];
    for error in errors {
        let _: &dyn std::error::Error = &error;
        assert!(!error.to_string().is_empty());
    }
}
