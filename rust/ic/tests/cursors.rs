//! Tests views, cursors and `retain` of all lists and trees, as a user of the crate calls them.

use ic::{Error, Link1, Link2, Link3, List, Stack, Tree, View, XorList};

/// Tests the calls that are the same for all lists and trees whose cursors move in both directions. The list or tree must be empty before the
/// test, and is empty after the test.
macro_rules! both_ways {
    ($collection:expr, $links:expr) => {
        let (collection, links) = (&mut $collection, &mut $links);
        assert!(collection.front(links).is_null() && collection.back_mut(links).is_null());
        let mut cursor = collection.cursor_mut(links);
        for place in [3, 1, 4] {
            cursor.insert_before(place).unwrap();
        }
        assert_eq!((cursor.get(), cursor.peek_next().get(), cursor.peek_prev().get()), (None, Some(3), Some(4)));
        assert_eq!(cursor.replace_with(5), Err(Error::Null));
        assert_eq!(cursor.remove(), Ok(None));
        assert_eq!(format!("{cursor:?} {:?}", cursor.as_cursor()), "CursorMut(None) Cursor(None)");
        assert_eq!((collection.front(links).get(), collection.back(links).get()), (Some(3), Some(4)));
        let mut cursor = collection.back_mut(links);
        assert_eq!(cursor.insert_after(1), Err(Error::Linked));
        assert_eq!(cursor.insert_before(8), Err(Error::OutOfRange));
        cursor.move_prev();
        assert_eq!(cursor.replace_with(6), Ok(1));
        assert_eq!((cursor.remove(), cursor.get()), (Ok(Some(6)), Some(4)));
        assert_eq!((cursor.remove(), cursor.get()), (Ok(Some(4)), None));
        assert_eq!(collection.front_mut(links).remove(), Ok(Some(3)));
        assert!(collection.is_empty());
    };
}

/// Tests the calls that are the same for all lists and trees. The list or tree must have the places 2, 5 and 0 before the test, and is empty
/// after the test.
macro_rules! all_kinds {
    ($collection:expr, $links:expr) => {
        let (collection, links) = (&mut $collection, &mut $links);
        let view: View<'_, _> = collection.view(links);
        assert_eq!((format!("{view:?}"), format!("{:?}", view.iter())), ("[2, 5, 0]".into(), "[2, 5, 0]".into()));
        let mut seen = Vec::new();
        for place in &view {
            seen.push(place);
        }
        for place in view {
            seen.push(place);
        }
        assert_eq!(seen, [2, 5, 0, 2, 5, 0]);
        let mut cursor = collection.cursor(links);
        let others: Vec<_> = std::iter::from_fn(|| {
            cursor.move_next();
            cursor.get()
        })
        .collect();
        assert_eq!(others, [2, 5, 0]);
        assert!(collection.front(links).view().iter().eq([2, 5, 0]));
        collection.retain(links, |place| place != 5).unwrap();
        assert!(collection.iter(links).eq([2, 0]) && !links[5].is_linked());
        let mut all = collection.take();
        assert!(collection.is_empty() && all.iter(links).eq([2, 0]));
        all.clear(links).unwrap();
        assert!(all.is_empty() && links.iter().all(|link| !link.is_linked()));
    };
}

/// Tests the calls that return a cursor on a given place. The list or tree must have the places 2, 5 and 0.
macro_rules! from_place {
    ($collection:expr, $links:expr) => {
        let (collection, links) = (&mut $collection, &mut $links);
        assert_eq!(collection.cursor_from_place(links, 5).unwrap().peek_next().get(), Some(0));
        assert_eq!(collection.cursor_from_place(links, 8).err(), Some(Error::OutOfRange));
        assert_eq!(collection.cursor_from_place(links, u32::MAX).err(), Some(Error::OutOfRange));
        assert_eq!(collection.cursor_mut_from_place(links, 1).err(), Some(Error::NotLinked));
        let mut cursor = collection.cursor_mut_from_place(links, 5).unwrap();
        cursor.insert_after(7).unwrap();
        assert!(cursor.view().iter().eq([2, 5, 7, 0]));
        collection.retain(links, |place| place != 7).unwrap();
    };
}

#[test]
fn lists() {
    let (mut links, mut list) = ([Link2::UNLINKED; 8], List::new());
    both_ways!(list, links);
    for place in [2, 5, 0] {
        list.push_back(&mut links, place).unwrap();
    }
    from_place!(list, links);
    all_kinds!(list, links);
    assert_eq!(format!("{list:?}"), "List { first: None, last: None }");
}

#[test]
fn xor_lists() {
    let (mut links, mut list) = ([Link1::UNLINKED; 8], XorList::new());
    both_ways!(list, links);
    for place in [2, 5, 0] {
        list.push_back(&mut links, place).unwrap();
    }
    assert_eq!(list.cursor_from_place_and_prev(&links, 5, Some(2)).unwrap().peek_next().get(), Some(0));
    assert_eq!(list.cursor_from_place_and_next(&links, 5, Some(0)).unwrap().peek_prev().get(), Some(2));
    assert_eq!(list.cursor_from_place_and_prev(&links, 8, None).err(), Some(Error::OutOfRange));
    assert_eq!(list.cursor_from_place_and_next(&links, 5, Some(1)).err(), Some(Error::NotLinked));
    assert_eq!(list.cursor_mut_from_place_and_prev(&mut links, 1, None).err(), Some(Error::NotLinked));
    let mut cursor = list.cursor_mut_from_place_and_next(&mut links, 0, None).unwrap();
    cursor.insert_before(7).unwrap();
    let mut cursor = list.cursor_mut_from_place_and_prev(&mut links, 7, Some(5)).unwrap();
    assert!(cursor.view().iter().eq([2, 5, 7, 0]));
    assert_eq!((cursor.remove(), cursor.peek_prev().get()), (Ok(Some(7)), Some(5)));
    // The place 5 is not the member before 2, so the removal is refused.
    assert_eq!(list.cursor_mut_from_place_and_prev(&mut links, 2, Some(5)).unwrap().remove(), Err(Error::Broken));
    all_kinds!(list, links);
    assert_eq!(format!("{list:?}"), "XorList { first: None, last: None }");
}

#[test]
fn stacks() {
    let (mut links, mut stack) = ([Link1::UNLINKED; 8], Stack::new());
    assert!(stack.front(&links).is_null() && stack.front_mut(&mut links).is_null());
    let mut cursor = stack.cursor_mut(&mut links);
    assert_eq!((cursor.remove_next(), cursor.replace_next_with(0)), (Ok(None), Err(Error::Null)));
    for place in [0, 5, 2] {
        cursor.insert_after(place).unwrap();
    }
    from_place!(stack, links);
    all_kinds!(stack, links);
    assert_eq!(format!("{stack:?}"), "Stack { first: None }");
}

#[test]
fn trees() {
    let (mut links, mut tree) = ([Link3::UNLINKED; 8], Tree::new());
    both_ways!(tree, links);
    for place in [2, 5, 0] {
        tree.cursor_mut(&mut links).insert_before(place).unwrap();
    }
    from_place!(tree, links);
    all_kinds!(tree, links);
    assert_eq!(format!("{tree:?}"), "Tree { root: None }");
}

#[test]
fn cursors_cut_and_join() {
    let (mut links, mut list) = ([Link1::UNLINKED; 8], XorList::new());
    for place in 0..6 {
        list.push_back(&mut links, place).unwrap();
    }
    let mut cursor = list.cursor_mut_from_place_and_prev(&mut links, 2, Some(1)).unwrap();
    let mut back = cursor.split_after().unwrap();
    let mut front = cursor.split_before().unwrap();
    assert_eq!((cursor.peek_prev().get(), cursor.get(), cursor.peek_next().get()), (None, Some(2), None));
    cursor.splice_before(&mut back).unwrap();
    cursor.splice_after(&mut front).unwrap();
    assert_eq!((cursor.peek_prev().get(), cursor.get(), cursor.peek_next().get()), (Some(5), Some(2), Some(0)));
    assert!(back.is_empty() && front.is_empty() && list.iter(&links).eq([3, 4, 5, 2, 0, 1]));
    let all = list.cursor_mut(&mut links).split_before().unwrap();
    assert!(list.is_empty() && all.iter(&links).eq([3, 4, 5, 2, 0, 1]));
}

#[test]
fn retain_tells_a_table_of_others() {
    let (mut links, mut others) = ([Link1::UNLINKED; 8], [Link1::UNLINKED; 8]);
    let (mut stack, mut other) = (Stack::new(), Stack::new());
    for place in 0..8 {
        stack.push_front(&mut links, place).unwrap();
    }
    other.push_front(&mut others, 0).unwrap();
    assert_eq!(stack.retain(&mut others, |_| false), Err(Error::Broken));
    assert_eq!(stack.retain(&mut links[..4], |_| true), Ok(()));
    assert!(stack.iter(&links).eq((0..8).rev()) && other.iter(&others).eq([0]));
}
