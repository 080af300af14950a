//! Makes random commands at cursors, and calls of `retain`, and compares the results with plain sequences.

use super::*;

/// The members that the list or tree of the cursor should have, and those that another list or tree should have. `at` is the index of the
/// cursor's member, or the number of members if the cursor is on no member.
#[derive(Default)]
struct Plain {
    members: Vec<u32>,
    others: Vec<u32>,
    at: usize,
}

impl Plain {
    fn is_null(&self) -> bool {
        self.at == self.members.len()
    }

    fn get(&self) -> Option<u32> {
        self.members.get(self.at).copied()
    }

    /// Returns the position to which `by` steps forwards lead. The number of positions is the number of members plus 1.
    fn step(&self, by: usize) -> usize {
        (self.at + by) % (self.members.len() + 1)
    }

    /// Returns the gap after the cursor, as the number of members before this gap.
    fn gap_after(&self) -> usize {
        self.step(1)
    }

    /// Returns whether a place can be inserted, or the error with which it is refused.
    fn accepts(&self, place: u32) -> Result<(), Error> {
        if place as usize >= PLACES {
            Err(Error::OutOfRange)
        } else if self.members.contains(&place) || self.others.contains(&place) {
            Err(Error::Linked)
        } else {
            Ok(())
        }
    }

    /// Inserts places into a gap. The cursor stays on its member, or on no member.
    fn insert(&mut self, gap: usize, places: &[u32]) {
        if gap <= self.at {
            self.at += places.len();
        }
        self.members.splice(gap..gap, places.iter().copied());
    }
}

/// A cursor, another list or tree of the same table, and the members that both lists or trees should have.
struct Session<'a, C: Kind> {
    cursor: CursorMut<'a, C>,
    other: &'a mut C,
    plain: &'a mut Plain,
    random: &'a mut Random,
}

type Command<C> = fn(&mut Session<'_, C>);
type Check<C> = fn(&Session<'_, C>);

fn move_next<C: Kind>(it: &mut Session<'_, C>) {
    it.cursor.move_next();
    it.plain.at = it.plain.step(1);
}

fn insert_after<C: Kind>(it: &mut Session<'_, C>) {
    let place = it.random.place();
    let expected = it.plain.accepts(place);
    assert_eq!(it.cursor.insert_after(place), expected);
    if expected.is_ok() {
        it.plain.insert(it.plain.gap_after(), &[place]);
    }
}

fn move_prev<C: Kind + Bidirectional>(it: &mut Session<'_, C>) {
    it.cursor.move_prev();
    it.plain.at = it.plain.step(it.plain.members.len());
}

fn insert_before<C: Kind + Bidirectional>(it: &mut Session<'_, C>) {
    let place = it.random.place();
    let expected = it.plain.accepts(place);
    assert_eq!(it.cursor.insert_before(place), expected);
    if expected.is_ok() {
        it.plain.insert(it.plain.at, &[place]);
    }
}

fn remove<C: Kind + Bidirectional>(it: &mut Session<'_, C>) {
    let member = it.plain.get();
    assert_eq!(it.cursor.remove(), Ok(member));
    if member.is_some() {
        it.plain.members.remove(it.plain.at);
    }
}

fn replace_with<C: Kind + Bidirectional>(it: &mut Session<'_, C>) {
    let place = it.random.place();
    let expected = it.plain.get().ok_or(Error::Null).and_then(|out| it.plain.accepts(place).map(|()| out));
    assert_eq!(it.cursor.replace_with(place), expected);
    if expected.is_ok() {
        it.plain.members[it.plain.at] = place;
    }
}

fn splice_after<C: Kind + Splice>(it: &mut Session<'_, C>) {
    assert_eq!(it.cursor.splice_after(it.other), Ok(()));
    let given = std::mem::take(&mut it.plain.others);
    it.plain.insert(it.plain.gap_after(), &given);
}

fn split_after<C: Kind + Splice>(it: &mut Session<'_, C>) {
    if it.plain.others.is_empty() {
        *it.other = it.cursor.split_after().unwrap();
        let is_null = it.plain.is_null();
        it.plain.others = it.plain.members.split_off(it.plain.gap_after());
        it.plain.at = if is_null { 0 } else { it.plain.at };
    }
}

fn splice_before<C: Kind + BidirectionalSplice>(it: &mut Session<'_, C>) {
    assert_eq!(it.cursor.splice_before(it.other), Ok(()));
    let given = std::mem::take(&mut it.plain.others);
    it.plain.insert(it.plain.at, &given);
}

fn split_before<C: Kind + BidirectionalSplice>(it: &mut Session<'_, C>) {
    if it.plain.others.is_empty() {
        *it.other = it.cursor.split_before().unwrap();
        let back = it.plain.members.split_off(it.plain.at);
        it.plain.others = std::mem::replace(&mut it.plain.members, back);
        it.plain.at = 0;
    }
}

fn remove_next(it: &mut Session<'_, Stack>) {
    let gap = it.plain.gap_after();
    let member = it.plain.members.get(gap).copied();
    assert_eq!(it.cursor.remove_next(), Ok(member));
    if member.is_some() {
        let is_null = it.plain.is_null();
        it.plain.members.remove(gap);
        it.plain.at -= usize::from(is_null);
    }
}

fn replace_next_with(it: &mut Session<'_, Stack>) {
    let (gap, place) = (it.plain.gap_after(), it.random.place());
    let member = it.plain.members.get(gap).copied();
    let expected = member.ok_or(Error::Null).and_then(|out| it.plain.accepts(place).map(|()| out));
    assert_eq!(it.cursor.replace_next_with(place), expected);
    if expected.is_ok() {
        it.plain.members[gap] = place;
    }
}

fn looks_forward<C: Kind>(it: &Session<'_, C>) {
    let (plain, cursor) = (&it.plain, &it.cursor);
    assert_eq!((cursor.get(), cursor.is_null()), (plain.get(), plain.is_null()));
    assert_eq!(cursor.peek_next().get(), plain.members.get(plain.step(1)).copied());
    assert_eq!(cursor.as_cursor().get(), plain.get());
    assert!(cursor.view().iter().eq(plain.members.iter().copied()));
    assert_eq!(format!("{:?}", cursor.view()), format!("{:?}", plain.members));
}

fn looks_backward<C: Kind + Bidirectional>(it: &Session<'_, C>) {
    let (plain, cursor) = (&it.plain, &it.cursor);
    assert_eq!(cursor.peek_prev().get(), plain.members.get(plain.step(plain.members.len())).copied());
    assert!(cursor.view().iter().rev().eq(plain.members.iter().rev().copied()));
    let mut iter = cursor.view().iter();
    for (index, member) in plain.members.iter().enumerate() {
        let opposite = plain.members.len() - 1 - index;
        assert_eq!(iter.next(), (index <= opposite).then_some(*member));
        assert_eq!(iter.next_back(), (index < opposite).then(|| plain.members[opposite]));
    }
    assert_eq!((iter.next(), iter.next_back()), (None, None));
}

/// Makes random commands, several of them at one cursor, and then removes random members by `retain`.
fn run<C: Kind>(commands: &[Command<C>], checks: &[Check<C>]) {
    let mut random = Random::new(1);
    let mut table = vec![C::Link::default(); PLACES];
    let (mut own, mut other, mut plain) = (C::default(), C::default(), Plain::default());
    for _ in 0..2_000 {
        plain.at = plain.members.len();
        let cursor = cursor_mut(&mut own, &mut table);
        let mut session = Session { cursor, other: &mut other, plain: &mut plain, random: &mut random };
        for _ in 0..session.random.below(20) {
            let command = session.random.below(commands.len());
            commands[command](&mut session);
            for check in checks {
                check(&session);
            }
        }
        retain_some(&mut own, &mut table, &mut plain.members, &mut random);
        check_tables(&own, &other, &table, &plain);
        if random.below(2) == 0 {
            std::mem::swap(&mut own, &mut other);
            std::mem::swap(&mut plain.members, &mut plain.others);
        }
    }
}

fn retain_some<C: Kind>(own: &mut C, table: &mut [C::Link], expected: &mut Vec<u32>, random: &mut Random) {
    let (stays, mut asked) = (random.word() | random.word(), Vec::new());
    let is_kept = |place: u32| stays >> place & 1 == 1;
    let result = retain(own, table, |place| {
        asked.push(place);
        is_kept(place)
    });
    assert_eq!((result, &asked), (Ok(()), &*expected));
    expected.retain(|&place| is_kept(place));
}

fn check_tables<C: Kind>(own: &C, other: &C, table: &[C::Link], plain: &Plain) {
    assert_eq!((members(own, table), own.is_empty()), (plain.members.clone(), plain.members.is_empty()));
    assert_eq!((members(other, table), other.is_empty()), (plain.others.clone(), plain.others.is_empty()));
    for (place, link) in (0..).zip(table) {
        assert_eq!(link.is_linked(), plain.accepts(place).is_err());
    }
}

fn of_lists<C: Kind + BidirectionalSplice>() -> [Command<C>; 10] {
    [
        move_next,
        insert_after,
        move_prev,
        insert_before,
        remove,
        replace_with,
        splice_after,
        split_after,
        splice_before,
        split_before,
    ]
}

#[test]
fn a_list_is_as_a_sequence() {
    run::<List>(&of_lists(), &[looks_forward, looks_backward]);
}

#[test]
fn a_xor_list_is_as_a_sequence() {
    run::<XorList>(&of_lists(), &[looks_forward, looks_backward]);
}

#[test]
fn a_stack_is_as_a_sequence() {
    let commands = [move_next, insert_after, splice_after, split_after, remove_next, replace_next_with];
    run::<Stack>(&commands, &[looks_forward]);
}

#[test]
fn a_tree_is_as_a_sequence() {
    let commands = [move_next, insert_after, move_prev, insert_before, remove, replace_with];
    run::<Tree>(&commands, &[looks_forward, looks_backward]);
}
