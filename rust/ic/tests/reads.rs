//! Runs the cases of `tests/library/reads.txt`, which the tests of C, C++ and JavaScript run, too.

use ic::{ring, Link1, Link2, Link3, List, Stack, Tree, XorList};

const CASES: &str = include_str!("../../../tests/library/reads.txt");

/// A part of the file of cases: a type of list or tree, the words of its table, and the words of the list or tree.
#[derive(Default)]
struct Part {
    kind: String,
    links: Vec<u64>,
    head: Vec<u64>,
}

/// Returns the links of a table, each of which is made of `WORDS` words.
fn links<const WORDS: usize, Link>(words: &[u64], make: fn([u64; WORDS]) -> Link) -> Vec<Link> {
    words.chunks_exact(WORDS).map(|words| make(words.try_into().unwrap())).collect()
}

fn name(place: Option<u32>) -> String {
    place.map_or("none".into(), |place| place.to_string())
}

fn yes_or_no(is: bool) -> String {
    if is { "yes" } else { "no" }.into()
}

fn walk(places: impl Iterator<Item = u32>) -> String {
    places.map(|place| place.to_string()).collect::<Vec<_>>().join(" ")
}

impl Part {
    /// Returns the words of the list, the stack or the tree.
    fn own<const WORDS: usize>(&self) -> [u64; WORDS] {
        self.head[..WORDS].try_into().unwrap()
    }

    /// Returns the result of a read as text. A refused step through a tree finds no member, as in a loop of C.
    fn read(&self, read: &str, places: &[Option<u32>]) -> String {
        match self.kind.as_str() {
            "list" => self.read_list(read, places),
            "ring" => self.read_ring(read, places),
            "stack" => self.read_stack(read, places),
            "xor" => self.read_xor_list(read, places),
            _ => self.read_tree(read, places),
        }
    }

    fn read_list(&self, read: &str, places: &[Option<u32>]) -> String {
        let (table, list) = (links(&self.links, Link2::from_words), List::from_words(self.own()));
        let at = places.first().copied().flatten().unwrap_or(u32::MAX);
        match read {
            "next" => name(list.next(&table, at)),
            "prev" => name(list.prev(&table, at)),
            "is_linked" => yes_or_no(table.get(at as usize).is_some_and(Link2::is_linked)),
            "first" => name(list.first()),
            "last" => name(list.last()),
            "is_empty" => yes_or_no(list.is_empty()),
            "walk" => walk(list.iter(&table)),
            _ => "no such read".into(),
        }
    }

    fn read_ring(&self, read: &str, places: &[Option<u32>]) -> String {
        let table = links(&self.links, Link2::from_words);
        let at = places.first().copied().flatten().unwrap_or(u32::MAX);
        match read {
            "next" => name(ring::next(&table, at)),
            "prev" => name(ring::prev(&table, at)),
            "is_linked" => yes_or_no(table.get(at as usize).is_some_and(Link2::is_linked)),
            "is_empty" => yes_or_no(ring::is_empty(&table, at)),
            "walk" => walk(ring::iter(&table, self.head[0] as u32)),
            _ => "no such read".into(),
        }
    }

    fn read_stack(&self, read: &str, places: &[Option<u32>]) -> String {
        let (table, list) = (links(&self.links, Link1::from_words), Stack::from_words(self.own()));
        let at = places.first().copied().flatten().unwrap_or(u32::MAX);
        match read {
            "next" => name(list.next(&table, at)),
            "is_linked" => yes_or_no(table.get(at as usize).is_some_and(Link1::is_linked)),
            "first" => name(list.first()),
            "is_empty" => yes_or_no(list.is_empty()),
            "walk" => walk(list.iter(&table)),
            _ => "no such read".into(),
        }
    }

    fn read_xor_list(&self, read: &str, places: &[Option<u32>]) -> String {
        let (table, list) = (links(&self.links, Link1::from_words), XorList::from_words(self.own()));
        let of = |index: usize| places.get(index).copied().flatten();
        match read {
            "step" => name(list.step(&table, of(0), of(1).unwrap_or(u32::MAX))),
            "is_linked" => yes_or_no(table.get(of(0).unwrap_or(u32::MAX) as usize).is_some_and(Link1::is_linked)),
            "first" => name(list.first()),
            "last" => name(list.last()),
            "is_empty" => yes_or_no(list.is_empty()),
            "walk" => walk(list.iter(&table)),
            _ => "no such read".into(),
        }
    }

    fn read_tree(&self, read: &str, places: &[Option<u32>]) -> String {
        let (table, tree) = (links(&self.links, Link3::from_words), Tree::from_words(self.own()));
        let step = places.first().copied().flatten();
        let at = step.unwrap_or(u32::MAX);
        match read {
            "left" => name(tree.left(&table, at)),
            "right" => name(tree.right(&table, at)),
            "parent" => name(tree.parent(&table, at)),
            "is_linked" => yes_or_no(table.get(at as usize).is_some_and(Link3::is_linked)),
            "root" => name(tree.root()),
            "is_empty" => yes_or_no(tree.is_empty()),
            "next" => name(tree.next(&table, step).unwrap_or(None)),
            "prev" => name(tree.prev(&table, step).unwrap_or(None)),
            "walk" => walk(tree.iter(&table)),
            _ => "no such read".into(),
        }
    }
}

#[test]
fn reads_are_those_of_c() {
    let (mut part, mut played) = (Part::default(), 0);
    for (number, line) in (1..).zip(CASES.lines()) {
        let line = line.split('#').next().unwrap();
        let (left, right) = line.split_once('=').map_or((line, None), |(left, right)| (left, Some(right.trim())));
        let mut words = left.split_whitespace();
        let Some(first) = words.next() else { continue };
        match (first, right) {
            (read, Some(wanted)) => {
                let places: Vec<_> = words.map(|word| word.parse().ok()).collect();
                assert_eq!(part.read(read, &places), wanted, "line {number}, {} {read}", part.kind);
                played += 1;
            }
            ("links", None) => part.links = words.map(|word| word.parse().unwrap()).collect(),
            ("head", None) => part.head = words.map(|word| word.parse().unwrap()).collect(),
            (kind, None) => part = Part { kind: kind.into(), ..Part::default() },
        }
    }
    assert!(played > 100, "only {played} reads");
}
