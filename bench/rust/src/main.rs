//! The workloads on the crate `intrusive-collections`.
//!
//! `peer WORKLOAD MEMBERS OPERATIONS` prints the nanoseconds of all operations and a checksum. `bench/README.md` says what each workload
//! does. The functions `timed_*` are what is timed, and what callgrind counts.

use intrusive_collections::{
    intrusive_adapter, Bound, KeyAdapter, LinkedList, LinkedListLink, RBTree, RBTreeLink, SinglyLinkedList, SinglyLinkedListLink,
    XorLinkedList, XorLinkedListLink,
};
use std::cell::Cell;
use std::time::{Duration, Instant};

#[derive(Default)]
struct Object<L> {
    link: L,
    value: Cell<u64>,
}

intrusive_adapter!(Doubly<'a> = &'a Object<LinkedListLink>: Object<LinkedListLink> { link: LinkedListLink });
intrusive_adapter!(Singly<'a> = &'a Object<SinglyLinkedListLink>: Object<SinglyLinkedListLink> { link: SinglyLinkedListLink });
intrusive_adapter!(Xor<'a> = &'a Object<XorLinkedListLink>: Object<XorLinkedListLink> { link: XorLinkedListLink });
intrusive_adapter!(ByValue<'a> = &'a Object<RBTreeLink>: Object<RBTreeLink> { link: RBTreeLink });

impl<'a> KeyAdapter<'a> for ByValue<'_> {
    type Key = u64;

    fn get_key(&self, object: &'a Object<RBTreeLink>) -> u64 {
        object.value.get()
    }
}

/// The generator that all programs share.
struct Random(u64);

impl Random {
    fn below(&mut self, bound: u64) -> u64 {
        self.0 = self.0.wrapping_mul(6_364_136_223_846_793_005).wrapping_add(1_442_695_040_888_963_407);
        (self.0 >> 32).wrapping_mul(bound) >> 32
    }

    /// The numbers below `count`, in a random order.
    fn shuffled(&mut self, count: u64) -> Vec<u64> {
        let mut numbers: Vec<u64> = (0..count).collect();
        for last in (1..numbers.len()).rev() {
            numbers.swap(last, self.below(last as u64 + 1) as usize);
        }
        numbers
    }
}

/// Objects with the even numbers as values, in a random order.
fn objects<L: Default>(random: &mut Random, members: u64) -> Vec<Object<L>> {
    let values = random.shuffled(members).into_iter();
    values.map(|value| Object { link: L::default(), value: Cell::new(2 * value) }).collect()
}

/// References to them, in another random order.
fn references<'o, L>(random: &mut Random, objects: &'o [Object<L>]) -> Vec<&'o Object<L>> {
    random.shuffled(objects.len() as u64).into_iter().map(|index| &objects[index as usize]).collect()
}

fn sum<'o, L: 'o>(objects: impl Iterator<Item = &'o Object<L>>) -> u64 {
    objects.fold(0, |sum, object| sum.wrapping_add(object.value.get()))
}

fn hash<'o, L: 'o>(objects: impl Iterator<Item = &'o Object<L>>) -> u64 {
    objects.fold(0, |hash: u64, object| hash.wrapping_mul(31).wrapping_add(object.value.get()))
}

fn timed<R>(work: impl FnOnce() -> R) -> (Duration, R) {
    let start = Instant::now();
    let result = work();
    (start.elapsed(), result)
}

// ---- The doubly linked list ----

#[inline(never)]
fn timed_pair(list: &mut LinkedList<Doubly>, operations: u64) -> u64 {
    for _ in 0..operations {
        if let Some(object) = list.pop_front() {
            list.push_back(object);
        }
    }
    0
}

#[inline(never)]
fn timed_touch<'o>(list: &mut LinkedList<Doubly<'o>>, order: &[&'o Object<LinkedListLink>], operations: u64) -> u64 {
    let mut random = Random(1);
    for _ in 0..operations {
        let object = order[random.below(order.len() as u64) as usize];
        // SAFETY: all objects of `order` are in the list.
        unsafe { list.cursor_mut_from_ptr(object) }.remove();
        list.push_back(object);
    }
    0
}

#[inline(never)]
fn timed_fill<'o>(list: &mut LinkedList<Doubly<'o>>, order: &[&'o Object<LinkedListLink>]) -> u64 {
    for object in order {
        list.push_back(*object);
    }
    0
}

#[inline(never)]
fn timed_splice<'o>(list: &mut LinkedList<Doubly<'o>>, order: &[&'o Object<LinkedListLink>], operations: u64) -> u64 {
    let mut random = Random(1);
    for _ in 0..operations {
        let object = order[random.below(order.len() as u64) as usize];
        // SAFETY: all objects of `order` are in the list.
        let rest = unsafe { list.cursor_mut_from_ptr(object) }.split_after();
        list.cursor_mut().splice_after(rest);
    }
    0
}

#[inline(never)]
fn timed_step(list: &LinkedList<Doubly>, operations: u64) -> u64 {
    let mut cursor = list.front();
    for _ in 0..operations {
        cursor.move_next();
    }
    cursor.get().map_or(0, |object| object.value.get())
}

#[inline(never)]
fn timed_iter(list: &LinkedList<Doubly>, rounds: u64) -> u64 {
    (0..rounds).fold(0, |total, _| total.wrapping_add(sum(list.iter())))
}

fn doubly(workload: &str, members: u64, operations: u64) -> Option<(Duration, u64)> {
    let mut random = Random(1);
    let objects = objects(&mut random, members);
    let order = references(&mut random, &objects);
    let mut list = LinkedList::new(Doubly::new());
    let filled = timed(|| timed_fill(&mut list, &order));
    let (time, end) = match workload {
        "fill" => filled,
        "pair" => timed(|| timed_pair(&mut list, operations)),
        "touch" => timed(|| timed_touch(&mut list, &order, operations)),
        "splice" => timed(|| timed_splice(&mut list, &order, operations)),
        "step" => timed(|| timed_step(&list, operations)),
        "iter" => timed(|| timed_iter(&list, operations / members)),
        _ => return None,
    };
    Some((time, hash(list.iter()).wrapping_add(end)))
}

// ---- The singly linked list and the XOR list ----

#[inline(never)]
fn timed_singly<'o>(list: &mut SinglyLinkedList<Singly<'o>>, order: &[&'o Object<SinglyLinkedListLink>], rounds: u64) {
    for _ in 0..rounds {
        while list.pop_front().is_some() {}
        for object in order {
            list.push_front(*object);
        }
    }
}

fn singly(members: u64, operations: u64) -> (Duration, u64) {
    let mut random = Random(1);
    let objects = objects(&mut random, members);
    let order = references(&mut random, &objects);
    let mut list = SinglyLinkedList::new(Singly::new());
    for object in &order {
        list.push_front(*object);
    }
    let (time, ()) = timed(|| timed_singly(&mut list, &order, operations / members));
    (time, hash(list.iter()))
}

#[inline(never)]
fn timed_xor(list: &mut XorLinkedList<Xor>, operations: u64) {
    for _ in 0..operations {
        if let Some(object) = list.pop_front() {
            list.push_back(object);
        }
    }
}

fn xor(members: u64, operations: u64) -> (Duration, u64) {
    let mut random = Random(1);
    let objects = objects(&mut random, members);
    let mut list = XorLinkedList::new(Xor::new());
    for object in references(&mut random, &objects) {
        list.push_back(object);
    }
    let (time, ()) = timed(|| timed_xor(&mut list, operations));
    (time, hash(list.iter()))
}

// ---- The tree ----

#[inline(never)]
fn timed_insert<'o>(tree: &mut RBTree<ByValue<'o>>, order: &[&'o Object<RBTreeLink>]) {
    for object in order {
        tree.insert(*object);
    }
}

#[inline(never)]
fn timed_remove<'o>(tree: &mut RBTree<ByValue<'o>>, order: &[&'o Object<RBTreeLink>]) {
    for object in order {
        // SAFETY: all objects of `order` are in the tree, each once.
        unsafe { tree.cursor_mut_from_ptr(*object) }.remove();
    }
}

#[inline(never)]
fn timed_find(tree: &RBTree<ByValue>, members: u64, operations: u64) -> u64 {
    let mut random = Random(1);
    let mut sum = 0_u64;
    for _ in 0..operations {
        let key = 2 * random.below(members);
        if let Some(object) = tree.find(&key).get() {
            sum = sum.wrapping_add(object.value.get());
        }
    }
    sum
}

#[inline(never)]
fn timed_lower_bound(tree: &RBTree<ByValue>, members: u64, operations: u64) -> u64 {
    let mut random = Random(1);
    let mut sum = 0_u64;
    for _ in 0..operations {
        let key = 2 * random.below(members) + 1;
        if let Some(object) = tree.lower_bound(Bound::Included(&key)).get() {
            sum = sum.wrapping_add(object.value.get());
        }
    }
    sum
}

#[inline(never)]
fn timed_turn(tree: &mut RBTree<ByValue>, members: u64, operations: u64) -> u64 {
    let mut random = Random(1);
    for _ in 0..operations {
        let key = 2 * random.below(members);
        if let Some(object) = tree.find_mut(&key).remove() {
            tree.insert(object);
        }
    }
    0
}

#[inline(never)]
fn timed_queue(tree: &mut RBTree<ByValue>, members: u64, operations: u64) -> u64 {
    for _ in 0..operations {
        if let Some(object) = tree.front_mut().remove() {
            object.value.set(object.value.get() + 2 * members);
            tree.insert(object);
        }
    }
    0
}

#[inline(never)]
fn timed_tree_step(tree: &RBTree<ByValue>, operations: u64) -> u64 {
    let mut cursor = tree.front();
    for _ in 0..operations {
        cursor.move_next();
    }
    cursor.get().map_or(0, |object| object.value.get())
}

#[inline(never)]
fn timed_tree_iter(tree: &RBTree<ByValue>, rounds: u64) -> u64 {
    (0..rounds).fold(0, |total, _| total.wrapping_add(sum(tree.iter())))
}

fn filled<'o>(order: &[&'o Object<RBTreeLink>]) -> RBTree<ByValue<'o>> {
    let mut tree = RBTree::new(ByValue::new());
    for object in order {
        tree.insert(*object);
    }
    tree
}

/// Builds one tree, walks through it, and finds keys. It prints the nanoseconds of the first two steps, each before a colon, and returns the time of the last one.
fn tree_once(members: u64, operations: u64) -> (Duration, u64) {
    let mut random = Random(1);
    let objects = objects(&mut random, members);
    let order = references(&mut random, &objects);
    let mut tree = RBTree::new(ByValue::new());
    let built = timed(|| timed_insert(&mut tree, &order)).0;
    let (walked, total) = timed(|| timed_tree_iter(&tree, 1));
    let (found, sum) = timed(|| timed_find(&tree, members, operations));
    print!("{}:{}:", built.as_nanos(), walked.as_nanos());
    (found, hash(tree.iter()).wrapping_add(total).wrapping_add(sum))
}

fn tree(workload: &str, members: u64, operations: u64) -> Option<(Duration, u64)> {
    let mut random = Random(1);
    let objects = objects(&mut random, members);
    let order = references(&mut random, &objects);
    let half = &references(&mut random, &objects)[..members as usize / 2];
    let mut tree = filled(&order);
    let (time, end) = match workload {
        "insert" => {
            let round = |_| {
                tree.clear();
                timed(|| timed_insert(&mut tree, &order)).0
            };
            ((0..operations / members).map(round).sum(), 0)
        }
        "remove" => {
            let round = |_| {
                tree.clear();
                tree = filled(&order);
                timed(|| timed_remove(&mut tree, half)).0
            };
            ((0..operations / half.len() as u64).map(round).sum(), 0)
        }
        "find" => timed(|| timed_find(&tree, members, operations)),
        "lower_bound" => timed(|| timed_lower_bound(&tree, members, operations)),
        "turn" => timed(|| timed_turn(&mut tree, members, operations)),
        "queue" => timed(|| timed_queue(&mut tree, members, operations)),
        "tree_step" => timed(|| timed_tree_step(&tree, operations)),
        "tree_iter" => timed(|| timed_tree_iter(&tree, operations / members)),
        _ => return None,
    };
    Some((time, hash(tree.iter()).wrapping_add(end)))
}

fn main() {
    let words: Vec<String> = std::env::args().skip(1).collect();
    let [workload, members, operations] = &words[..] else {
        panic!("peer WORKLOAD MEMBERS OPERATIONS");
    };
    let members = members.parse().expect("a number of members");
    let operations = operations.parse().expect("a number of operations");
    let (time, checksum) = match workload.as_str() {
        "singly" => singly(members, operations),
        "xor" => xor(members, operations),
        "tree_once" => tree_once(members, operations),
        workload => doubly(workload, members, operations).or_else(|| tree(workload, members, operations)).expect("a workload"),
    };
    println!("{} {checksum}", time.as_nanos());
}
