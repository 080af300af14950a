//! Tests a hash table that grows and shrinks, and compares each chain with a `Vec`.

use ic::{hash, Error, Link1, Stack};

const PLACES: u32 = 40;

fn buckets(count: usize) -> Vec<Stack> {
    (0..count).map(|_| Stack::new()).collect()
}

/// Moves the members of a chain as `hash::move_chain` should. Members that move to the same bucket keep their order, and come before the
/// members that the bucket had.
fn move_plain(chain: &mut Vec<u32>, to: &mut [Vec<u32>], hashes: &[u64]) {
    let count = to.len();
    for (bucket, there) in to.iter_mut().enumerate() {
        let moved = chain.iter().copied().filter(|&at| hashes[at as usize] % count as u64 == bucket as u64);
        *there = moved.chain(there.iter().copied()).collect();
    }
    chain.clear();
}

#[test]
fn chains_move_to_other_buckets() {
    let hashes: Vec<u64> = (0..PLACES).map(|place| u64::from(place % 9).wrapping_mul(0x9E37_79B9_7F4A_7C15)).collect();
    let mut links = vec![Link1::UNLINKED; PLACES as usize];
    let (mut chains, mut plain) = (buckets(3), vec![Vec::new(); 3]);
    for place in 0..PLACES {
        hash::insert(&mut links, &mut chains, hashes[place as usize], place).unwrap();
        plain[(hashes[place as usize] % 3) as usize].insert(0, place);
    }
    for count in [16, 1, 7, 2, 64] {
        let (mut others, mut gathered) = (buckets(count), vec![Vec::new(); count]);
        for (chain, members) in chains.iter_mut().zip(&mut plain) {
            hash::move_chain(&mut links, &hashes, chain, &mut others).unwrap();
            move_plain(members, &mut gathered, &hashes);
            assert!(
                chain.is_empty()
                    && others.iter().zip(&gathered).all(|(it, plain)| it.iter(&links).eq(plain.iter().copied()))
            );
        }
        assert_eq!(hash::check(&links, &hashes, &others), Ok(PLACES.into()));
        (chains, plain) = (others, gathered);
    }
}

#[test]
fn chains_that_do_not_fit_stay() {
    let (mut links, hashes) = ([Link1::UNLINKED; 6], [0, 1, 2, 3, 4, 5]);
    let (mut chain, mut to) = (Stack::new(), buckets(2));
    chain.fill(&mut links, 0, 4).unwrap();
    assert_eq!(hash::move_chain(&mut links, &hashes[..5], &mut chain, &mut to), Err(Error::OutOfRange));
    assert_eq!(hash::move_chain(&mut links, &hashes, &mut chain, &mut []), Err(Error::OutOfRange));
    to[1] = Stack::from_words([8 * (5 + 1)]); // which is not linked
    assert_eq!(hash::move_chain(&mut links, &hashes, &mut chain, &mut to), Err(Error::Broken));
    to[1] = Stack::new();
    let was = links;
    links[3] = links[0]; // which leads to the place 1
    assert_eq!(hash::move_chain(&mut links, &hashes, &mut chain, &mut to), Err(Error::Broken));
    links = was;
    assert!(chain.iter(&links).eq([0, 1, 2, 3]) && to.iter().all(Stack::is_empty));
    hash::move_chain(&mut links, &hashes, &mut chain, &mut to).unwrap();
    assert!(hash::iter(&links, &to).eq([0, 2, 1, 3]));
}
