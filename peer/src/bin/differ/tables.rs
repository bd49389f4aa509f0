//! Bad tables: every word is drawn anew, so that each row of "12 is given exactly when" is met, and each place behind it.

use crate::pair::Pair;
use crate::random::Random;
use crate::tally::Tally;
use welmuzra::{HEADER_WORDS, NODE_WORDS, RECORD_WORDS};

/// Numbers of a register that all draws go by.
struct Shape {
    limits: [u32; 4],
    nodes: u32,
}

/// A register of drawn words, and a few calls on each of its workers.
pub fn bad_tables(random: &mut Random, tally: &mut Tally) {
    let limits = [
        1 << random.from(1, 5),
        random.from(1, 9),
        random.from(1, 16),
        random.from(1, 8),
    ];
    let nodes = limits[..3].iter().sum();
    let shape = Shape { limits, nodes };
    let header = header(random, &shape);
    let busy = header[6];
    let records = (0..limits[2])
        .flat_map(|worker| record(random, &shape, busy >> worker & 1 == 1))
        .collect();
    let words = node_words(random, &shape);
    let buckets = (0..limits[0])
        .map(|_| number(random, nodes, nodes))
        .collect();
    let mut pair = Pair::new(header, records, words, buckets);
    for _ in 0..3 {
        for worker in 0..limits[2] {
            pair.step(tally, worker);
        }
    }
    let worker = random.below(limits[2]);
    let kind = random.from(0, 4);
    pair.start(tally, worker, kind, 5);
}

/// A number up to `good` nearly always, often 0, and else a word at an edge.
fn number(random: &mut Random, good: u32, nodes: u32) -> u32 {
    match random.below(60) {
        0 => random.word(nodes),
        1..=9 => 0,
        _ => random.from(0, good),
    }
}

fn header(random: &mut Random, shape: &Shape) -> [u32; HEADER_WORDS] {
    let [m, k, w, l] = shape.limits;
    let size = 1 << random.from(1, m.ilog2());
    let count = random.pick(&[0, 5, 40, 0x7fff_ffff, 0x8000_0000, u32::MAX]);
    let mut words = [m, k, w, l, size, count, random.below(1 << w)];
    if random.once_in(12) {
        words[random.below(HEADER_WORDS as u32) as usize] = random.word(shape.nodes);
    }
    words
}

/// A record that is nearly always one that its place could have, so that the words behind it are read.
fn record(random: &mut Random, shape: &Shape, busy: bool) -> [u32; RECORD_WORDS] {
    let mut words = [0; RECORD_WORDS];
    if !busy && !random.once_in(12) {
        words[random.below(RECORD_WORDS as u32) as usize] = u32::from(random.once_in(6));
        return words;
    }
    let m = shape.limits[0];
    let place = random.from(1, 17);
    let wanted = random.below(m);
    let making = wanted & ((2 << random.below(5)) - 1);
    let mut node = |good: u32| number(random, good, shape.nodes);
    let [start, prev, cur] = [(); 3].map(|_| node(shape.nodes));
    let [next, held, dummy] = [(); 3].map(|_| node(shape.nodes));
    let (kind, errand) = kind_and_errand(random, place);
    let key = random.pick(&[0, 1, 5, 0x7fff_ffff]);
    let size = 1 << random.from(1, m.ilog2());
    let steps = random.pick(&[0, 9, u32::MAX - 1, u32::MAX]);
    let marked = random.below(2);
    words = [
        place, errand, kind, key, wanted, making, size, start, prev, cur, next, marked, held,
        dummy, steps,
    ];
    if random.once_in(10) {
        words[random.below(RECORD_WORDS as u32) as usize] = random.word(shape.nodes);
    }
    words
}

/// A kind and an errand that fit the place, but for one record in ten.
fn kind_and_errand(random: &mut Random, place: u32) -> (u32, u32) {
    let any = random.from(1, 3);
    let errand = random.pick(&[0, 0, 1, 1, 2]);
    match place {
        _ if random.once_in(10) => (any, errand),
        1 | 12..=14 => (1, errand),
        15..=17 => (3, errand),
        10 if any == 1 => (1, random.below(2)),
        10 => (any, 1),
        _ => (any, errand),
    }
}

/// Split keys that are often the ones looked for, links that are often to a node, standings of every sort.
fn node_words(random: &mut Random, shape: &Shape) -> Vec<u32> {
    let full = random.once_in(3);
    let mut words = Vec::new();
    for _ in 0..shape.nodes {
        let key = random.pick(&[0x8000_0000, 0x8000_0001, 0x8000_0005, u32::MAX]);
        let bucket = random.below(shape.limits[0]);
        words.push(random.pick(&[key, bucket]).reverse_bits());
        words.push(number(random, 2 * shape.nodes + 1, shape.nodes));
        let set = random.below(65_536);
        let free = if full { 0x8000_0000 } else { 0 };
        let word = random.word(shape.nodes);
        words.push(random.pick(&[free, 0x8000_0000, set, set, word]));
    }
    debug_assert_eq!(words.len(), shape.nodes as usize * NODE_WORDS);
    words
}
