//! Schedules over prepared registers: all limits, few keys and many, several ways of giving turns, damage on the way.

use crate::pair::{Lengths, Pair};
use crate::random::Random;
use crate::tally::Tally;
use welmuzra::{HEADER_WORDS, NODE_WORDS, RECORD_WORDS};

/// What every word past a register's own holds.
const BEYOND: u32 = 0xdead_beef;

/// How turns are given.
#[derive(Clone, Copy)]
enum Turns {
    /// Any worker at each step.
    Any,
    /// One after the other.
    Round,
    /// One worker for a while, then another.
    Bursts,
    /// One worker stands still most of the time.
    Sleeper,
}

/// What a schedule is like.
struct Plan {
    limits: [u32; 4],
    keys: u32,
    kinds: [u32; 3],
    turns: Turns,
}

impl Plan {
    fn new(random: &mut Random) -> Self {
        let limits = [
            1 << random.from(1, 10),
            random.any_size(4096),
            random.from(1, 16),
            random.from(1, 8),
        ];
        let few = random.from(1, 4);
        let keys = random.pick(&[few, few, 16, 200, 3000, 0x8000_0000]);
        Plan {
            limits,
            keys,
            kinds: random.pick(&[[1, 2, 3], [1, 1, 3], [1, 1, 1], [1, 3, 3], [1, 1, 2]]),
            turns: random.pick(&[Turns::Any, Turns::Round, Turns::Bursts, Turns::Sleeper]),
        }
    }

    fn workers(&self) -> u32 {
        self.limits[2]
    }

    fn nodes(&self) -> u32 {
        self.limits[..3].iter().sum()
    }

    /// Large registers get more steps, since they take more to fill.
    fn steps(&self) -> u32 {
        if self.nodes() > 600 {
            8_000
        } else {
            3_000
        }
    }

    /// The words that are the register's own.
    fn own(&self) -> Lengths {
        Lengths {
            records: self.workers() as usize * RECORD_WORDS,
            nodes: self.nodes() as usize * NODE_WORDS,
            buckets: self.limits[0] as usize,
        }
    }

    /// Tables of this register with a few words beyond, all of them filled with other words before it is prepared.
    fn pair(&self, random: &mut Random) -> Pair {
        let spare = random.below(40) as usize;
        let fill = |len: usize| {
            let mut words = vec![7; len];
            words.resize(len + spare, BEYOND);
            words
        };
        let own = self.own();
        Pair::new(
            [random.next() as u32; HEADER_WORDS],
            fill(own.records),
            fill(own.nodes),
            fill(own.buckets),
        )
    }

    fn worker(&self, random: &mut Random, last: u32) -> u32 {
        let all = self.workers();
        match self.turns {
            Turns::Any => random.below(all),
            Turns::Round => (last + 1) % all,
            Turns::Bursts if !random.once_in(12) => last,
            Turns::Bursts => random.below(all),
            Turns::Sleeper if random.once_in(64) => 0,
            Turns::Sleeper => random.from(1.min(all - 1), all - 1),
        }
    }
}

/// One schedule over one register; with `damage`, other words are written into it on the way.
pub fn schedule(random: &mut Random, tally: &mut Tally, damage: bool) {
    let plan = Plan::new(random);
    let mut pair = plan.pair(random);
    pair.prepare(tally, plan.limits);
    let mut last = 0;
    for _ in 0..plan.steps() {
        last = plan.worker(random, last);
        turn(&plan, &mut pair, random, tally, last);
        if damage && random.once_in(40) {
            spell(&plan, &mut pair, random, tally);
        }
        if random.once_in(200) {
            wrong_numbers(&plan, &mut pair, random, tally);
        }
    }
    // a damaged header can make more words the register's own
    if !damage && !beyond_is_whole(&plan, &pair) {
        tally.differs(|| "a word beyond the tables was written".into());
    }
}

/// A step, or now and then a start, which an idle worker nearly always needs first.
fn turn(plan: &Plan, pair: &mut Pair, random: &mut Random, tally: &mut Tally, worker: u32) {
    let usual = !random.once_in(64);
    if pair.is_idle(worker) == usual {
        begin(plan, pair, random, tally, worker);
    } else {
        pair.step(tally, worker);
    }
}

/// A few turns over damaged words; then header, records and lengths are as before, and nodes and buckets often too.
fn spell(plan: &Plan, pair: &mut Pair, random: &mut Random, tally: &mut Tally) {
    let whole = pair.lengths;
    let (header, records) = (pair.header, pair.records.clone());
    let (nodes, buckets) = (pair.nodes.clone(), pair.buckets.clone());
    for _ in 0..random.from(1, 3) {
        spoil(plan, pair, random, whole);
    }
    for _ in 0..8 {
        let worker = random.below(plan.workers());
        turn(plan, pair, random, tally, worker);
    }
    (pair.header, pair.records, pair.lengths) = (header, records, whole);
    if !random.once_in(8) {
        (pair.nodes, pair.buckets) = (nodes, buckets);
    }
    pair.agree();
}

fn begin(plan: &Plan, pair: &mut Pair, random: &mut Random, tally: &mut Tally, worker: u32) {
    let key = random.below(plan.keys);
    let kind = random.pick(&plan.kinds);
    pair.start(tally, worker, kind, key);
}

/// Calls with numbers of which at least one is wrong somewhere.
fn wrong_numbers(plan: &Plan, pair: &mut Pair, random: &mut Random, tally: &mut Tally) {
    let worker = random.pick(&[0, 1, 15, 16, 17, 31, 32, 64, u32::MAX, 0x1000_0000]);
    let kind = random.pick(&[0, 1, 2, 3, 4, u32::MAX]);
    let key = random.pick(&[0, 0x7fff_ffff, 0x8000_0000, u32::MAX]);
    match random.below(4) {
        0 => {
            pair.step(tally, worker);
        }
        1 => refused_prepare(plan, pair, random, tally),
        _ => {
            pair.start(tally, worker, kind, key);
        }
    }
}

/// Preparing with a broken limit, or over tables that are too short for it.
fn refused_prepare(plan: &Plan, pair: &mut Pair, random: &mut Random, tally: &mut Tally) {
    let broken = [
        random.pick(&[0, 1, 3, 2048, u32::MAX]),
        random.pick(&[0, 4097, u32::MAX]),
        random.pick(&[0, 17, 286_331_154, u32::MAX]),
        random.pick(&[0, 9, u32::MAX]),
    ];
    let mut limits = plan.limits;
    let whole = pair.lengths;
    if random.once_in(2) {
        let which = random.below(4) as usize;
        limits[which] = broken[which];
    } else {
        let Lengths { records, .. } = plan.own();
        pair.lengths.records = records - 1;
    }
    let cut = shorter(random, whole);
    (pair.lengths.nodes, pair.lengths.buckets) = (cut.nodes, cut.buckets);
    pair.prepare(tally, limits);
    pair.lengths = whole;
}

fn shorter(random: &mut Random, whole: Lengths) -> Lengths {
    let mut cut = |len: usize| len - random.pick(&[0, 0, 1, len / 2, len]).min(len);
    Lengths {
        records: cut(whole.records),
        nodes: cut(whole.nodes),
        buckets: cut(whole.buckets),
    }
}

/// Another word somewhere, or shorter tables.
fn spoil(plan: &Plan, pair: &mut Pair, random: &mut Random, whole: Lengths) {
    let word = random.word(plan.nodes());
    let table = random.below(12);
    let own = plan.own();
    let mut into = |table: &mut [u32], own: usize| table[random.below(own as u32) as usize] = word;
    match table {
        0 => into(&mut pair.header, HEADER_WORDS),
        1..=3 => into(&mut pair.records, own.records),
        4..=8 => into(&mut pair.nodes, own.nodes),
        9 | 10 => into(&mut pair.buckets, own.buckets),
        _ => pair.lengths = shorter(random, whole),
    }
    pair.agree();
}

fn beyond_is_whole(plan: &Plan, pair: &Pair) -> bool {
    let own = plan.own();
    let beyond = |table: &[u32], own: usize| table[own..].iter().all(|word| *word == BEYOND);
    beyond(&pair.records, own.records)
        && beyond(&pair.nodes, own.nodes)
        && beyond(&pair.buckets, own.buckets)
}
