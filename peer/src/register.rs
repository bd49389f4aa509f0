//! Preparing, starting and stepping, with the refusals in document 01's order.

use crate::answer::{self, Answer, Flow};
use crate::header::Header;
use crate::nodes::{Nodes, NODE_WORDS, TAKEN};
use crate::record::{Record, DELETE, FIND, I1, IDLE, INSERT, KEY_TOP, SZ};

/// What a call is lent besides the header.
pub struct Lent<'a> {
    pub nodes: &'a mut [u32],
    pub buckets: &'a mut [u32],
    pub records: &'a mut [Record],
}

/// One worker's step while it is taken: header and record are copies until it is known that nothing is damaged.
pub struct Turn<'a> {
    pub header: Header,
    pub record: Record,
    pub nodes: Nodes<'a>,
    pub buckets: &'a mut [u32],
}

impl Lent<'_> {
    fn too_short(&self, header: &Header) -> bool {
        self.nodes.len() < header.all_nodes() as usize * NODE_WORDS
            || self.buckets.len() < header.buckets as usize
            || self.records.len() < header.workers as usize
    }

    /// Header range, lengths and worker number: what a start and a step look at first.
    fn refused(&self, header: &Header, worker: u32) -> Option<u32> {
        if !header.is_sound() {
            return Some(answer::DAMAGED);
        }
        if self.too_short(header) {
            return Some(answer::SHORT);
        }
        (worker >= header.workers).then_some(answer::NO_WORKER)
    }
}

/// A register with nothing in it, of the limits M, K, W and L.
pub fn prepare(header: &mut Header, limits: [u32; 4], lent: &mut Lent) -> Answer {
    let [buckets, keys, workers, load] = limits;
    let fresh = Header {
        buckets,
        keys,
        workers,
        load,
        size: 2,
        count: 0,
        busy: 0,
    };
    if !fresh.keeps_limits() {
        return Answer::bare(answer::LIMIT);
    }
    if lent.too_short(&fresh) {
        return Answer::bare(answer::SHORT);
    }
    lent.nodes[..fresh.all_nodes() as usize * NODE_WORDS].fill(0);
    lent.nodes[2] = TAKEN;
    lent.buckets[..buckets as usize].fill(0);
    lent.buckets[0] = 1;
    lent.records[..workers as usize].fill(Record::default());
    *header = fresh;
    Answer::bare(answer::GOING)
}

/// A worker's operation of this kind on this key begins.
pub fn start(header: &mut Header, worker: u32, kind: u32, key: u32, lent: &mut Lent) -> Answer {
    if let Some(number) = lent.refused(header, worker) {
        return Answer::bare(number);
    }
    let place = match kind {
        INSERT => I1,
        FIND | DELETE => SZ,
        _ => return Answer::bare(answer::UNKNOWN_KIND),
    };
    if key > KEY_TOP {
        return Answer::bare(answer::KEY_LIMIT);
    }
    let record = &mut lent.records[worker as usize];
    if !record.is_sound(header, worker) {
        return Answer::bare(answer::DAMAGED);
    }
    if record.place != IDLE {
        return Answer::bare(answer::BUSY);
    }
    *record = Record {
        place,
        kind,
        key,
        ..Record::default()
    };
    header.busy |= 1 << worker;
    Answer::bare(answer::GOING)
}

/// One step of a worker.
pub fn step(header: &mut Header, worker: u32, lent: &mut Lent) -> Answer {
    if let Some(number) = lent.refused(header, worker) {
        return Answer::bare(number);
    }
    let record = &mut lent.records[worker as usize];
    if !record.is_sound(header, worker) {
        return Answer::bare(answer::DAMAGED);
    }
    if record.place == IDLE {
        return Answer::bare(answer::IDLE);
    }
    let mut turn = Turn {
        header: *header,
        record: *record,
        nodes: Nodes::new(lent.nodes, header.all_nodes()),
        buckets: lent.buckets,
    };
    let Ok(flow) = turn.one() else {
        return Answer::bare(answer::DAMAGED);
    };
    let steps = turn.record.steps.saturating_add(1);
    match flow {
        Flow::Going => {
            turn.record.steps = steps;
            *header = turn.header;
            *record = turn.record;
            Answer::bare(answer::GOING)
        }
        Flow::Ended(number) => {
            turn.nodes.sweep(worker);
            *header = turn.header;
            header.busy &= !(1 << worker);
            *record = Record::default();
            Answer { number, steps }
        }
    }
}
