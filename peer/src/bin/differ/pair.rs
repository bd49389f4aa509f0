//! One register twice: in words for the library, and as the peer keeps it. After every call all of it is compared.

use crate::tally::Tally;
use peer::answer::Answer;
use peer::header::Header;
use peer::record::Record;
use peer::register::{self, Lent};
use welmuzra::{Limits, Reply, HEADER_WORDS, RECORD_WORDS};

/// How many words of each table a call is lent.
#[derive(Clone, Copy)]
pub struct Lengths {
    pub records: usize,
    pub nodes: usize,
    pub buckets: usize,
}

pub struct Pair {
    pub header: [u32; HEADER_WORDS],
    pub records: Vec<u32>,
    pub nodes: Vec<u32>,
    pub buckets: Vec<u32>,
    pub lengths: Lengths,
    own_header: Header,
    own_records: Vec<Record>,
    own_nodes: Vec<u32>,
    own_buckets: Vec<u32>,
}

impl Pair {
    /// Both sides over the same words.
    pub fn new(
        header: [u32; HEADER_WORDS],
        records: Vec<u32>,
        nodes: Vec<u32>,
        buckets: Vec<u32>,
    ) -> Self {
        let lengths = Lengths {
            records: records.len(),
            nodes: nodes.len(),
            buckets: buckets.len(),
        };
        let mut pair = Pair {
            own_header: Header::from_words(&header),
            own_records: Vec::new(),
            own_nodes: nodes.clone(),
            own_buckets: buckets.clone(),
            header,
            records,
            nodes,
            buckets,
            lengths,
        };
        pair.agree();
        pair
    }

    /// The peer takes over the words of the library's side.
    pub fn agree(&mut self) {
        self.own_header = Header::from_words(&self.header);
        self.own_records = self.rows().map(Record::from_words).collect();
        self.own_nodes.copy_from_slice(&self.nodes);
        self.own_buckets.copy_from_slice(&self.buckets);
    }

    fn rows(&self) -> impl Iterator<Item = &[u32; RECORD_WORDS]> {
        let rows = self.records.chunks_exact(RECORD_WORDS);
        rows.filter_map(|row| row.try_into().ok())
    }

    /// The worker's place is the idle one.
    pub fn is_idle(&self, worker: u32) -> bool {
        self.place(worker) == 0
    }

    fn place(&self, worker: u32) -> u32 {
        let at = worker as usize * RECORD_WORDS;
        self.records.get(at).copied().unwrap_or(0)
    }

    fn lent(&mut self) -> (&mut Header, Lent<'_>) {
        let Lengths {
            records,
            nodes,
            buckets,
        } = self.lengths;
        let lent = Lent {
            nodes: &mut self.own_nodes[..nodes],
            buckets: &mut self.own_buckets[..buckets],
            records: &mut self.own_records[..records / RECORD_WORDS],
        };
        (&mut self.own_header, lent)
    }

    /// Where the two sides differ.
    fn difference(&self, reply: Reply, own: Answer) -> Option<&'static str> {
        if (reply.answer, reply.steps) != (own.number, own.steps) {
            return Some("answer");
        }
        if self.header != self.own_header.words() {
            return Some("header");
        }
        if self.nodes != self.own_nodes {
            return Some("nodes");
        }
        if self.buckets != self.own_buckets {
            return Some("buckets");
        }
        let same = (self.rows().zip(&self.own_records)).all(|(row, own)| *row == own.words());
        (!same).then_some("records")
    }

    fn compare(
        &mut self,
        tally: &mut Tally,
        call: &'static str,
        told: &str,
        reply: Reply,
        own: Answer,
    ) {
        tally.answered(call, reply.answer);
        if let Some(what) = self.difference(reply, own) {
            tally.differs(|| {
                format!(
                    "{what} after {call} {told}: library {reply:?}, peer {own:?}, header {:?}",
                    self.header
                )
            });
            self.agree();
        }
    }

    pub fn prepare(&mut self, tally: &mut Tally, limits: [u32; 4]) -> u32 {
        let [buckets, keys, workers, load] = limits;
        let reply = welmuzra::prepare(
            &mut self.header,
            &mut self.records[..self.lengths.records],
            &mut self.nodes[..self.lengths.nodes],
            &mut self.buckets[..self.lengths.buckets],
            Limits {
                buckets,
                keys,
                workers,
                load,
            },
        );
        let (header, mut lent) = self.lent();
        let own = register::prepare(header, limits, &mut lent);
        self.compare(tally, "prepare", &format!("{limits:?}"), reply, own);
        tally.prepared += 1;
        reply.answer
    }

    pub fn start(&mut self, tally: &mut Tally, worker: u32, kind: u32, key: u32) -> u32 {
        let reply = welmuzra::start(
            &mut self.header,
            &mut self.records[..self.lengths.records],
            &mut self.nodes[..self.lengths.nodes],
            &mut self.buckets[..self.lengths.buckets],
            worker,
            kind,
            key,
        );
        let (header, mut lent) = self.lent();
        let own = register::start(header, worker, kind, key, &mut lent);
        let told = format!("{worker} {kind} {key}");
        self.compare(tally, "start", &told, reply, own);
        tally.started += 1;
        reply.answer
    }

    pub fn step(&mut self, tally: &mut Tally, worker: u32) -> u32 {
        let place = self.place(worker);
        let size = self.header[4];
        let reply = welmuzra::step(
            &mut self.header,
            &mut self.records[..self.lengths.records],
            &mut self.nodes[..self.lengths.nodes],
            &mut self.buckets[..self.lengths.buckets],
            worker,
        );
        let (header, mut lent) = self.lent();
        let own = register::step(header, worker, &mut lent);
        self.compare(
            tally,
            "step",
            &format!("{worker} at place {place}"),
            reply,
            own,
        );
        tally.stepped(place, reply.answer);
        tally.doubled += u64::from(size != self.header[4]);
        reply.answer
    }
}
