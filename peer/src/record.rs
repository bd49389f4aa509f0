//! A worker's record, and the faults that it can have by itself.

use crate::header::{is_size, Header};
use crate::split;

pub const IDLE: u32 = 0;
pub const I1: u32 = 1;
pub const SZ: u32 = 2;
pub const TB: u32 = 3;
pub const B2: u32 = 4;
pub const B4: u32 = 5;
pub const F1: u32 = 6;
pub const F2: u32 = 7;
pub const F3: u32 = 8;
pub const F4: u32 = 9;
pub const L2: u32 = 10;
pub const B8: u32 = 11;
pub const I8: u32 = 12;
pub const I9: u32 = 13;
pub const I10: u32 = 14;
pub const D4A: u32 = 15;
pub const D4B: u32 = 16;
pub const D6: u32 = 17;

/// The search is for the operation's key.
pub const FOR_KEY: u32 = 0;
/// The search is for the place of a dummy.
pub const FOR_DUMMY: u32 = 1;
/// The search that a delete makes after its second swap failed.
pub const EXTRA: u32 = 2;

pub const INSERT: u32 = 1;
pub const FIND: u32 = 2;
pub const DELETE: u32 = 3;

pub const KEY_TOP: u32 = 0x7fff_ffff;
pub const RECORD_WORDS: usize = 15;

#[derive(Clone, Copy, Debug, Default, PartialEq, Eq)]
pub struct Record {
    pub place: u32,
    pub errand: u32,
    pub kind: u32,
    pub key: u32,
    pub wanted: u32,
    pub making: u32,
    pub size: u32,
    pub start: u32,
    pub prev: u32,
    pub cur: u32,
    pub next: u32,
    pub marked: u32,
    pub held: u32,
    pub dummy: u32,
    pub steps: u32,
}

impl Record {
    /// Whether the record of this worker can be gone on with (document 01, "12 is given exactly when").
    pub fn is_sound(&self, header: &Header, worker: u32) -> bool {
        let busy = header.busy >> worker & 1 == 1;
        if self.place == IDLE {
            return !busy && *self == Record::default();
        }
        busy && self.in_range(header) && self.place_fits() && self.numbers_fit(header)
    }

    fn in_range(&self, header: &Header) -> bool {
        let nodes = header.all_nodes();
        self.place <= D6
            && self.errand <= EXTRA
            && (INSERT..=DELETE).contains(&self.kind)
            && self.key <= KEY_TOP
            && self.marked <= 1
            && self.wanted < header.buckets
            && self.making < header.buckets
            && self.start <= nodes
            && self.prev <= nodes
            && self.cur <= nodes
            && self.next <= nodes
            && self.held <= nodes
            && self.dummy <= nodes
    }

    fn place_fits(&self) -> bool {
        match self.place {
            I1 | I8 | I9 | I10 => self.kind == INSERT,
            D4A | D4B | D6 => self.kind == DELETE,
            L2 => self.errand == FOR_DUMMY || (self.errand == FOR_KEY && self.kind == INSERT),
            F1 | F2 | F3 | F4 => self.errand != EXTRA || self.kind == DELETE,
            _ => true,
        }
    }

    fn numbers_fit(&self, header: &Header) -> bool {
        match self.place {
            B2 | B4 | B8 => self.making != 0 && split::on_path(self.making, self.wanted),
            I9 => is_size(self.size, header.buckets),
            I10 => is_size(self.size, header.buckets) && self.size < header.buckets,
            _ => true,
        }
    }

    /// The split key that the search looks for.
    pub fn sought(&self) -> u32 {
        if self.errand == FOR_DUMMY {
            split::dummy(self.making)
        } else {
            split::regular(self.key)
        }
    }

    pub fn from_words(words: &[u32; RECORD_WORDS]) -> Self {
        let [place, errand, kind, key, wanted, making, size, rest @ ..] = *words;
        let [start, prev, cur, next, marked, held, dummy, steps] = rest;
        Record {
            place,
            errand,
            kind,
            key,
            wanted,
            making,
            size,
            start,
            prev,
            cur,
            next,
            marked,
            held,
            dummy,
            steps,
        }
    }

    pub fn words(&self) -> [u32; RECORD_WORDS] {
        [
            self.place,
            self.errand,
            self.kind,
            self.key,
            self.wanted,
            self.making,
            self.size,
            self.start,
            self.prev,
            self.cur,
            self.next,
            self.marked,
            self.held,
            self.dummy,
            self.steps,
        ]
    }
}
