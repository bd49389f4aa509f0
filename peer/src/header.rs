//! The register's header: its limits, and size, count and the busy set.

#[derive(Clone, Copy, Debug, Default, PartialEq, Eq)]
pub struct Header {
    pub buckets: u32,
    pub keys: u32,
    pub workers: u32,
    pub load: u32,
    pub size: u32,
    pub count: u32,
    pub busy: u32,
}

pub const HEADER_WORDS: usize = 7;

/// Whether a number is a power of two from 2 up to a top.
pub fn is_size(number: u32, top: u32) -> bool {
    number.is_power_of_two() && (2..=top).contains(&number)
}

impl Header {
    /// Whether M, K, W and L keep their limits.
    pub fn keeps_limits(&self) -> bool {
        is_size(self.buckets, 1024)
            && (1..=4096).contains(&self.keys)
            && (1..=16).contains(&self.workers)
            && (1..=8).contains(&self.load)
    }

    /// Whether a start or a step can use the header at all.
    pub fn is_sound(&self) -> bool {
        self.keeps_limits() && is_size(self.size, self.buckets) && self.busy < 1 << self.workers
    }

    /// The nodes for dummies, M + W.
    pub fn dummy_nodes(&self) -> u32 {
        self.buckets + self.workers
    }

    /// All nodes, N = M + W + K.
    pub fn all_nodes(&self) -> u32 {
        self.dummy_nodes() + self.keys
    }

    pub fn from_words(words: &[u32; HEADER_WORDS]) -> Self {
        let [buckets, keys, workers, load, size, count, busy] = *words;
        Header {
            buckets,
            keys,
            workers,
            load,
            size,
            count,
            busy,
        }
    }

    pub fn words(&self) -> [u32; HEADER_WORDS] {
        let Header {
            buckets,
            keys,
            workers,
            load,
            size,
            count,
            busy,
        } = *self;
        [buckets, keys, workers, load, size, count, busy]
    }
}
