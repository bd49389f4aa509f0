//! The three calls, as `include/welmuzra.h` declares them, over slices. They take any words, so nothing is left to test here.

pub const HEADER_WORDS: usize = 7;
pub const RECORD_WORDS: usize = 15;
pub const NODE_WORDS: usize = 3;

/// What a call answers: the scope paper's number, and at an ended answer the operation's steps.
#[repr(C)]
#[derive(Clone, Copy, Debug, PartialEq, Eq)]
pub struct Reply {
    pub answer: u32,
    pub steps: u32,
}

/// What a register is asked to hold: M buckets, K key nodes, W workers, load L.
#[derive(Clone, Copy, Debug)]
pub struct Limits {
    pub buckets: u32,
    pub keys: u32,
    pub workers: u32,
    pub load: u32,
}

mod raw {
    use super::{Reply, HEADER_WORDS};

    type Header = [u32; HEADER_WORDS];

    extern "C" {
        pub fn welmuzra_prepare(
            header: *mut Header,
            records: *mut u32,
            records_len: usize,
            nodes: *mut u32,
            nodes_len: usize,
            buckets: *mut u32,
            buckets_len: usize,
            m: u32,
            k: u32,
            w: u32,
            l: u32,
        ) -> Reply;

        pub fn welmuzra_start(
            header: *mut Header,
            records: *mut u32,
            records_len: usize,
            nodes: *mut u32,
            nodes_len: usize,
            buckets: *mut u32,
            buckets_len: usize,
            worker: u32,
            kind: u32,
            key: u32,
        ) -> Reply;

        pub fn welmuzra_step(
            header: *mut Header,
            records: *mut u32,
            records_len: usize,
            nodes: *mut u32,
            nodes_len: usize,
            buckets: *mut u32,
            buckets_len: usize,
            worker: u32,
        ) -> Reply;
    }
}

/// A register over the lent words.
#[inline]
pub fn prepare(
    header: &mut [u32; HEADER_WORDS],
    records: &mut [u32],
    nodes: &mut [u32],
    buckets: &mut [u32],
    limits: Limits,
) -> Reply {
    let Limits {
        buckets: m,
        keys: k,
        workers: w,
        load: l,
    } = limits;
    // SAFETY: four exclusive borrows of words, each passed with its own length; the call has no other condition.
    unsafe {
        raw::welmuzra_prepare(
            header,
            records.as_mut_ptr(),
            records.len(),
            nodes.as_mut_ptr(),
            nodes.len(),
            buckets.as_mut_ptr(),
            buckets.len(),
            m,
            k,
            w,
            l,
        )
    }
}

/// A worker's operation begins; nodes and buckets stay as they are.
#[inline]
pub fn start(
    header: &mut [u32; HEADER_WORDS],
    records: &mut [u32],
    nodes: &mut [u32],
    buckets: &mut [u32],
    worker: u32,
    kind: u32,
    key: u32,
) -> Reply {
    // SAFETY: four exclusive borrows of words, each passed with its own length; the call has no other condition.
    unsafe {
        raw::welmuzra_start(
            header,
            records.as_mut_ptr(),
            records.len(),
            nodes.as_mut_ptr(),
            nodes.len(),
            buckets.as_mut_ptr(),
            buckets.len(),
            worker,
            kind,
            key,
        )
    }
}

/// One step of a worker.
#[inline]
pub fn step(
    header: &mut [u32; HEADER_WORDS],
    records: &mut [u32],
    nodes: &mut [u32],
    buckets: &mut [u32],
    worker: u32,
) -> Reply {
    // SAFETY: four exclusive borrows of words, each passed with its own length; the call has no other condition.
    unsafe {
        raw::welmuzra_step(
            header,
            records.as_mut_ptr(),
            records.len(),
            nodes.as_mut_ptr(),
            nodes.len(),
            buckets.as_mut_ptr(),
            buckets.len(),
            worker,
        )
    }
}
