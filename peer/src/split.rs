//! Split order (figure 2) and the tree of buckets.

/// A regular key's split key: the reversal of the key with bit 31 set.
pub fn regular(key: u32) -> u32 {
    (key | 0x8000_0000).reverse_bits()
}

/// A dummy's split key: the reversal of its bucket number.
pub fn dummy(bucket: u32) -> u32 {
    bucket.reverse_bits()
}

/// `GET_PARENT`: the bucket with its top set bit cleared.
pub fn parent(bucket: u32) -> u32 {
    match bucket.checked_ilog2() {
        Some(top) => bucket & !(1 << top),
        None => 0,
    }
}

/// Whether taking the parent repeatedly leads from `wanted` to `bucket`, with `wanted` itself counted.
pub fn on_path(bucket: u32, wanted: u32) -> bool {
    let mut at = wanted;
    while at > bucket {
        at = parent(at);
    }
    at == bucket
}

/// The bucket on `wanted`'s path whose parent is `bucket`.
pub fn next_down(bucket: u32, wanted: u32) -> u32 {
    let mut at = wanted;
    while parent(at) != bucket && at != 0 {
        at = parent(at);
    }
    at
}
