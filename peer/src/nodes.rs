//! The lent node words: split key, link and standing of each node, numbered from 1.

use crate::answer::Damaged;

pub const FREE: u32 = 0;
pub const TAKEN: u32 = 0x8000_0000;
pub const WAITING_TOP: u32 = 65_535;
pub const NODE_WORDS: usize = 3;

/// The node words of a register, of which it has `all`.
pub struct Nodes<'a> {
    words: &'a mut [u32],
    all: u32,
}

impl<'a> Nodes<'a> {
    /// The first `all` nodes of a lent table; the words beyond stay out of reach.
    pub fn new(words: &'a mut [u32], all: u32) -> Self {
        Nodes {
            words: &mut words[..all as usize * NODE_WORDS],
            all,
        }
    }

    fn word(&mut self, node: u32, which: usize) -> &mut u32 {
        &mut self.words[(node as usize - 1) * NODE_WORDS + which]
    }

    pub fn split(&mut self, node: u32) -> &mut u32 {
        self.word(node, 0)
    }

    pub fn link(&mut self, node: u32) -> &mut u32 {
        self.word(node, 1)
    }

    pub fn standing(&mut self, node: u32) -> &mut u32 {
        self.word(node, 2)
    }

    /// The link of a node that must be there, if the link can be one.
    pub fn read_link(&mut self, node: u32) -> Result<u32, Damaged> {
        let top = 2 * self.all + 1;
        let link = *self.link(present(node)?);
        if link > top {
            return Err(Damaged);
        }
        Ok(link)
    }

    /// The lowest free node from `first` to `last`.
    pub fn lowest_free(&self, first: u32, last: u32) -> Option<u32> {
        let part = &self.words[(first as usize - 1) * NODE_WORDS..last as usize * NODE_WORDS];
        let at = part.chunks_exact(NODE_WORDS).position(|n| n[2] == FREE)?;
        Some(first + at as u32)
    }

    /// Nobody waits for this worker any more.
    pub fn sweep(&mut self, worker: u32) {
        for node in self.words.chunks_exact_mut(NODE_WORDS) {
            if (1..=WAITING_TOP).contains(&node[2]) {
                node[2] &= !(1 << worker);
            }
        }
    }
}

/// A node number that the step must follow, free or write.
pub fn present(node: u32) -> Result<u32, Damaged> {
    if node == 0 {
        Err(Damaged)
    } else {
        Ok(node)
    }
}
