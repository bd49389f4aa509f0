//! The search (figure 14) and the two swaps that place and take out a node (figure 13).

use crate::answer::{Damaged, Flow, NO, YES};
use crate::nodes::{present, FREE};
use crate::record::*;
use crate::register::Turn;

impl Turn<'_> {
    fn go(&mut self, place: u32) -> Result<Flow, Damaged> {
        self.record.place = place;
        Ok(Flow::Going)
    }

    pub fn f1(&mut self) -> Result<Flow, Damaged> {
        let link = self.nodes.read_link(self.record.start)?;
        self.record.prev = self.record.start;
        self.go_on_to(link / 2)
    }

    pub fn f2(&mut self) -> Result<Flow, Damaged> {
        let link = self.nodes.read_link(self.record.cur)?;
        self.record.marked = link % 2;
        self.record.next = link / 2;
        self.go(F3)
    }

    pub fn f3(&mut self) -> Result<Flow, Damaged> {
        let link = self.nodes.read_link(self.record.prev)?;
        if link != 2 * self.record.cur {
            return self.go(F1);
        }
        if self.record.marked == 1 {
            return self.go(F4);
        }
        let cur = present(self.record.cur)?;
        let split = *self.nodes.split(cur);
        let sought = self.record.sought();
        if split == sought {
            return self.found();
        }
        if split > sought {
            return self.not_found();
        }
        self.record.prev = cur;
        self.go_on_to(self.record.next)
    }

    pub fn f4(&mut self) -> Result<Flow, Damaged> {
        if !self.unlink()? {
            return self.go(F1);
        }
        self.go_on_to(self.record.next)
    }

    pub fn l2(&mut self) -> Result<Flow, Damaged> {
        let for_dummy = self.record.errand == FOR_DUMMY;
        let placed = present(if for_dummy {
            self.record.dummy
        } else {
            self.record.held
        })?;
        let prev = present(self.record.prev)?;
        let expected = 2 * self.record.cur;
        // the write to the placed node comes first, so a swap of that very link would see it
        let seen = if prev == placed {
            expected
        } else {
            self.nodes.read_link(prev)?
        };
        *self.nodes.link(placed) = expected;
        if seen != expected {
            return self.go(F1);
        }
        *self.nodes.link(prev) = 2 * placed;
        if for_dummy {
            return self.go(B8);
        }
        self.record.held = 0;
        self.go(I8)
    }

    pub fn d4a(&mut self) -> Result<Flow, Damaged> {
        let cur = self.record.cur;
        let expected = 2 * self.record.next;
        if self.nodes.read_link(cur)? != expected {
            self.record.errand = FOR_KEY;
            return self.go(F1);
        }
        *self.nodes.link(cur) = expected + 1;
        self.go(D4B)
    }

    pub fn d4b(&mut self) -> Result<Flow, Damaged> {
        if self.unlink()? {
            return self.go(D6);
        }
        self.record.errand = EXTRA;
        self.go(F1)
    }

    /// Swap prev's link from (0, cur) to (0, next); a node taken out waits for all who are busy.
    fn unlink(&mut self) -> Result<bool, Damaged> {
        let Record {
            prev, cur, next, ..
        } = self.record;
        if self.nodes.read_link(prev)? != 2 * cur {
            return Ok(false);
        }
        let cur = present(cur)?;
        *self.nodes.link(prev) = 2 * next;
        *self.nodes.standing(cur) = self.header.busy;
        Ok(true)
    }

    fn go_on_to(&mut self, node: u32) -> Result<Flow, Damaged> {
        self.record.cur = node;
        if node == 0 {
            self.not_found()
        } else {
            self.go(F2)
        }
    }

    fn not_found(&mut self) -> Result<Flow, Damaged> {
        match self.record.errand {
            FOR_DUMMY => self.go(L2),
            EXTRA => self.go(D6),
            _ if self.record.kind == INSERT => self.go(L2),
            _ => Ok(Flow::Ended(NO)),
        }
    }

    fn found(&mut self) -> Result<Flow, Damaged> {
        match (self.record.errand, self.record.kind) {
            (FOR_DUMMY, _) => {
                *self.nodes.standing(present(self.record.dummy)?) = FREE;
                self.record.dummy = self.record.cur;
                self.go(B8)
            }
            (EXTRA, _) => self.go(D6),
            (_, INSERT) => {
                *self.nodes.standing(present(self.record.held)?) = FREE;
                Ok(Flow::Ended(NO))
            }
            (_, FIND) => Ok(Flow::Ended(YES)),
            _ => self.go(D4A),
        }
    }
}
