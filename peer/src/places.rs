//! The places outside the search: figure 5, line by line.

use crate::answer::{Damaged, Flow, NO_DUMMY_NODE, NO_KEY_NODE, YES};
use crate::nodes::{present, FREE, TAKEN};
use crate::record::*;
use crate::register::Turn;
use crate::split;

impl Turn<'_> {
    /// One step: one shared access and the private work that follows.
    pub fn one(&mut self) -> Result<Flow, Damaged> {
        match self.record.place {
            I1 => self.i1(),
            SZ => self.sz(),
            TB => self.tb(),
            B2 => self.b2(),
            B4 => self.b4(),
            F1 => self.f1(),
            F2 => self.f2(),
            F3 => self.f3(),
            F4 => self.f4(),
            L2 => self.l2(),
            B8 => self.b8(),
            I8 => self.i8(),
            I9 => self.i9(),
            I10 => self.i10(),
            D4A => self.d4a(),
            D4B => self.d4b(),
            D6 => self.d6(),
            _ => Err(Damaged),
        }
    }

    fn next(&mut self, place: u32) -> Result<Flow, Damaged> {
        self.record.place = place;
        Ok(Flow::Going)
    }

    fn i1(&mut self) -> Result<Flow, Damaged> {
        let first = self.header.dummy_nodes() + 1;
        let Some(node) = self.nodes.lowest_free(first, self.header.all_nodes()) else {
            return Ok(Flow::Ended(NO_KEY_NODE));
        };
        self.take(node, split::regular(self.record.key));
        self.record.held = node;
        self.next(SZ)
    }

    fn sz(&mut self) -> Result<Flow, Damaged> {
        self.record.wanted = self.record.key % self.header.size;
        self.next(TB)
    }

    fn tb(&mut self) -> Result<Flow, Damaged> {
        let dummy = self.read_bucket(self.record.wanted)?;
        if dummy == 0 {
            self.record.making = self.record.wanted;
            return self.next(B2);
        }
        self.record.errand = FOR_KEY;
        self.record.start = dummy;
        self.next(F1)
    }

    fn b2(&mut self) -> Result<Flow, Damaged> {
        let parent = split::parent(self.record.making);
        let dummy = self.read_bucket(parent)?;
        if dummy == 0 {
            self.record.making = parent;
            return self.next(B2);
        }
        self.record.start = dummy;
        self.next(B4)
    }

    fn b4(&mut self) -> Result<Flow, Damaged> {
        let Some(node) = self.nodes.lowest_free(1, self.header.dummy_nodes()) else {
            if self.record.kind == INSERT {
                *self.nodes.standing(present(self.record.held)?) = FREE;
            }
            return Ok(Flow::Ended(NO_DUMMY_NODE));
        };
        self.take(node, split::dummy(self.record.making));
        self.record.dummy = node;
        self.record.errand = FOR_DUMMY;
        self.next(F1)
    }

    fn b8(&mut self) -> Result<Flow, Damaged> {
        let Record {
            wanted,
            making,
            dummy,
            ..
        } = self.record;
        self.buckets[making as usize] = present(dummy)?;
        self.record.dummy = 0;
        if making == wanted {
            return self.next(TB);
        }
        self.record.making = split::next_down(making, wanted);
        self.next(B2)
    }

    fn i8(&mut self) -> Result<Flow, Damaged> {
        self.record.size = self.header.size;
        self.next(I9)
    }

    fn i9(&mut self) -> Result<Flow, Damaged> {
        let old = self.header.count;
        let size = self.record.size;
        self.header.count = old.wrapping_add(1);
        let negative = (old as i32) < 0;
        if !negative && old / size > self.header.load && size < self.header.buckets {
            return self.next(I10);
        }
        Ok(Flow::Ended(YES))
    }

    fn i10(&mut self) -> Result<Flow, Damaged> {
        if self.header.size == self.record.size {
            self.header.size = 2 * self.record.size;
        }
        Ok(Flow::Ended(YES))
    }

    fn d6(&mut self) -> Result<Flow, Damaged> {
        self.header.count = self.header.count.wrapping_sub(1);
        Ok(Flow::Ended(YES))
    }

    fn take(&mut self, node: u32, split: u32) {
        *self.nodes.split(node) = split;
        *self.nodes.standing(node) = TAKEN;
    }

    fn read_bucket(&self, bucket: u32) -> Result<u32, Damaged> {
        let dummy = self.buckets[bucket as usize];
        if dummy > self.header.all_nodes() {
            return Err(Damaged);
        }
        Ok(dummy)
    }
}
