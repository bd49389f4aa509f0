//! A register that owns the tables which its calls are lent.

use crate::calls::{self, Limits, Reply, HEADER_WORDS, NODE_WORDS, RECORD_WORDS};

/// The kinds of operation, by the scope paper's numbers.
#[derive(Clone, Copy, Debug, PartialEq, Eq)]
pub enum Kind {
    Insert = 1,
    Find = 2,
    Delete = 3,
}

/// A number from 10 to 17: the call changed nothing.
#[derive(Clone, Copy, Debug, PartialEq, Eq)]
pub struct Refusal(pub u32);

/// What one step came to.
#[derive(Clone, Copy, Debug, PartialEq, Eq)]
pub enum Step {
    Going,
    Yes { steps: u32 },
    No { steps: u32 },
    Full { steps: u32 },
    NoDummy { steps: u32 },
}

/// A prepared register with its tables.
pub struct Register {
    header: [u32; HEADER_WORDS],
    records: Vec<u32>,
    nodes: Vec<u32>,
    buckets: Vec<u32>,
}

impl Register {
    /// Prepares a register, or says why not.
    pub fn new(limits: Limits) -> Result<Self, Refusal> {
        let Limits {
            buckets,
            keys,
            workers,
            ..
        } = limits;
        let all = [buckets, keys, workers].map(|n| n.min(4096) as usize);
        let mut register = Register {
            header: [0; HEADER_WORDS],
            records: vec![0; all[2] * RECORD_WORDS],
            nodes: vec![0; all.iter().sum::<usize>() * NODE_WORDS],
            buckets: vec![0; all[0]],
        };
        let reply = calls::prepare(
            &mut register.header,
            &mut register.records,
            &mut register.nodes,
            &mut register.buckets,
            limits,
        );
        accepted(reply).map(|_| register)
    }

    /// A worker starts an operation.
    pub fn start(&mut self, worker: u32, kind: Kind, key: u32) -> Result<(), Refusal> {
        let reply = calls::start(
            &mut self.header,
            &mut self.records,
            &mut self.nodes,
            &mut self.buckets,
            worker,
            kind as u32,
            key,
        );
        accepted(reply).map(|_| ())
    }

    /// A worker takes one step.
    pub fn step(&mut self, worker: u32) -> Result<Step, Refusal> {
        let reply = calls::step(
            &mut self.header,
            &mut self.records,
            &mut self.nodes,
            &mut self.buckets,
            worker,
        );
        accepted(reply)
    }

    /// How many buckets are in use.
    pub fn size(&self) -> u32 {
        self.header[4]
    }

    /// The count, which passes below zero on purpose while a delete is ahead of its insert.
    pub fn count(&self) -> i32 {
        self.header[5] as i32
    }
}

fn accepted(reply: Reply) -> Result<Step, Refusal> {
    let steps = reply.steps;
    match reply.answer {
        0 => Ok(Step::Going),
        1 => Ok(Step::Yes { steps }),
        2 => Ok(Step::No { steps }),
        18 => Ok(Step::Full { steps }),
        19 => Ok(Step::NoDummy { steps }),
        refusal => Err(Refusal(refusal)),
    }
}
