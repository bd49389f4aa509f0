//! The same schedule over the library and over the peer, by time, or one of the two alone for a count of its instructions.

use peer::header::Header;
use peer::record::Record;
use peer::register::{self, Lent};
use std::process::ExitCode;
use std::time::{Duration, Instant};
use welmuzra::{Limits, HEADER_WORDS, NODE_WORDS, RECORD_WORDS};

/// A call of a schedule: a start where the kind isn't 0, else a step.
#[derive(Clone, Copy)]
struct Call {
    worker: u32,
    kind: u32,
    key: u32,
}

/// A register, and how many steps its schedule has.
struct Case {
    name: &'static str,
    limits: [u32; 4],
    keys: u32,
    steps: u32,
}

const CASES: [Case; 6] = [
    case("large", [1024, 4096, 16, 2], 60_000),
    case("small", [4, 8, 4, 1], 200_000),
    case("n40", [16, 16, 8, 2], 200_000),
    case("n152", [64, 80, 8, 2], 200_000),
    case("n656", [128, 512, 16, 2], 100_000),
    case("n2576", [512, 2048, 16, 2], 60_000),
];

const fn case(name: &'static str, limits: [u32; 4], steps: u32) -> Case {
    Case {
        name,
        limits,
        keys: limits[1],
        steps,
    }
}

impl Case {
    fn nodes(&self) -> u32 {
        self.limits[..3].iter().sum()
    }

    /// The next operation: first three of four keys are inserted, then all workers are at few keys.
    fn operation(&self, drawn: u32, filled: &mut u32, worker: u32) -> Call {
        let (kind, key) = if *filled < self.keys * 3 / 4 {
            *filled += 1;
            (1, *filled * 7)
        } else {
            (1 + drawn % 3, drawn / 3 % 24)
        };
        Call { worker, kind, key }
    }

    /// The calls of the schedule, found by running it on the peer.
    fn schedule(&self) -> Vec<Call> {
        let mut tables = Tables::new(self);
        let mut calls = Vec::new();
        let (mut seed, mut filled, mut steps) = (7, 0, 0);
        while steps < self.steps {
            let drawn = draw(&mut seed);
            let worker = drawn % self.limits[2];
            let call = if tables.own_records[worker as usize].place == 0 {
                self.operation(drawn / 16, &mut filled, worker)
            } else {
                steps += 1;
                let (kind, key) = (0, 0);
                Call { worker, kind, key }
            };
            let (header, mut lent) = tables.own();
            peer_call(header, &mut lent, &call);
            calls.push(call);
        }
        calls
    }
}

/// A number that looks random.
fn draw(seed: &mut u64) -> u32 {
    *seed = seed
        .wrapping_mul(6_364_136_223_846_793_005)
        .wrapping_add(1_442_695_040_888_963_407);
    (*seed >> 33) as u32
}

/// A prepared register for either side.
struct Tables {
    header: [u32; HEADER_WORDS],
    records: Vec<u32>,
    own_header: Header,
    own_records: Vec<Record>,
    nodes: Vec<u32>,
    buckets: Vec<u32>,
}

impl Tables {
    fn new(case: &Case) -> Self {
        let [m, k, w, l] = case.limits;
        let mut tables = Tables {
            header: [0; HEADER_WORDS],
            records: vec![0; w as usize * RECORD_WORDS],
            own_header: Header::default(),
            own_records: vec![Record::default(); w as usize],
            nodes: vec![0; case.nodes() as usize * NODE_WORDS],
            buckets: vec![0; m as usize],
        };
        let limits = Limits {
            buckets: m,
            keys: k,
            workers: w,
            load: l,
        };
        let Tables {
            header,
            records,
            nodes,
            buckets,
            ..
        } = &mut tables;
        welmuzra::prepare(header, records, nodes, buckets, limits);
        tables.own_header = Header::from_words(&tables.header);
        tables
    }

    /// What the peer is lent.
    fn own(&mut self) -> (&mut Header, Lent<'_>) {
        let lent = Lent {
            nodes: &mut self.nodes,
            buckets: &mut self.buckets,
            records: &mut self.own_records,
        };
        (&mut self.own_header, lent)
    }
}

#[no_mangle]
#[inline(never)]
fn library_calls(tables: &mut Tables, calls: &[Call]) -> u64 {
    let Tables {
        header,
        records,
        nodes,
        buckets,
        ..
    } = tables;
    let mut sum = 0;
    for call in calls {
        let reply = if call.kind == 0 {
            welmuzra::step(header, records, nodes, buckets, call.worker)
        } else {
            welmuzra::start(
                header,
                records,
                nodes,
                buckets,
                call.worker,
                call.kind,
                call.key,
            )
        };
        sum += u64::from(reply.answer) + u64::from(reply.steps);
    }
    sum
}

#[inline(always)]
fn peer_call(header: &mut Header, lent: &mut Lent, call: &Call) -> u64 {
    let answer = if call.kind == 0 {
        register::step(header, call.worker, lent)
    } else {
        register::start(header, call.worker, call.kind, call.key, lent)
    };
    u64::from(answer.number) + u64::from(answer.steps)
}

#[no_mangle]
#[inline(never)]
fn peer_calls(tables: &mut Tables, calls: &[Call]) -> u64 {
    let (header, mut lent) = tables.own();
    calls
        .iter()
        .map(|call| peer_call(header, &mut lent, call))
        .sum()
}

/// The least time of several runs, and what the answers add up to.
fn timed(case: &Case, calls: &[Call], run: fn(&mut Tables, &[Call]) -> u64) -> (Duration, u64) {
    let mut best = (Duration::MAX, 0);
    for _ in 0..7 {
        let mut tables = Tables::new(case);
        let begun = Instant::now();
        let sum = run(&mut tables, calls);
        best = (best.0.min(begun.elapsed()), sum);
    }
    best
}

fn by_time(case: &Case, calls: &[Call]) -> bool {
    let (library, sum) = timed(case, calls, library_calls);
    let (peer, own_sum) = timed(case, calls, peer_calls);
    let each = |time: Duration| time.as_nanos() as f64 / f64::from(case.steps);
    println!(
        "{} N {} steps {}: library {:.0} ns a step, peer {:.0}, ratio {:.3}",
        case.name,
        case.nodes(),
        case.steps,
        each(library),
        each(peer),
        each(library) / each(peer),
    );
    sum == own_sum
}

/// `speed cases`, `speed time [CASE]`, `speed library CASE` or `speed peer CASE`.
fn main() -> ExitCode {
    let args: Vec<String> = std::env::args().skip(1).collect();
    let wanted = args.get(1).map(String::as_str);
    let mut same = true;
    if args.first().is_some_and(|word| word == "cases") {
        for case in &CASES {
            println!("{} {} {}", case.name, case.nodes(), case.steps);
        }
        return ExitCode::SUCCESS;
    }
    for case in CASES
        .iter()
        .filter(|case| wanted.is_none_or(|name| name == case.name))
    {
        let calls = case.schedule();
        let mut tables = Tables::new(case);
        match args.first().map(String::as_str) {
            Some("library") => println!("{}", library_calls(&mut tables, &calls)),
            Some("peer") => println!("{}", peer_calls(&mut tables, &calls)),
            _ => same &= by_time(case, &calls),
        }
    }
    if same {
        ExitCode::SUCCESS
    } else {
        ExitCode::FAILURE
    }
}
