//! What was run, and how often the two differed.

use std::collections::BTreeMap;

/// How many differences are told in full.
const TOLD: u64 = 5;

#[derive(Default)]
pub struct Tally {
    pub steps: u64,
    pub prepared: u64,
    pub started: u64,
    pub doubled: u64,
    pub moved: u64,
    pub differences: u64,
    places: BTreeMap<u32, u64>,
    answers: BTreeMap<(&'static str, u32), u64>,
}

impl Tally {
    pub fn answered(&mut self, call: &'static str, number: u32) {
        *self.answers.entry((call, number)).or_default() += 1;
    }

    /// A step from this place; by place those are counted that moved their worker.
    pub fn stepped(&mut self, place: u32, answer: u32) {
        self.steps += 1;
        if !(10..=17).contains(&answer) {
            self.moved += 1;
            *self.places.entry(place).or_default() += 1;
        }
    }

    /// A difference; the first few are told.
    pub fn differs(&mut self, tell: impl FnOnce() -> String) {
        self.differences += 1;
        if self.differences <= TOLD {
            println!("difference {}: {}", self.differences, tell());
        }
    }

    pub fn print(&self) {
        println!(
            "prepared {} started {} stepped {} moved {} doubled {}",
            self.prepared, self.started, self.steps, self.moved, self.doubled
        );
        let places: Vec<String> = (self.places.iter())
            .map(|(place, times)| format!("{place}:{times}"))
            .collect();
        println!("moved from place {}", places.join(" "));
        for call in ["prepare", "start", "step"] {
            let answers: Vec<String> = (self.answers.iter())
                .filter(|((of, _), _)| *of == call)
                .map(|((_, number), times)| format!("{number}:{times}"))
                .collect();
            println!("answers to {call} {}", answers.join(" "));
        }
        println!("differences {}", self.differences);
    }
}
