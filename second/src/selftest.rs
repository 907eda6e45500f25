//! Many generated histories, each request checked against a plain list of the pairs in force: in
//! pools of edition 1, which both owners see alike, and in pools of edition 2, which they share.

use crate::call::Answer;
use crate::edition::{Edition, EDITIONS};
use crate::events::Events;
use crate::room_told::Told;
use crate::style::STYLES;
use crate::trial::one_history;

/// Slots, requests in a history, histories of each style; the last in edition 2.
const PLAN: [(usize, usize, u64, u64); 7] = [
    (1, 150, 20, 4),
    (2, 150, 20, 4),
    (3, 300, 60, 6),
    (4, 300, 80, 8),
    (6, 400, 60, 6),
    (12, 500, 60, 6),
    (128, 1_000, 8, 1),
];

/// What happened in the histories of an edition.
#[derive(Default)]
pub struct Met {
    pub requests: u64,
    pub accepted: u64,
    /// How often each of 3 to 8 was answered.
    pub refused: [u64; 9],
    pub tallest: i32,
    /// Pools that were carried to another of the same length, and those that had no room there.
    pub carried: u64,
    pub carried_refused_7: u64,
    /// The room that was told before inserts.
    pub told: Told,
    pub events: Events,
}

impl Met {
    pub fn count(&mut self, answer: &Answer) {
        self.requests += 1;
        match answer.number {
            0 => self.accepted += 1,
            number => self.refused[number as usize] += 1,
        }
    }

    /// All that has to have happened: every event and every refusal of a request, both ends of a
    /// carrying, and what a room can tell; and in edition 2, what there is to share.
    fn wanted(&self, edition: Edition) -> Vec<(String, u64)> {
        let refused = (3..=8).map(|number| (format!("refused_{number}"), self.refused[number]));
        let carried = [("carried", self.carried), ("carried_refused_7", self.carried_refused_7)];
        let events = self.events.named().into_iter().chain(carried).chain(self.told.named());
        let shares = (edition == Edition::Two).then_some(self.events.shares.named());
        let named = events.chain(shares.into_iter().flatten());
        named.map(|(name, count)| (name.to_string(), count)).chain(refused).collect()
    }

    fn line(&self, edition: Edition) -> String {
        let wanted = self.wanted(edition);
        let fields: Vec<String> =
            wanted.iter().map(|(name, count)| format!("{name}={count}")).collect();
        let Met { requests, accepted, tallest, .. } = self;
        format!(
            "edition {}: {} requests={requests} accepted={accepted} tallest={tallest}",
            edition.number(),
            fields.join(" "),
        )
    }
}

#[derive(Default)]
pub struct Report {
    pub passed: u64,
    pub failed: u64,
    failures: Vec<String>,
    lines: Vec<String>,
}

impl Report {
    /// Failures, the counters, and last `N passed, 0 failed`.
    pub fn text(&self) -> String {
        let mut lines = self.failures.clone();
        lines.extend(self.lines.clone());
        lines.push(format!("{} passed, {} failed\n", self.passed, self.failed));
        lines.join("\n")
    }

    fn fail(&mut self, why: String) {
        self.failed += 1;
        self.failures.push(format!("failed: {why}"));
    }
}

/// Runs the plan. Each history counts as one; an event that never happened counts as failed.
pub fn run() -> Report {
    let mut report = Report::default();
    for edition in EDITIONS {
        let mut met = Met::default();
        for (slots, count, first, second) in PLAN {
            let seeds = if edition == Edition::One { first } else { second };
            for seed in 1..=seeds {
                of_each_style(edition, seed, slots, count, &mut met, &mut report);
            }
        }
        for (name, _) in met.wanted(edition).into_iter().filter(|(_, count)| *count == 0) {
            report.fail(format!("edition {}: {name} never happened", edition.number()));
        }
        report.lines.push(met.line(edition));
    }
    report
}

fn of_each_style(
    edition: Edition,
    seed: u64,
    slots: usize,
    count: usize,
    met: &mut Met,
    report: &mut Report,
) {
    for (name, style) in STYLES {
        match one_history(edition, style, seed, slots, count, met) {
            Ok(()) => report.passed += 1,
            Err(why) => {
                let which = format!("edition {}, {name}, seed {seed}", edition.number());
                report.fail(format!("{which}, {slots} slots, {why}"));
            }
        }
    }
}
