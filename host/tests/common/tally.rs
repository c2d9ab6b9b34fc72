//! How often each phase, each reading and each refusal was seen.

use std::collections::BTreeMap;

use inter::Refusal;

use super::block::{Block, Kind};
use super::plane::Reading;
use super::{say, Progress};

pub struct Tally {
    name: &'static str,
    progress: Progress,
    refused: BTreeMap<Refusal, u64>,
    /// By reading, if there are two, and then by fy and fx; filled where blocks are predicted.
    phases: BTreeMap<Option<Reading>, Vec<u64>>,
}

impl Tally {
    pub fn new(name: &'static str) -> Tally {
        Tally {
            name,
            progress: Progress::new(name),
            refused: BTreeMap::new(),
            phases: BTreeMap::new(),
        }
    }

    /// Counts a call by its answer.
    pub fn count<T>(&mut self, answer: Result<T, Refusal>) {
        self.progress.step();
        if let Err(refusal) = answer {
            *self.refused.entry(refusal).or_default() += 1;
        }
    }

    /// Counts a block that was predicted from a picture without margins.
    pub fn count_phase(&mut self, kind: &Kind, block: &Block) {
        self.count_in(None, kind, block);
    }

    /// Counts a block that was predicted from a picture with margins.
    pub fn count_reading(&mut self, reading: Reading, kind: &Kind, block: &Block) {
        self.count_in(Some(reading), kind, block);
    }

    fn count_in(&mut self, reading: Option<Reading>, kind: &Kind, block: &Block) {
        let steps = kind.steps();
        let (fx, fy) = block.phase(kind);
        let phases = self.phases.entry(reading).or_default();
        phases.resize((steps * steps) as usize, 0);
        phases[(fy * steps + fx) as usize] += 1;
    }

    /// To be called once every answer was found equal: says the counts, and that no phase, no
    /// reading and none of the refusals in `expected` was left out.
    pub fn finish(self, expected: &[Refusal]) {
        let Tally { name, progress, refused, phases } = self;
        progress.finish();
        assert!(refused.keys().eq(expected), "{name}: not every refusal was seen: {refused:?}");
        if !refused.is_empty() {
            let by_number = refused.iter().map(|(refusal, n)| format!("{}: {n}", refusal.number()));
            say(&format!(
                "{name}: refusals by number {}",
                by_number.collect::<Vec<_>>().join(", ")
            ));
        }
        let readings: Vec<Reading> = phases.keys().copied().flatten().collect();
        assert!(
            readings.is_empty() || readings == Reading::ALL,
            "{name}: a reading was left out: {readings:?}"
        );
        for (reading, phases) in phases {
            let how = reading.map_or(String::new(), |reading| format!(", {}", reading.name()));
            say_phases(&format!("{name}{how}"), &phases);
        }
    }
}

fn say_phases(name: &str, phases: &[u64]) {
    let (Some(least), Some(most)) = (phases.iter().min(), phases.iter().max()) else {
        return;
    };
    assert!(*least > 0, "{name}: a phase was left out: {phases:?}");
    let calls: u64 = phases.iter().sum();
    match phases.len() {
        16 => say(&format!("{name}: {calls} calls by phase, fx within fy {phases:?}")),
        count => say(&format!("{name}: {calls} calls in {count} phases, {least} to {most} each")),
    }
}
