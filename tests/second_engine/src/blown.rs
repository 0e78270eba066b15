//! Fuses that blew, by the store that they blew at, and checkpoints by what they found in the area that they write.

use crate::watch::{phase_name, phases, Phase, Watch, CHECKPOINTS, PHASES};

const AREAS: [&str; 2] = ["no record", "records"];

/// A checkpoint that a fuse ended before its head was stored, at the head or at the selector; or that none ended.
const ENDS: usize = 4;

pub struct Blown {
    phases: [u64; PHASES],
    checkpoints: [[[u64; ENDS]; AREAS.len()]; CHECKPOINTS.len()],
}

impl Blown {
    pub fn new() -> Blown {
        Blown {
            phases: [0; PHASES],
            checkpoints: Default::default(),
        }
    }

    /// Counts a call that the engine has just made.
    pub fn count(&mut self, watch: &Watch) {
        if let Some(phase) = watch.blown {
            self.phases[phase] += 1;
        }
        if let Some((during, records)) = watch.checkpoint {
            let end = match (watch.blown, watch.phase) {
                (Some(_), Phase::Frame { .. }) => 0,
                (Some(_), Phase::Head { .. }) => 1,
                (Some(_), Phase::Selector { .. }) => 2,
                _ => 3,
            };
            self.checkpoints[during as usize][(records > 0) as usize][end] += 1;
        }
    }

    /// What was never met and can be.
    pub fn never_met(&self) -> usize {
        let phases = phases().map(|phase| self.phases[phase]);
        let checkpoints = self.checkpoints.as_flattened().as_flattened();
        let counts = phases.chain(checkpoints.iter().copied());
        counts.filter(|count| *count == 0).count()
    }

    pub fn print(&self) {
        println!("fuses blown in:");
        for phase in phases() {
            println!("  {}: {}", phase_name(phase), self.phases[phase]);
        }
        println!("checkpoints by what the area had, with a fuse blown before its head, at it, at the selector, and whole:");
        for (checkpoint, areas) in CHECKPOINTS.iter().zip(self.checkpoints) {
            for (area, [before, head, selector, whole]) in AREAS.iter().zip(areas) {
                println!("  {checkpoint}, {area}: {before} {head} {selector} {whole}");
            }
        }
    }
}
