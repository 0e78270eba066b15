//! Where the banks come from that are given to a call on a whole bank, and how often each code came.

use crate::random::Random;

/// What a source is called, which codes can come, and how it makes a bank.
pub type Source = (
    &'static str,
    &'static [u8],
    fn(random: &mut Random) -> Vec<u8>,
);

pub struct SourceCounters {
    sources: &'static [Source],
    codes: Vec<[u64; 12]>,
}

impl SourceCounters {
    pub fn new(sources: &'static [Source]) -> SourceCounters {
        SourceCounters {
            sources,
            codes: vec![Default::default(); sources.len()],
        }
    }

    /// Tries a bank of each source; a trial gives the code that was right, which must be one that can come.
    pub fn try_all(
        &mut self,
        random: &mut Random,
        mut trial: impl FnMut(Vec<u8>, &mut Random) -> Result<u8, String>,
    ) -> Result<(), String> {
        for (source, (name, codes, bank)) in self.sources.iter().enumerate() {
            let bank = bank(random);
            let code = trial(bank, random).map_err(|why| format!("{name}: {why}"))?;
            if !codes.contains(&code) {
                return Err(format!("{name}: code {code} can't come"));
            }
            self.codes[source][code as usize] += 1;
        }
        Ok(())
    }

    fn rows(&self) -> impl Iterator<Item = (&'static str, u8, u64)> + '_ {
        let sources = self.sources.iter().zip(&self.codes);
        sources.flat_map(|((name, codes, _), counts)| {
            let count = |code: &u8| (*name, *code, counts[*code as usize]);
            codes.iter().map(count)
        })
    }

    /// How many banks there were.
    pub fn banks(&self) -> u64 {
        self.codes.as_flattened().iter().sum()
    }

    pub fn never_met(&self) -> usize {
        self.rows().filter(|(_, _, count)| *count == 0).count()
    }

    pub fn print(&self) {
        for (name, code, count) in self.rows() {
            println!("  {name}, code {code}: {count}");
        }
    }
}
