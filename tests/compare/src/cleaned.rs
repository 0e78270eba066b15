//! Banks that are cleaned: with leftovers and without, damaged, of other forms and lengths. Other calls come before and behind it.

use crate::engines::adopt_both;
use crate::met::Source;
use crate::{Comparing, Found};
use second::asked;
use second::check::well_formed;
use second::cleanings;
use second::damage;
use second::layout::{NEWEST, UNCLEANED};
use second::line::Line;
use second::made;

impl Comparing {
    /// A bank with one byte in one slot past a count: no call but the cleaning takes it.
    pub fn littered(&mut self) -> Found {
        let clean = self.named_bank();
        for _ in 0..3 {
            let mut bank = clean.clone();
            damage::slot::<NEWEST>(&mut self.random, &mut bank);
            self.met.littered(&clean, &bank);
            self.cleaning(Source::Littered, &bank)?;
        }
        Ok(())
    }

    /// Cleanings of a bank from each source.
    pub fn cleanings(&mut self) -> Found {
        let littered = made::with_leftovers(&mut self.random);
        self.cleaning(Source::Cleaned, &littered)?;
        let clean = self.named_bank();
        self.cleaning(Source::CleanedClean, &clean)?;
        for _ in 0..2 {
            let mut damaged = littered.clone();
            damage::bytes::<UNCLEANED>(&mut self.random, &mut damaged);
            self.cleaning(Source::CleanedDamaged, &damaged)?;
        }
        let earlier = match self.random.below(2) {
            0 => self.earlier_bank(),
            _ => self.earlier_bank_with_records(),
        };
        self.cleaning(Source::CleanedEarlier, &earlier)?;
        let other = self.other_length(littered);
        self.cleaning(Source::CleanedLength, &other)?;
        let any = cleanings::any(&mut self.random);
        self.cleaning(Source::CleanedAny, &any)
    }

    /// A call, unless it would make a bank anew, then the cleaning; what that leaves, if it is a bank, takes every other call.
    fn cleaning(&mut self, source: Source, bank: &[u8]) -> Found {
        let mut pair = self.pair(source, bank);
        let size = made::size(&mut self.random);
        let before = asked::any(&mut self.random, size, 970);
        if !matches!(before, Line::Make { .. }) {
            self.take(source, &mut pair, &before)?;
        }
        let littered = !well_formed(&pair.archive);
        self.take(source, &mut pair, &Line::Clean)?;
        if !well_formed(&pair.archive) {
            return Ok(());
        }
        self.adopt_behind(littered, &pair.archive)?;
        for _ in 0..self.random.between(1, 6) {
            let line = match self.random.below(20) {
                0 => Line::Clean,
                _ => asked::fitting(&mut self.random, &pair.archive),
            };
            let answer = self.answered(source, &mut pair, &line)?;
            if let (true, Some(answer)) = (littered, answer) {
                self.met.behind(&line, answer);
            }
        }
        Ok(())
    }

    /// Now and then what a cleaning left is given to adoption.
    fn adopt_behind(&mut self, littered: bool, bank: &[u8]) -> Found {
        if self.left() == 0 || !self.random.permille(200) {
            return Ok(());
        }
        let answer = adopt_both(bank, self.fault)?;
        self.met.adoption(Source::AdoptedNamed, answer);
        if littered {
            self.met.adoption_behind(answer);
        }
        Ok(())
    }
}
