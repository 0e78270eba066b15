//! A table of cases that calls are held against: how many calls there were, and how often each case came.

use crate::calls::Answer;

/// What a case is called, and whether a call with its answer is one.
pub type Row<T> = (&'static str, fn(&T, &Answer) -> bool);

pub struct Cases<T: 'static> {
    /// What is counted, and by what: the words around the number of calls.
    words: (&'static str, &'static str),
    rows: &'static [Row<T>],
    calls: u64,
    counts: Vec<u64>,
}

impl<T> Cases<T> {
    pub fn new(words: (&'static str, &'static str), rows: &'static [Row<T>]) -> Cases<T> {
        Cases {
            words,
            rows,
            calls: 0,
            counts: vec![0; rows.len()],
        }
    }

    pub fn count(&mut self, call: &T, answer: &Answer) {
        self.calls += 1;
        for (count, (_, fits)) in self.counts.iter_mut().zip(self.rows) {
            *count += fits(call, answer) as u64;
        }
    }

    /// The cases that never came.
    pub fn missing(&self) -> impl Iterator<Item = &'static str> + '_ {
        let rows = self.rows.iter().zip(&self.counts);
        rows.filter(|(_, count)| **count == 0)
            .map(|((name, _), _)| *name)
    }

    pub fn print(&self) {
        let (what, by) = self.words;
        println!("{what} {}, {by}:", self.calls);
        for ((name, _), count) in self.rows.iter().zip(&self.counts) {
            println!("  {name}: {count}");
        }
    }
}
