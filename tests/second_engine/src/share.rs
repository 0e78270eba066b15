//! Stores against what events grant: the share of F-9's bound that was met.

use crate::layout::Layout;
use crate::wear::granted;
use std::fmt;

#[derive(Clone, Copy)]
pub struct Share {
    pub stores: u64,
    pub events: u64,
    pub layout: Layout,
}

impl Default for Share {
    /// Nothing stored in no event, of the smallest bank.
    fn default() -> Share {
        let layout = Layout {
            boards: 1,
            pages: 1,
        };
        Share {
            stores: 0,
            events: 0,
            layout,
        }
    }
}

impl Share {
    pub fn bound(&self) -> u64 {
        self.events * granted(self.layout)
    }

    /// Whether N + 1 is the larger of the two numbers.
    pub fn by_boards(&self) -> bool {
        self.layout.boards + 1 > self.layout.pages + 2
    }

    pub fn excess(&self) -> u64 {
        self.stores.saturating_sub(self.bound())
    }

    /// Of equal shares the one of more events says more.
    pub fn is_larger(&self, other: &Share) -> bool {
        let (one, two) = (self.stores * other.bound(), other.stores * self.bound());
        one > two || one == two && self.events > other.events
    }

    /// Rounded down: only the bound itself is 100.
    pub fn percent(&self) -> String {
        match (self.stores * 1000).checked_div(self.bound()) {
            Some(permille) => format!("{}.{} %", permille / 10, permille % 10),
            None => "-".into(),
        }
    }
}

impl fmt::Display for Share {
    fn fmt(&self, out: &mut fmt::Formatter) -> fmt::Result {
        let Layout { boards, pages } = self.layout;
        let (events, each) = (self.events, granted(self.layout));
        write!(
            out,
            "{} stores of {events} * {each} = {}",
            self.stores,
            self.bound()
        )?;
        write!(out, " (N {boards}, P {pages})")
    }
}
