//! What F-7's call must answer, by document 02's own words: by lists of pages, and without the engine's own loop.
//! After every call of a script F-7's claim is looked at, after one in three the call is held against it; both also past a
//! broken premise.

use crate::asked;
use crate::calls::{Answer, Call};
use crate::damage;
use crate::disturbed::{Disturbed, HAPPENED, NOTHING};
use crate::fault::Fault;
use crate::layout::*;
use crate::logs::{self, Mismatch};
use crate::made;
use crate::named::Records;
use crate::random::Random;
use crate::runner::Session;
use crate::verdicts::taken;

/// What two boards' logs have of one giving to the other, as lists of pages.
pub struct Dealings {
    taker: usize,
    /// The giver's stored showns that name the taker, and the taker's stored gots that name the giver.
    pub shown: Vec<usize>,
    pub got: Vec<usize>,
    /// The taker's volatile gots that name the giver.
    pub not_stored: Vec<usize>,
}

impl Dealings {
    /// Of two boards, the lower one giving first.
    pub fn of(bank: &[u8], board: usize, other: usize) -> [Dealings; 2] {
        let [lower, higher] =
            [board.min(other), board.max(other)].map(|board| Records::of(bank, board));
        let between = |giver: &Records, taker: &Records| Dealings {
            taker: taker.board,
            shown: giver.shown_to(taker.board),
            got: taker.stored_from(giver.board),
            not_stored: taker.volatile_from(giver.board),
        };
        [between(&lower, &higher), between(&higher, &lower)]
    }

    /// How many gots agree before the first whose page differs or that has no partner; none if all do.
    pub fn agreeing(&self) -> Option<usize> {
        agreeing(&self.shown, &self.got)
    }

    /// The same, were the volatile gots stored.
    pub fn agreeing_if_stored(&self) -> Option<usize> {
        agreeing(&self.shown, &[&self.got[..], &self.not_stored].concat())
    }

    fn mismatch(&self) -> Option<Mismatch> {
        self.agreeing().map(|agreeing| Mismatch {
            number: agreeing as u32 + 1,
            taker: self.taker,
        })
    }
}

/// That of the first direction, else that of the second.
fn first_of(ways: &[Dealings; 2]) -> Option<Mismatch> {
    ways.iter().find_map(Dealings::mismatch)
}

fn agreeing(shown: &[usize], got: &[usize]) -> Option<usize> {
    (0..got.len()).find(|at| shown.get(*at) != Some(&got[*at]))
}

/// What a comparison of two boards of a well-formed bank answers.
fn wanted(bank: &[u8], board: u32, other: u32) -> Answer {
    let boards = Layout::of(bank).boards as u32;
    if board >= boards || other >= boards {
        return Answer::refused(2);
    }
    if board == other {
        return Answer::refused(12);
    }
    let ways = Dealings::of(bank, board as usize, other as usize);
    first_of(&ways).map_or(Answer::default(), |found| Answer {
        value: found.number,
        who: found.taker as u32,
        ..Answer::default()
    })
}

/// Whether a comparison was answered as it must be, stores nothing and leaves every byte; any other call fits.
pub fn fits(before: &[u8], call: &Call, answer: &Answer, bank: &[u8]) -> Result<(), String> {
    let Call::CompareLogs { board, other } = call else {
        return Ok(());
    };
    let wanted = wanted(before, *board, *other);
    if *answer != wanted {
        return Err(format!("{call} answers {answer:?} instead of {wanted:?}"));
    }
    match bank == before {
        true => Ok(()),
        false => Err(format!("{call} writes to the bank")),
    }
}

/// How a comparison on the bank of a seed, made by hand, goes wrong, if one does. Each finds one more record changed.
pub fn wrong_at(seed: u64, fault: Fault) -> Option<String> {
    let mut random = Random::new(seed);
    let mut bank = made::bank::<NEWEST>(&mut random);
    (0..8).find_map(|_| {
        damage::record(&mut random, &mut bank);
        let call = asked::comparison(&mut random, Layout::of(&bank), 900);
        let (answer, left, _) = taken(&bank, &call, fault);
        fits(&bank, &call, &answer, &left).err()
    })
}

/// The call itself is made, on a copy of the bank, behind one call of a script in so many.
const MADE_EVERY: u32 = 3;

/// What was looked at behind the calls of a script.
#[derive(Clone, Default)]
pub struct Compared {
    /// Pairs of boards under F-7's claim.
    claimed: u64,
    /// Pairs in turn by what happened to either board: without and with a mismatch.
    in_turn: [[u64; 2]; HAPPENED.len()],
    /// Pairs in turn to which nothing happened, with a stored got between them.
    with_gots: u64,
    same_board: u64,
}

impl Compared {
    /// Looks at the bank that a call left: at all pairs that the claim is about, and sometimes at the pair in turn.
    pub fn take(&mut self, session: &Session, disturbed: &Disturbed) -> Result<(), String> {
        let bank = session.bank.as_deref().unwrap_or(&[]);
        self.claim(bank, session.fault, disturbed)?;
        match session.lines % MADE_EVERY {
            0 => self.in_turn(session, bank, disturbed),
            _ => Ok(()),
        }
    }

    /// Two boards that since the fresh bank were neither cut nor checkpointed, and made no call that ended in code 8,
    /// have no mismatch.
    fn claim(&mut self, bank: &[u8], fault: Fault, disturbed: &Disturbed) -> Result<(), String> {
        let free = |board: &usize| !disturbed.is(*board);
        for higher in (1..Layout::of(bank).boards).filter(free) {
            for lower in (0..higher).filter(free) {
                self.claimed += 1;
                if let Some(found) = logs::compare::<NEWEST>(bank, lower, higher, fault) {
                    return Err(format!(
                        "nothing happened to {lower} and {higher}: {found:?}"
                    ));
                }
            }
        }
        Ok(())
    }

    /// The call for the two boards whose turn it is, in either order and sometimes the same.
    fn in_turn(
        &mut self,
        session: &Session,
        bank: &[u8],
        disturbed: &Disturbed,
    ) -> Result<(), String> {
        let boards = Layout::of(bank).boards;
        let turn = (session.lines / MADE_EVERY) as usize % (boards * boards);
        let (board, other) = (turn / boards, turn % boards);
        let call = Call::CompareLogs {
            board: board as u32,
            other: other as u32,
        };
        let (answer, left, _) = taken(bank, &call, session.fault);
        match board == other {
            true => self.same_board += 1,
            false => self.count(bank, [board, other], disturbed, &answer),
        }
        fits(bank, &call, &answer, &left)
    }

    fn count(
        &mut self,
        bank: &[u8],
        [board, other]: [usize; 2],
        disturbed: &Disturbed,
        answer: &Answer,
    ) {
        let happened = disturbed.either(board, other);
        self.in_turn[happened][(answer.value > 0) as usize] += 1;
        if happened == NOTHING {
            let ways = Dealings::of(bank, board, other);
            self.with_gots += ways.iter().any(|way| !way.got.is_empty()) as u64;
        }
    }

    pub fn add(&mut self, other: &Compared) {
        let counts = self.in_turn.as_flattened_mut().iter_mut();
        let others = other.in_turn.as_flattened();
        counts
            .zip(others)
            .for_each(|(count, other)| *count += other);
        self.claimed += other.claimed;
        self.with_gots += other.with_gots;
        self.same_board += other.same_board;
    }

    /// A mismatch where nothing happened is what the claim rules out; all else can come.
    pub fn never_met(&self) -> usize {
        let [[free, _], ref disturbed @ ..] = self.in_turn;
        let counts = [self.claimed, free, self.with_gots, self.same_board];
        let counts = counts.iter().chain(disturbed.as_flattened());
        counts.filter(|count| **count == 0).count()
    }

    pub fn print(&self) {
        println!(
            "pairs of boards under the claim about two logs: {}",
            self.claimed
        );
        println!("comparisons behind a call, by what happened to either board, without and with a mismatch:");
        for (name, [without, with]) in HAPPENED.iter().zip(self.in_turn) {
            println!("  {name}: {without} {with}");
        }
        println!(
            "  nothing, with a stored got between them: {}",
            self.with_gots
        );
        println!("  the same board twice: {}", self.same_board);
    }
}
