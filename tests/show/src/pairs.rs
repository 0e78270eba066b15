//! Whether the words about two stored logs are, for every pair of boards, those of the second engine's answer on the same bytes.

use crate::compared;
use second::calls::Call;
use second::fault::Fault;
use second::layout::*;
use second::verdicts::taken;

/// How many pairs were met, by what their logs are found to be.
#[derive(Default)]
pub struct Pairs {
    agree: u64,
    other_page: u64,
    no_shown: u64,
}

impl Pairs {
    /// Reads the words about a well-formed bank; it must stay as it is.
    pub fn take(&mut self, bytes: &[u8]) -> Result<(), String> {
        let mut given = bytes.to_vec();
        let section = compared::print(&mut given, None);
        let boards = Layout::of(bytes).boards;
        if given != bytes {
            return Err("the comparison changes the bytes".into());
        }
        if boards == 1 && !section.is_empty() {
            return Err(format!("one board has no pair: {section}"));
        }
        let mut pairs = (0..boards).flat_map(|other| (0..other).map(move |board| [board, other]));
        pairs.try_for_each(|two| self.pair(bytes, &section, two))
    }

    fn pair(&mut self, bytes: &[u8], section: &str, two: [usize; 2]) -> Result<(), String> {
        let pair = format!("{} and {}", two[0], two[1]);
        let words = said(section, &pair).ok_or(format!("boards {pair} aren't named once"))?;
        let wanted = wanted(bytes, two);
        let (agree, no_shown) = (wanted.is_empty(), wanted.len() == WITHOUT_SHOWN);
        self.agree += agree as u64;
        self.no_shown += no_shown as u64;
        self.other_page += !(agree || no_shown) as u64;
        let verdict = (words == "agree", words.contains("there is no shown"));
        match verdict == (agree, no_shown) && numbers(words) == wanted {
            true => Ok(()),
            false => Err(format!(
                "boards {pair}: {words}, and the second engine's numbers are {wanted:?}"
            )),
        }
    }

    pub fn all_met(&self) -> bool {
        self.agree > 0 && self.other_page > 0 && self.no_shown > 0
    }

    pub fn print(&self) {
        let Pairs {
            agree,
            other_page,
            no_shown,
        } = self;
        println!("pairs of boards: {agree} agree, {other_page} with another page, {no_shown} without a shown");
    }
}

/// What is said of a pair, if one line names it.
fn said<'a>(section: &'a str, pair: &str) -> Option<&'a str> {
    let lines = section.lines();
    let told = lines.filter_map(|line| line.strip_prefix("boards ")?.split_once(": "));
    let mut told = told.filter(|(pairs, _)| pairs.split(", ").any(|named| named == pair));
    let (_, words) = told.next()?;
    told.next().is_none().then_some(words)
}

/// The numbers in a text, in order.
fn numbers(text: &str) -> Vec<usize> {
    let digits = text.split(|letter: char| !letter.is_ascii_digit());
    digits.filter_map(|digits| digits.parse().ok()).collect()
}

/// So many numbers have the words for a got that has no shown; those for a shown of another page have two more.
const WITHOUT_SHOWN: usize = 8;

/// The numbers that the words about two boards must have, by the second engine's answer: which got of whom from whom, its number in the log and its page, the
/// same of the shown. None if the logs agree.
fn wanted(bytes: &[u8], [board, other]: [usize; 2]) -> Vec<usize> {
    let call = Call::CompareLogs {
        board: board as u32,
        other: other as u32,
    };
    let (answer, ..) = taken(bytes, &call, Fault::None);
    if answer.value == 0 {
        return Vec::new();
    }
    let (place, taker) = (answer.value as usize, answer.who as usize);
    let giver = board + other - taker;
    let got = stored(bytes, taker, giver, &[GOT_COPY, GOT_OWN])[place - 1];
    let mut numbers = vec![place, taker, giver];
    numbers.extend(got);
    numbers.extend([place, giver, taker]);
    let shown = stored(bytes, giver, taker, &[SHOWN]);
    numbers.extend(shown.get(place - 1).into_iter().flatten());
    numbers
}

/// A board's stored records of these kinds that name the other: each one's number in the log, and its page.
fn stored(bytes: &[u8], board: usize, other: usize, kinds: &[Kind]) -> Vec<[usize; 2]> {
    let layout = Layout::of(bytes);
    let area = bytes[layout.selector(board)] as usize;
    let slots = layout.records(bytes, layout.log(board, Some(area)));
    let wanted = |slot: usize| {
        kinds.contains(&kind_at(bytes, slot)) && bytes[slot + SLOT_BOARD] as usize == other
    };
    let numbered = (1..).zip(slots).filter(|(_, slot)| wanted(*slot));
    numbered
        .map(|(number, slot)| [number, bytes[slot + SLOT_PAGE] as usize])
        .collect()
}
