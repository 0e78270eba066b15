//! Whether bytes are a well-formed bank, said by three: the archive's accept, the second engine's check, and the check in
//! `check.c`. `compare` holds them against each other on random banks.

use crate::engines::archive;
use crate::rows::ACCEPT;
use second::check::well_formed;
use second::damage;
use second::layout::*;
use second::leftovers;
use second::made;
use second::random::Random;

extern "C" {
    fn check_bank(bank: *const u8, len: usize) -> i32;
}

/// The C check's verdict.
pub fn check(bank: &[u8]) -> bool {
    // Safe since the pointer is valid for the length, and the check only reads.
    unsafe { check_bank(bank.as_ptr(), bank.len()) != 0 }
}

/// The archive's answers to `ACCEPT`: code 1, and code 2.
const REFUSED: u64 = 1;
const ACCEPTED: u64 = 2;

/// The verdict of all three, or who said what. The bytes stand in an allocation of exactly their length.
pub fn agreed(bytes: &[u8]) -> Result<bool, String> {
    let mut bank: Box<[u8]> = bytes.into();
    let verdicts = [well_formed(&bank), check(&bank)];
    let answer = archive(&mut bank, &ACCEPT);
    match (answer, verdicts) {
        (ACCEPTED, [true, true]) => Ok(true),
        (REFUSED, [false, false]) => Ok(false),
        (_, [second, check]) => Err(format!(
            "archive answers {answer}, second engine {}, C check {}",
            said(second),
            said(check)
        )),
    }
}

fn said(verdict: bool) -> &'static str {
    match verdict {
        true => "accepts",
        false => "refuses",
    }
}

/// Where random bytes come from.
#[derive(Clone, Copy)]
enum Source {
    Reached,
    Made,
    Littered,
    Slot,
    Damaged,
    Length,
    Sizes,
    Short,
}

const SOURCES: [&str; 8] = [
    "reached by a random script",
    "made by hand",
    "with leftovers",
    "one byte past a count",
    "with damaged bytes",
    "of a wrong length",
    "all down, any N and P",
    "short strings of bytes",
];

/// A short string has fewer bytes than this.
const SHORT: u32 = 64;

/// Of a hundred, few are reached: a script takes much longer than the rest.
fn random_bytes(random: &mut Random) -> (Source, Vec<u8>) {
    match random.below(100) {
        0 => (Source::Reached, made::reached(random)),
        1..=24 => (Source::Made, made::bank::<NEWEST>(random)),
        25..=29 => (Source::Littered, littered(random)),
        30..=44 => (Source::Slot, one_byte_past(random)),
        45..=84 => (Source::Damaged, damaged(random)),
        85..=91 => (Source::Length, of_wrong_length(random)),
        92..=94 => (Source::Sizes, all_down(random)),
        _ => (Source::Short, short(random)),
    }
}

/// A well-formed bank to damage.
fn good(random: &mut Random) -> Vec<u8> {
    let mut bank = match random.below(100) {
        0 => made::reached(random),
        1..=19 => made::fresh(made::size::<NEWEST>(random)),
        _ => made::bank::<NEWEST>(random),
    };
    if random.permille(200) {
        lure(&mut bank);
    }
    bank
}

/// Behind the first area's 32 slots stands the second area's access number. It may be any: here it reads as a record's
/// mark, page and board, the next one, so that 33 records aren't refused for the 33rd.
fn lure(bank: &mut [u8]) {
    let layout = Layout::of(bank);
    let [first, second] = GOT_OWN;
    for board in 0..layout.boards {
        let named = (board + 1) % layout.boards;
        let number = u32::from_le_bytes([first, second, 0, named as u8]);
        put32(bank, layout.area(board, 1), number);
    }
}

fn damaged(random: &mut Random) -> Vec<u8> {
    let mut bank = good(random);
    damage::bytes::<NEWEST>(random, &mut bank);
    bank
}

/// Well formed but for slots past a count.
fn littered(random: &mut Random) -> Vec<u8> {
    let mut bank = made::bank::<NEWEST>(random);
    leftovers::put::<NEWEST>(random, &mut bank);
    bank
}

fn one_byte_past(random: &mut Random) -> Vec<u8> {
    let mut bank = good(random);
    damage::slot::<NEWEST>(random, &mut bank);
    bank
}

fn of_wrong_length(random: &mut Random) -> Vec<u8> {
    let mut bank = good(random);
    damage::length::<NEWEST>(random, &mut bank);
    bank
}

/// All boards down and all pages empty, which is well formed wherever N and P are in range.
fn all_down(random: &mut Random) -> Vec<u8> {
    let layout: Layout = Layout {
        boards: random.pick(&[0, 1, 2, MAX_BOARDS, MAX_BOARDS + 1, 16]),
        pages: random.pick(&[0, 1, 2, MAX_PAGES, MAX_PAGES + 1, 32]),
    };
    let mut bank = vec![0; layout.length()];
    bank[..HEAD_AND_SIZE].copy_from_slice(&head(layout));
    for board in 0..layout.boards {
        bank[layout.state(board)] = DOWN;
        put16(&mut bank, layout.fuse(board), NO_FUSE);
    }
    bank
}

const HEAD_AND_SIZE: usize = 4;

fn head(layout: Layout) -> [u8; HEAD_AND_SIZE] {
    [HEAD[0], HEAD[1], layout.boards as u8, layout.pages as u8]
}

/// Any bytes, often behind as much of a head as there is room for.
fn short(random: &mut Random) -> Vec<u8> {
    let mut bytes = vec![0; random.below(SHORT) as usize];
    made::fill(random, &mut bytes);
    if random.permille(700) {
        let head = head(made::size(random));
        let room = head.len().min(bytes.len());
        bytes[..room].copy_from_slice(&head[..room]);
    }
    bytes
}

/// Whether the three agree on so many random banks of a seed; how many each source had accepted and refused, or the first
/// on which they don't agree, is printed.
pub fn compare(seed: u64, count: u64) -> bool {
    let mut random = Random::new(seed);
    let mut met = [[0_u64; 2]; SOURCES.len()];
    for index in 1..=count {
        let (source, bytes) = random_bytes(&mut random);
        match agreed(&bytes) {
            Ok(accepted) => met[source as usize][accepted as usize] += 1,
            Err(verdicts) => {
                let (source, length) = (SOURCES[source as usize], bytes.len());
                println!("seed {seed}, bank {index}, {source}, {length} bytes: {verdicts}");
                return false;
            }
        }
    }
    let title = format!("banks of seed {seed}");
    println!("{title:28}{:>10}{:>10}", "accepted", "refused");
    for (name, [refused, accepted]) in SOURCES.iter().zip(met) {
        println!("{name:28}{accepted:>10}{refused:>10}");
    }
    let [refused, accepted] = [0, 1].map(|verdict| met.iter().map(|of| of[verdict]).sum::<u64>());
    println!("agree: {} verdicts of archive, second engine and C check, {accepted} accepted and {refused} refused", accepted + refused);
    true
}
