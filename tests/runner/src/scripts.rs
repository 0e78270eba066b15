//! Inputs for a line runner: scripts that a bank can follow, lines at every limit of the format, damaged scripts, and any bytes at all.

use second::gen::generate;
use second::random::Random;

/// Where an input comes from.
#[derive(Clone, Copy, PartialEq, Debug)]
pub enum Source {
    Script,
    Limits,
    Damaged,
    AnyBytes,
}

pub const SOURCES: [Source; 4] = [
    Source::Script,
    Source::Limits,
    Source::Damaged,
    Source::AnyBytes,
];

/// Numbers at and past the limits of boards, pages, offsets, values, fuses and of all numbers.
const NUMBERS: [&str; 22] = [
    "0",
    "1",
    "2",
    "7",
    "8",
    "9",
    "15",
    "16",
    "17",
    "255",
    "256",
    "65534",
    "65535",
    "4294967295",
    "4294967296",
    "42949672950",
    "00",
    "01",
    "-1",
    "+1",
    "",
    "x",
];

pub fn input(random: &mut Random, source: Source) -> Vec<u8> {
    match source {
        Source::Script => script(random),
        Source::Limits => limits(random),
        Source::Damaged => {
            let mut bytes = match random.below(2) {
                0 => script(random),
                _ => limits(random),
            };
            damage(random, &mut bytes);
            bytes
        }
        Source::AnyBytes => any_bytes(random),
    }
}

fn script(random: &mut Random) -> Vec<u8> {
    let seed = u64::from(random.below(u32::MAX));
    let lines = random.pick(&[1, 10, 300, 2_000]);
    let mut bytes = Vec::new();
    generate(seed, lines, &mut bytes).expect("a buffer takes all");
    bytes
}

/// A line with some letter and some numbers, most of them right.
fn line_at_limits(random: &mut Random) -> Vec<u8> {
    // A shelf call's letter is none of the runner's.
    let letter = random.pick(b"NRWCKFSRWRWSHx ");
    let right = match letter {
        b'R' | b'H' => 3,
        b'W' => 4,
        b'N' | b'F' => 2,
        _ => 1,
    };
    let count = match random.permille(100) {
        true => random.below(6),
        false => right,
    };
    let mut line = vec![letter];
    for _ in 0..count {
        line.extend(match random.permille(30) {
            true => random.pick(&["  ", "\t", ""]).bytes(),
            false => " ".bytes(),
        });
        let few = match random.permille(150) {
            true => NUMBERS.len(),
            false => 3,
        };
        line.extend(random.pick(&NUMBERS[..few]).bytes());
    }
    if random.permille(30) {
        let length = random.between(60, 70) as usize;
        line.resize(length, random.pick(b" 0R"));
    }
    line
}

fn limits(random: &mut Random) -> Vec<u8> {
    let mut bytes = format!("N {} {}\n", random.below(10), random.below(18)).into_bytes();
    for _ in 0..random.below(400) {
        bytes.extend(line_at_limits(random));
        bytes.push(b'\n');
    }
    if random.permille(500) {
        bytes.pop();
    }
    bytes
}

/// Some bytes changed, taken out or put in, a piece doubled, or the end cut off.
fn damage(random: &mut Random, bytes: &mut Vec<u8>) {
    for _ in 0..random.pick(&[1, 3, 30]) {
        let at = random.below(bytes.len() as u32 + 1) as usize;
        let byte = match random.below(3) {
            0 => random.below(256) as u8,
            _ => random.pick(b"\n\n\r 0123456789NRWCKFS\0"),
        };
        match random.below(6) {
            0 | 1 if at < bytes.len() => bytes[at] = byte,
            2 if at < bytes.len() => drop(bytes.remove(at)),
            3 => {
                let end = (at + random.below(40) as usize).min(bytes.len());
                let piece = bytes[at..end].to_vec();
                bytes.splice(at..at, piece);
            }
            4 if random.permille(100) => bytes.truncate(at),
            _ => bytes.insert(at, byte),
        }
    }
}

fn any_bytes(random: &mut Random) -> Vec<u8> {
    let newlines = random.pick(&[4, 20, 100]);
    (0..random.below(20_000))
        .map(|_| match random.permille(newlines) {
            true => b'\n',
            false => random.below(256) as u8,
        })
        .collect()
}
