//! Compares the proved line runner with the second engine's, input by input. It ends at the first difference, with status 1.

mod runners;
mod scripts;

use scripts::SOURCES;
use second::fault::{self, Fault};
use second::random::Random;
use std::path::PathBuf;
use std::process::ExitCode;

const USAGE: &str = "usage: compare [--fault NAME] [SEED [LINES]]";
const DEFAULT_LINES: u64 = 1_000_000;

/// How many inputs and lines came, how many lines were done, and how many could be read.
#[derive(Default, Clone, Copy)]
struct Met {
    inputs: u64,
    lines: u64,
    done: u64,
    readable: u64,
}

impl Met {
    fn add(&mut self, output: &[u8]) {
        let text = String::from_utf8_lossy(output);
        let mut lines: Vec<&str> = text.lines().collect();
        lines.pop();
        self.inputs += 1;
        self.lines += lines.len() as u64;
        for line in lines {
            let code = line.split(' ').nth(1);
            self.done += u64::from(code == Some("0"));
            self.readable += u64::from(code != Some("9"));
        }
    }
}

struct Comparing {
    program: PathBuf,
    folder: PathBuf,
    fault: Fault,
    random: Random,
    met: [Met; SOURCES.len()],
}

impl Comparing {
    /// One input through both; says where they first differ, and keeps the input.
    fn compare(&mut self, source: usize) -> bool {
        let input = scripts::input(&mut self.random, SOURCES[source]);
        let ends = runners::pieces(&mut self.random, input.len());
        let wanted = runners::second(&input, self.fault);
        self.met[source].add(&wanted);
        match runners::proved(&self.program, &input, &ends) {
            Ok(output) if output == wanted => true,
            Ok(output) => {
                let at = output
                    .iter()
                    .zip(&wanted)
                    .take_while(|(a, b)| a == b)
                    .count();
                let line = wanted[..at].iter().filter(|&&byte| byte == b'\n').count() + 1;
                let kept = self.folder.join("differs.txt");
                std::fs::write(&kept, &input).expect("the input is kept");
                println!(
                    "they differ in the output's line {line}; the input is in {}",
                    kept.display()
                );
                false
            }
            Err(error) => {
                println!("the runner failed: {error}");
                false
            }
        }
    }

    fn lines(&self) -> u64 {
        self.met.iter().map(|met| met.lines).sum()
    }

    fn print(&self) {
        for (source, met) in SOURCES.iter().zip(&self.met) {
            println!(
                "{source:?}: {} inputs, {} lines, {} readable, {} done",
                met.inputs, met.lines, met.readable, met.done
            );
        }
    }
}

fn main() -> ExitCode {
    let mut arguments: Vec<String> = std::env::args().skip(1).collect();
    let mut fault = Fault::None;
    if let Some(place) = arguments.iter().position(|argument| argument == "--fault") {
        let Some(named) = arguments.get(place + 1).and_then(|name| fault::named(name)) else {
            eprintln!("{USAGE}");
            return ExitCode::from(2);
        };
        fault = named;
        arguments.drain(place..place + 2);
    }
    let numbers: Option<Vec<u64>> = arguments
        .iter()
        .skip(2)
        .map(|text| text.parse().ok())
        .collect();
    let (Some(numbers), [program, folder, ..]) = (numbers, &arguments[..]) else {
        eprintln!("{USAGE}");
        return ExitCode::from(2);
    };
    let mut comparing = Comparing {
        program: program.into(),
        folder: folder.into(),
        fault,
        random: Random::new(numbers.first().copied().unwrap_or(1)),
        met: Default::default(),
    };
    let wanted = numbers.get(1).copied().unwrap_or(DEFAULT_LINES);
    while comparing.lines() < wanted {
        let source = comparing.random.below(SOURCES.len() as u32) as usize;
        if !comparing.compare(source) {
            return ExitCode::FAILURE;
        }
    }
    comparing.print();
    println!(
        "both runners print the same for all {} lines",
        comparing.lines()
    );
    ExitCode::SUCCESS
}
