//! The search for a seed at which something goes wrong.

/// Such a seed, and what went wrong.
pub struct Failure {
    pub seed: u64,
    pub why: String,
}

/// The first of so many seeds at which a trial fails.
pub fn first_failure(
    seed: u64,
    count: u64,
    mut trial: impl FnMut(u64) -> Result<(), String>,
) -> Option<Failure> {
    (seed..seed.saturating_add(count)).find_map(|seed| {
        let why = trial(seed).err()?;
        Some(Failure { seed, why })
    })
}

/// Says how a search ended; false if it found a failure.
pub fn told(failure: Option<Failure>, right: &str, wrong: &str) -> bool {
    match &failure {
        None => println!("{right}"),
        Some(Failure { seed, why }) => println!("{wrong}, seed {seed}: {why}"),
    }
    failure.is_none()
}
