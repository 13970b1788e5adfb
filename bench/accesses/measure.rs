//! Runs of every version, compared.

use crate::compare::{compare, Plant};
use crate::ordinary::{self, number};
use crate::patterns::Case;
use crate::times::{self, Times};
use crate::versions::{versions, Outcome, Version, ASKING, BOTH_HAVE};
use std::time::Duration;

/// A difference to plant in one version's outcomes.
pub type Planted = Option<(Plant, &'static str)>;

/// Runs a version and compares what it answered and left with what is right.
pub fn compared(case: &Case, version: &Version, right: &Outcome, planted: Planted) -> Result<Outcome, String> {
    let mut got = version.run(case);
    if let Some((plant, name)) = planted {
        if name == version.name {
            plant.into(&mut got);
        }
    }
    compare(case, version, right, &got)?;
    Ok(got)
}

/// Every version of the edition once, for the comparison alone.
pub fn compare_all(case: &Case, right: &Outcome, planted: Planted) -> Result<(), String> {
    let able = |version: &&Version| version.wild || !case.wild;
    let mut able = versions(case.edition).iter().filter(able);
    able.try_for_each(|version| compared(case, version, right, planted).map(drop))
}

/// So many rounds, each run compared.
pub fn rounds(case: &Case, right: &Outcome, rounds: usize, planted: Planted) -> Result<Times, String> {
    let versions = versions(case.edition);
    let run = |version: usize| Ok(compared(case, &versions[version], right, planted)?.took);
    times::rounds(versions.len(), rounds, run)
}

/// Rounds of several editions' cases, with those versions that all editions have: first the first case's, then the next one's.
pub fn rounds_of_both(cases: &[(Case, Outcome)], rounds: usize, planted: Planted) -> Result<Times, String> {
    let run = |at: usize| {
        let (case, right) = &cases[at / BOTH_HAVE];
        Ok(compared(case, &versions(case.edition)[at % BOTH_HAVE], right, planted)?.took)
    };
    times::rounds(cases.len() * BOTH_HAVE, rounds, run)
}

/// Whether the versions that ask shape and lengths at each access refuse all of them by number 1, and leave the buffers.
pub fn refused_for_shape(case: &Case) -> Result<(), String> {
    let answers = vec![ordinary::Answer::refused(number::SHAPE).packed(); case.accesses.len()];
    let right = Outcome { took: Duration::ZERO, answers, board: case.start.clone() };
    ASKING.iter().try_for_each(|&version| compared(case, &versions(case.edition)[version], &right, None).map(drop))
}
