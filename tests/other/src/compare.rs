//! Two implementations held against each other on the same calls.

use crate::case_probes::probes;
use crate::equal_clocks;
use crate::laws::obeyed;
use crate::lettering;
use crate::make::random::Random;
use crate::make::{case, Case};
use crate::operations::Operations;
use crate::probe::{answer, Answer, Probe};
use crate::report::show_run;
use crate::special;

/// The first thing on which the two do not agree, or a law that one breaks.
#[derive(Debug)]
pub struct Difference {
    /// The random case's number from 1; 0 for the special calls.
    pub case: u64,
    pub text: String,
}

/// The special calls, then so many random cases. Gives the number of calls compared.
pub fn compare(
    trusted: &Operations,
    tried: &Operations,
    seed: u64,
    count: u64,
) -> Result<u64, Difference> {
    let mut calls = compare_special(trusted, tried)?;
    calls += compare_random(trusted, tried, seed, count)?;
    Ok(calls)
}

fn compare_special(trusted: &Operations, tried: &Operations) -> Result<u64, Difference> {
    let calls = [
        special::probes(),
        lettering::probes(),
        equal_clocks::probes(),
    ]
    .concat();
    for probe in &calls {
        compare_answer(&answer(trusted, probe), tried, probe)
            .map_err(|text| Difference { case: 0, text })?;
    }
    Ok(calls.len() as u64)
}

pub fn compare_random(
    trusted: &Operations,
    tried: &Operations,
    seed: u64,
    count: u64,
) -> Result<u64, Difference> {
    let mut calls = 0;
    for number in 1..=count {
        let asked = Asked::of(trusted, seed, number);
        asked
            .compare(tried)
            .map_err(|text| Difference { case: number, text })?;
        calls += asked.calls.len() as u64;
    }
    Ok(calls)
}

/// For each of several implementations the first random case, from 1, in which it differs, if one does.
pub fn first_differences(
    trusted: &Operations,
    tried: &[Operations],
    seed: u64,
    count: u64,
) -> Vec<Option<u64>> {
    let mut found = vec![None; tried.len()];
    for number in 1..=count {
        let asked = Asked::of(trusted, seed, number);
        let unfound = tried.iter().zip(&mut found).filter(|(_, at)| at.is_none());
        for (operations, at) in unfound {
            *at = asked.compare(operations).is_err().then_some(number);
        }
        if found.iter().all(Option::is_some) {
            break;
        }
    }
    found
}

/// The generator of a case's marks and lengths, apart from the one that makes the case.
pub fn marks(seed: u64, number: u64) -> Random {
    Random::new(!seed, number)
}

/// A case with its calls and what is expected of each.
struct Asked {
    case: Case,
    calls: Vec<(Probe, Answer)>,
    /// What the laws go on with.
    random: Random,
}

impl Asked {
    fn of(trusted: &Operations, seed: u64, number: u64) -> Asked {
        let case = case(seed, number);
        let mut random = marks(seed, number);
        let probes = probes(trusted, &case, &mut random).into_iter();
        let calls = probes.map(|probe| (probe.clone(), answer(trusted, &probe)));
        Asked {
            calls: calls.collect(),
            case,
            random,
        }
    }

    fn compare(&self, tried: &Operations) -> Result<(), String> {
        for (probe, expected) in &self.calls {
            compare_answer(expected, tried, probe)?;
        }
        obeyed(tried, &self.case, &mut self.random.clone())
            .map_err(|complaint| describe_law(&complaint, &self.case))
    }
}

fn compare_answer(expected: &Answer, tried: &Operations, probe: &Probe) -> Result<(), String> {
    let seen = answer(tried, probe);
    if *expected == seen {
        return Ok(());
    }
    Err(format!(
        "{}--- expected\n{}--- seen\n{}",
        probe.describe(),
        expected.describe(),
        seen.describe()
    ))
}

fn describe_law(complaint: &str, case: &Case) -> String {
    let mut text = format!("{complaint}\n");
    show_run(&mut text, &case.run);
    if let Some(easier) = &case.easier {
        text.push_str("--- B\n");
        show_run(&mut text, easier);
    }
    text
}
