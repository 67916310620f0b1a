//! Chooses random schedules so that each answer and each refusal occurs in few lines.

use crate::case::Case;
use crate::coverage::Coverage;
use crate::generate::{self, Choices, Members};
use crate::players::Player;

/// How many lines are tried before it is given up that each of them occurs.
const LINES_TRIED: usize = 400_000;

/// How many lines of groups there are where each answer would occur in fewer.
const LEAST_GROUP_LINES: usize = 4_000;

/// Takes the random schedules in which something occurs that did not occur before, and then the first ones, up to the lines
/// that are wanted. Half of those are of groups, or all. What occurs is what the reference answers.
pub fn chosen_cases(reference: &dyn Player, choices: &Choices, fixed: &[Case]) -> Result<Vec<Case>, String> {
    let mut coverage = Coverage::default();
    for (case, played) in fixed.iter().zip(reference.play(fixed)?) {
        coverage.count(case, &played);
    }
    let kinds: Vec<bool> = match choices.members {
        Members::One => vec![false],
        Members::OneAndGroups => vec![false, true],
        Members::Groups => vec![true],
    };
    let lines = choices.lines / kinds.len();
    let mut chosen = Vec::new();
    for is_group in kinds {
        let lines = if is_group { lines.max(LEAST_GROUP_LINES) } else { lines };
        chosen.extend(chosen_of_kind(reference, choices, is_group, lines, &mut coverage)?);
    }
    Ok(chosen)
}

fn chosen_of_kind(
    reference: &dyn Player,
    choices: &Choices,
    is_group: bool,
    lines: usize,
    coverage: &mut Coverage,
) -> Result<Vec<Case>, String> {
    let missing = |coverage: &Coverage| {
        let words = if is_group { coverage.missing_of_groups() } else { coverage.missing_of_one(choices) };
        words.len()
    };
    let (mut chosen, mut others) = (Vec::new(), Vec::new());
    for case in generate::random_cases(choices, is_group, LINES_TRIED.max(lines)) {
        let before = missing(coverage);
        if before > 0 {
            let played = reference.play(std::slice::from_ref(&case))?;
            coverage.count(&case, &played[0]);
        }
        let list = if missing(coverage) < before { &mut chosen } else { &mut others };
        list.push(case);
    }
    let mut length: usize = chosen.iter().map(|case: &Case| case.lines().len()).sum();
    for case in others {
        if length >= lines {
            break;
        }
        length += case.lines().len();
        chosen.push(case);
    }
    Ok(chosen)
}
