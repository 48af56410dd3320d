//! Shortening a list of calls that fails: remove parts of it, halves first and single calls last, as long as
//! what is left still fails; then smaller budgets, one run in the place of several steps, line tables with fewer rows,
//! and shorter bursts.

use crate::lines::ROW_WORDS;
use crate::runtime::Handler;
use crate::scenario::{Call, Scenario};

/// The shortened scenario. `fails` tells whether a scenario still fails.
pub fn shorten(scenario: &Scenario, fails: &dyn Fn(&Scenario) -> bool) -> Scenario {
    let with = |calls: &[Call]| Scenario { calls: calls.to_vec(), ..scenario.clone() };
    let mut best = with(&remove_parts(&scenario.calls, &|calls| fails(&with(calls))));
    smaller_budgets(&mut best, fails);
    gather_steps(&mut best, fails);
    fewer_rows(&mut best, fails);
    shorter_bursts(&mut best, fails);
    best
}

/// A list without the parts that it fails without.
pub fn remove_parts<T: Clone>(list: &[T], fails: &dyn Fn(&[T]) -> bool) -> Vec<T> {
    let mut best = list.to_vec();
    let mut part = best.len().max(1);
    loop {
        let mut removed = false;
        let mut start = 0;
        while start < best.len() {
            let end = (start + part).min(best.len());
            let mut candidate = best.clone();
            candidate.drain(start..end);
            if fails(&candidate) {
                best = candidate;
                removed = true;
            } else {
                start = end;
            }
        }
        if part == 1 && !removed {
            return best;
        }
        part = (part / 2).max(1);
    }
}

/// Steps and runs one after another as one run.
fn gather_steps(best: &mut Scenario, fails: &dyn Fn(&Scenario) -> bool) {
    let steps = |call: &Call| match call {
        Call::Step => Some(1),
        Call::Run { budget } => Some(*budget),
        _ => None,
    };
    let mut at = 0;
    while at + 1 < best.calls.len() {
        let mut gathered = false;
        if let (Some(one), Some(other)) = (steps(&best.calls[at]), steps(&best.calls[at + 1])) {
            let mut candidate = best.clone();
            candidate.calls.splice(at..at + 2, [Call::Run { budget: one.saturating_add(other) }]);
            if fails(&candidate) {
                *best = candidate;
                gathered = true;
            }
        }
        if !gathered {
            at += 1;
        }
    }
}

/// Runs with as small a budget as still fails.
fn smaller_budgets(best: &mut Scenario, fails: &dyn Fn(&Scenario) -> bool) {
    for index in 0..best.calls.len() {
        while let Call::Run { budget } = best.calls[index] {
            let mut smaller = None;
            for less in [budget / 2, budget - budget / 4, budget.saturating_sub(1)] {
                if less < budget {
                    let mut candidate = best.clone();
                    candidate.calls[index] = Call::Run { budget: less };
                    if fails(&candidate) {
                        smaller = Some(candidate);
                        break;
                    }
                }
            }
            match smaller {
                Some(candidate) => *best = candidate,
                None => break,
            }
        }
    }
}

/// Bursts of as few events as still fail, with 0 behind the last one's data; one of one event as a post.
fn shorter_bursts(best: &mut Scenario, fails: &dyn Fn(&Scenario) -> bool) {
    for index in 0..best.calls.len() {
        let Call::Burst { count, words } = best.calls[index] else { continue };
        let burst = |count: u16| Call::Burst { count, words: Handler::new(count, &words).words };
        let post = Call::Post { event: words[0], datum: words[1] };
        let shorter = (1..=count.min(5)).map(burst).filter(|call| *call != best.calls[index]);
        for call in [post].into_iter().chain(shorter) {
            let mut candidate = best.clone();
            candidate.calls[index] = call;
            if fails(&candidate) {
                *best = candidate;
                break;
            }
        }
    }
}

/// A table with more rows than so many is cut to them, or left as it is.
const MANY_ROWS: usize = 70;

/// Line tables without the rows that the list fails without, and then with one row in the place of two neighbours.
fn fewer_rows(best: &mut Scenario, fails: &dyn Fn(&Scenario) -> bool) {
    for index in 0..best.calls.len() {
        let Some(table) = best.calls[index].table().cloned() else { continue };
        let rows: Vec<Vec<u16>> = table.chunks(ROW_WORDS).take(MANY_ROWS).map(|row| row.to_vec()).collect();
        let with = |rows: &[Vec<u16>]| {
            let mut candidate = best.clone();
            candidate.calls[index] = candidate.calls[index].with_table(&rows.concat());
            candidate
        };
        if !fails(&with(&rows)) {
            continue;
        }
        let left = remove_parts(&rows, &|rows| fails(&with(rows)));
        *best = with(&join_rows(left, &|rows| fails(&with(rows))));
    }
}

/// Rows of a line whose levels follow on each other, as one row.
fn join_rows(mut rows: Vec<Vec<u16>>, fails: &dyn Fn(&[Vec<u16>]) -> bool) -> Vec<Vec<u16>> {
    let follows = |one: &[u16], two: &[u16]| match (one, two) {
        ([line, _, high, _], [other, low, _, _]) => line == other && high.checked_add(1) == Some(*low),
        _ => false,
    };
    let mut at = 0;
    while at < rows.len() {
        let joined = (0..rows.len()).filter(|next| follows(&rows[at], &rows[*next])).find_map(|next| {
            let mut candidate = rows.clone();
            candidate[at][2] = rows[next][2];
            candidate.remove(next);
            fails(&candidate).then_some(candidate)
        });
        match joined {
            Some(fewer) => (rows, at) = (fewer, 0),
            None => at += 1,
        }
    }
    rows
}
